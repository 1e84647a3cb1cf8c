//! The report: 20 lines of text.

use crate::whole::nearest;
use crate::work::{Balance, HEATS};

/// What each line begins with.
pub const KEYS: [&str; HEATS + 3] = [
    "firing=", "q1=", "q2=", "q3=", "q5=", "q8=", "in=", "x1=", "x2=", "x3=", "x5=", "x7=", "x8=", "x9=", "x10=", "x11=", "useful=",
    "withset=", "eff1=", "eff2=",
];

/// The numbers 00 to 99, for two digits at a time.
const PAIRS: [[u8; 2]; 100] = {
    let mut pairs = [[0; 2]; 100];
    let mut n = 0;
    while n < 100 {
        pairs[n] = [b'0' + (n / 10) as u8, b'0' + (n % 10) as u8];
        n += 1;
    }
    pairs
};

/// A line holds a key of up to 8 bytes, a sign, up to 19 digits and an LF.
const LONGEST: usize = KEYS.len() * 29;

/// The report as it is written, before it is known whether there is room for it.
pub struct Page {
    bytes: [u8; LONGEST],
    length: usize,
}

impl Page {
    pub fn of(balance: &Balance) -> Page {
        let mut page = Page { bytes: [0; LONGEST], length: 0 };
        page.line(KEYS[0], balance.firing);
        for (key, joules) in KEYS[1..].iter().zip(balance.heats) {
            page.line(key, nearest(10 * joules, balance.product));
        }
        let [useful, withset] = balance.efficiencies();
        page.line(KEYS[HEATS + 1], useful);
        page.line(KEYS[HEATS + 2], withset);
        page
    }

    pub fn text(&self) -> &[u8] {
        &self.bytes[..self.length]
    }

    #[inline]
    fn line(&mut self, key: &str, value: i64) {
        self.put(key.as_bytes());
        if value < 0 {
            self.put(b"-");
        }
        let mut rest = value.unsigned_abs();
        let mut digits = [0; 20];
        let mut first = digits.len();
        while rest >= 100 {
            first -= 2;
            digits[first..first + 2].copy_from_slice(&PAIRS[(rest % 100) as usize]);
            rest /= 100;
        }
        let last = PAIRS[rest as usize];
        first -= 1;
        digits[first] = last[1];
        if rest >= 10 {
            first -= 1;
            digits[first] = last[0];
        }
        self.put(&digits[first..]);
        self.put(b"\n");
    }

    #[inline]
    fn put(&mut self, text: &[u8]) {
        self.bytes[self.length..self.length + text.len()].copy_from_slice(text);
        self.length += text.len();
    }
}
