//! The bytes of a sheet, line by line, from front to back and each byte once. Only a line that is at fault is looked at again.

use crate::limits::Span;
use crate::Refused;

/// How far a sheet has been read.
pub struct Scan<'a> {
    sheet: &'a [u8],
    at: usize,
    line: u32,
}

impl<'a> Scan<'a> {
    pub fn new(sheet: &'a [u8]) -> Self {
        Scan { sheet, at: 0, line: 0 }
    }

    /// A refusal at the line that was read last, of no field of it.
    #[inline(never)]
    #[cold]
    pub fn refuse(&self, number: u32) -> Refused {
        self.refuse_at(number, 0)
    }

    /// A refusal at a field of that line, counted from 1.
    #[inline(never)]
    #[cold]
    pub fn refuse_at(&self, number: u32, field: u32) -> Refused {
        Refused { number, line: self.line, field }
    }

    /// The values of the line that is due, whose key is given with its `=`.
    ///
    /// All of the line's form is seen to before any of its values, for refusals 13, 2 and 12 come before refusal 3.
    #[inline]
    pub fn line<const K: usize, const N: usize>(&mut self, key: &[u8; K], spans: &[Span; N]) -> Result<[i64; N], Refused> {
        self.line += 1;
        // A line that cannot be read is looked at from its beginning, so the place moves only when it has been.
        let mut ahead = Scan { ..*self };
        let values = match ahead.values(key) {
            Some(values) => values,
            None => return Err(self.misread(key, N)),
        };
        self.at = ahead.at;
        let mut inside = true;
        for (value, span) in values.iter().zip(spans) {
            inside &= within(value, span);
        }
        if inside {
            Ok(values)
        } else {
            Err(self.beyond(&values, spans))
        }
    }

    /// What is wrong with the next line, which could not be read: 13 before 2, and 2 before 12.
    #[inline(never)]
    #[cold]
    fn misread(&self, key: &[u8], fields: usize) -> Refused {
        let rest = &self.sheet[self.at..];
        let line = match rest.iter().position(|&byte| byte == b'\n') {
            Some(lf) => &rest[..=lf],
            None => return self.refuse(13),
        };
        let commas = line.iter().filter(|&&byte| byte == b',').count();
        if !line.starts_with(key) || commas + 1 != fields {
            return self.refuse(2);
        }
        let mut again = Scan { sheet: line, at: key.len(), line: self.line };
        let mut field = 1;
        while again.number().is_some() && line.get(again.at) == Some(&b',') {
            again.at += 1;
            field += 1;
        }
        self.refuse_at(12, field)
    }

    /// Refusal 3 at the leftmost field that is outside its range.
    #[inline(never)]
    #[cold]
    fn beyond(&self, values: &[i64], spans: &[Span]) -> Refused {
        let before = values.iter().zip(spans).take_while(|(value, span)| within(value, span)).count();
        self.refuse_at(3, before as u32 + 1)
    }

    #[inline]
    fn values<const K: usize, const N: usize>(&mut self, key: &[u8; K]) -> Option<[i64; N]> {
        if self.sheet.get(self.at..self.at + K)? != key {
            return None;
        }
        self.at += K;
        let mut values = [0; N];
        for (place, value) in values.iter_mut().enumerate() {
            *value = self.number()?;
            let due = if place + 1 == N { b'\n' } else { b',' };
            if *self.sheet.get(self.at)? != due {
                return None;
            }
            self.at += 1;
        }
        Some(values)
    }

    /// One number. What may not follow it, as a digit after a 0 or a tenth digit, is for the caller, who knows what is due.
    #[inline(always)]
    fn number(&mut self) -> Option<i64> {
        let mut byte = *self.sheet.get(self.at)?;
        let negative = byte == b'-';
        if negative {
            self.at += 1;
            byte = *self.sheet.get(self.at)?;
        }
        let first = digit(byte)?;
        self.at += 1;
        if first == 0 {
            return if negative { None } else { Some(0) };
        }
        let mut value = first;
        for _ in 1..9 {
            match digit(*self.sheet.get(self.at)?) {
                Some(next) => value = 10 * value + next,
                None => break,
            }
            self.at += 1;
        }
        Some(if negative { -value } else { value })
    }

    /// Nothing may follow the last line. What does counts as the line after it.
    pub fn finish(mut self) -> Result<(), Refused> {
        if self.at == self.sheet.len() {
            return Ok(());
        }
        self.line += 1;
        Err(self.refuse(13))
    }
}

#[inline(always)]
fn within(value: &i64, span: &Span) -> bool {
    span.0 <= *value && *value <= span.1
}

#[inline(always)]
fn digit(byte: u8) -> Option<i64> {
    let value = byte.wrapping_sub(b'0');
    if value < 10 {
        Some(i64::from(value))
    } else {
        None
    }
}
