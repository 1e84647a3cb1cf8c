//! The sheets that time is measured on: some that grow up to the largest, some that are made to be read in vain, and any number of firings
//! of one kind that all differ, since one sheet that comes over and over is answered faster than a clerk's, which comes once.

use crate::dice::Dice;
use crate::draft::{Draft, WALL};
use crate::valid::{self, Size, Style};
use second::limits::LONGEST;

/// Accepted sheets from the least on, each with about as many lines more as the one before.
const GROWING: [(usize, usize, usize, usize); 8] =
    [(1, 0, 0, 1), (2, 4, 4, 2), (3, 8, 8, 3), (4, 12, 12, 4), (5, 17, 17, 5), (6, 22, 22, 6), (7, 27, 27, 6), (8, 32, 32, 6)];

/// The growing ones in turn, and behind them the largest.
pub fn grown(step: u64) -> Draft {
    match GROWING.get(step as usize % (GROWING.len() + 1)) {
        Some(&(stages, setters, parts, sections)) => {
            valid::draft_of(1, &mut Dice::new(7, 7, 7), Style::Plain, Size { stages, setters, parts, sections }, None)
        }
        None => largest(),
    }
}

/// The longest accepted sheet that some throws bring, with as many lines as there can be and every number as great as it can be.
fn largest() -> Draft {
    let drafts = (0..300).map(|step| {
        let mut dice = Dice::new(8, 8, step);
        let size = valid::largest_size(&mut dice);
        valid::draft_of(1, &mut dice, Style::Corner(u64::MAX), size, None)
    });
    let accepted = drafts.filter(|draft| second::balance(&draft.bytes()).is_ok());
    accepted.max_by_key(|draft| draft.bytes().len()).expect("some are accepted")
}

/// As many bytes as a sheet may have, beginning with these.
fn filled(front: &[u8], filling: u8) -> Vec<u8> {
    let mut sheet = front.to_vec();
    sheet.resize(LONGEST, filling);
    sheet
}

/// Sheets that are refused as late as can be, or made to be searched through from end to end, in turn and with their names.
pub fn hostile(step: u64) -> (&'static str, Vec<u8>) {
    let largest = largest();
    let whole = largest.bytes();
    let mut colder = largest.clone();
    let last = *colder.places(WALL).last().expect("a reading");
    colder.rows[last].values[2] = 499;
    let mut all = vec![
        ("last-wall-colder", colder.bytes()),
        ("no-last-lf", whole[..whole.len() - 1].to_vec()),
        ("lf-after-end", filled(&whole, b'\n')),
        ("digits-after-end", filled(&whole, b'9')),
        ("only-lf", filled(b"", b'\n')),
        ("only-digits", filled(b"", b'9')),
        ("only-zero-bytes", filled(b"", 0)),
        ("one-long-number", filled(b"sheet=", b'1')),
        ("one-long-list", filled(b"sheet=1\nfiring=1\nproduct=1000\nambient=1\nfuel=3000,1\ngas=", b',')),
        ("too-long", [filled(&whole, b'\n'), b"\n".to_vec()].concat()),
    ];
    all.swap_remove(step as usize % all.len())
}

/// As many lines as larger kilns have.
fn size(dice: &mut Dice) -> Size {
    Size { stages: 4 + dice.below(3), setters: 9 + dice.below(9), parts: 9 + dice.below(10), sections: 3 + dice.below(3) }
}

/// A firing as a volunteer would write it, of about 1,445 bytes.
pub fn typical(dice: &mut Dice) -> Draft {
    let size = size(dice);
    valid::draft_of(1, dice, Style::Plain, size, None)
}

/// One as large with long numbers, and with every temperature below zero that can be.
pub fn wide(dice: &mut Dice) -> Draft {
    let size = size(dice);
    valid::draft_of(1, dice, Style::Wide, size, None)
}

#[cfg(test)]
mod tests {
    use super::*;

    /// What a stream measures is the work of a whole balance, on sheets of the length that is told.
    #[test]
    fn streams_are_accepted() {
        let mut bytes = 0;
        for step in 0..2_000 {
            let sheets = [typical, wide].map(|make| make(&mut Dice::new(1, 4, step)).bytes());
            assert!(sheets.iter().all(|sheet| second::balance(sheet).is_ok()), "step {step}");
            bytes += sheets[0].len();
        }
        assert!((1_435..1_455).contains(&(bytes / 2_000)), "{} bytes", bytes / 2_000);
    }
}
