//! A second opinion on a firing's sheet: document 01 worked out anew, with what document 02 has changed since, in whole numbers, from the
//! documents, the standard and the readings of doubtful places that docs/DECISIONS.md lists.
//!
//! The proved library is held to it. So it shares nothing with that library but the documents: whoever corrects one of the two
//! corrects it from the documents and not from the other one.
#![no_std]
#![deny(unsafe_code)]

mod flue;
pub mod limits;
pub mod logger;
mod matter;
mod print;
mod scan;
mod surface;
mod whole;
mod work;

#[cfg(feature = "export")]
mod export;

pub use matter::Analysis;
pub use print::KEYS;
pub use work::{balance, Balance, HEATS};

/// A sheet that breaks a rule: the number of the rule, the sheet's line, or line 0 for the whole sheet, and the line's field, or field 0
/// for the whole line.
#[derive(Clone, Copy, Debug, PartialEq, Eq)]
pub struct Refused {
    pub number: u32,
    pub line: u32,
    pub field: u32,
}

impl Refused {
    /// The whole sheet is refused.
    fn whole(number: u32) -> Refused {
        Refused { number, line: 0, field: 0 }
    }
}

/// What comes back for a sheet, with the meaning that `struct hallviska_answer` has in C.
#[derive(Clone, Copy, Debug, PartialEq, Eq)]
#[repr(C)]
pub struct Answer {
    pub refusal: u32,
    pub line: u32,
    pub field: u32,
    pub length: usize,
}

/// Writes the sheet's report to the front of `report`, or answers with a refusal and leaves `report` as it was.
pub fn answer(sheet: &[u8], report: &mut [u8]) -> Answer {
    let balance = match balance(sheet) {
        Ok(balance) => balance,
        Err(refused) => return refusal(refused),
    };
    let page = print::Page::of(&balance);
    let text = page.text();
    match report.get_mut(..text.len()) {
        None => refusal(Refused::whole(11)),
        Some(front) => {
            front.copy_from_slice(text);
            Answer { refusal: 0, line: 0, field: 0, length: text.len() }
        }
    }
}

fn refusal(refused: Refused) -> Answer {
    let Refused { number, line, field } = refused;
    Answer { refusal: number, line, field, length: 0 }
}
