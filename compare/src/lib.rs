//! The one maker of sheets, and the comparison of the proved library with the second opinion, in their parts.
//!
//! Sheets: `valid` makes them, `bases` has those that others begin with, `faults` and `forms` break them, `halves` and `inner` bring their
//! figures to where rounding shows, which `places` tests, `streams` has those that are measured, `cases` names the kinds and says how often
//! each comes, and `table` is for the fuzzer. The comparison: `harness` talks to the program in C that calls the library, `judge` says what
//! is due, `show` puts a difference into words, and `run` does all of it.

pub mod bases;
pub mod cases;
pub mod dice;
pub mod draft;
pub mod faults;
pub mod forms;
pub mod halves;
pub mod harness;
pub mod inner;
pub mod judge;
#[cfg(test)]
mod places;
pub mod program;
pub mod run;
pub mod show;
pub mod streams;
pub mod table;
pub mod valid;
