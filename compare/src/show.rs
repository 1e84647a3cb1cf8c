//! A difference in words, for whoever has to find out which of the two is right.

use crate::cases::Case;
use crate::harness::Deed;
use second::Answer;
use std::fmt::Write;
use std::path::Path;
use std::{fs, io};

/// What the two that are compared are called: whose answers are due, and whose are held to them.
pub struct Names {
    pub due: &'static str,
    pub done: &'static str,
}

const TOUCHED: [(u32, &str); 3] =
    [(1, "has written before the room that was lent"), (2, "has written behind the room that was lent"), (4, "has changed the sheet")];

pub fn words(answer: &Answer) -> String {
    let Answer { refusal, line, field, length } = answer;
    let what = if *refusal == 0 { "accepted".to_string() } else { format!("refusal {refusal}") };
    format!("{what}, line {line}, field {field}, {length} bytes")
}

/// Bytes as they can be shown: what is no letter, digit or sign is written as Rust writes it.
fn shown(bytes: &[u8]) -> String {
    let text: String = bytes.iter().flat_map(|&byte| std::ascii::escape_default(byte)).map(char::from).collect();
    match text.len() {
        0..=200 => text,
        all => format!("{} ... ({all} characters)", &text[..160]),
    }
}

/// The first byte in which two rooms differ, and both lines around it.
fn first_difference(names: &Names, due: &[u8], done: &[u8]) -> Option<String> {
    if due.len() != done.len() {
        return Some(format!("the room has {} bytes and came back with {}\n", due.len(), done.len()));
    }
    let at = due.iter().zip(done).position(|(one, other)| one != other)?;
    let line = |bytes: &[u8]| {
        let start = bytes[..at].iter().rposition(|&byte| byte == b'\n').map_or(0, |lf| lf + 1);
        let end = bytes[at..].iter().position(|&byte| byte == b'\n').map_or(bytes.len(), |lf| at + lf);
        shown(&bytes[start..end])
    };
    let Names { due: one, done: other } = names;
    Some(format!("byte {at} of the room: the {one} has {}\n  and the {other} {}\n", line(due), line(done)))
}

/// What the sheet is and where the two differ.
pub fn difference(seed: u64, case: &Case, names: &Names, due: &Deed, deed: &Deed) -> String {
    let mut text = heading(seed, case);
    let both = [(names.done, deed), (names.due, due)];
    for (name, side) in both {
        let _ = writeln!(text, "the {name} says {}", words(&side.answer));
    }
    for (name, side) in both {
        for (_, what) in TOUCHED.iter().filter(|(bit, _)| side.touched & bit != 0) {
            let _ = writeln!(text, "the {name} {what}");
        }
    }
    text += &first_difference(names, &due.room, &deed.room).unwrap_or_default();
    text + &numbered(&case.sheet)
}

pub fn heading(seed: u64, case: &Case) -> String {
    let Case { number, kind, sheet, room, file } = case;
    let which = match file {
        Some(path) => path.display().to_string(),
        None => format!("sheet {number} of seed {seed}"),
    };
    format!("{which} ({kind}, {} bytes, a room of {room})\n", sheet.len())
}

/// The sheet's lines with their numbers.
pub fn numbered(sheet: &[u8]) -> String {
    let mut text = String::new();
    for (number, line) in sheet.split_inclusive(|&byte| byte == b'\n').take(200).enumerate() {
        let _ = writeln!(text, "{:5}  {}", number + 1, shown(line));
    }
    text
}

/// Keeps what belongs to a difference in this folder under `target/`: a file for each kind of bytes.
pub fn save(folder: &str, kept: &[(&str, &[u8])]) -> io::Result<()> {
    let folder = Path::new("target").join(folder);
    fs::create_dir_all(&folder)?;
    kept.iter().try_for_each(|(kind, bytes)| fs::write(folder.join("difference").with_extension(kind), bytes))
}
