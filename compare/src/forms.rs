//! Sheets whose bytes are not as they should be: numbers in other forms, lines and bytes torn, lost, doubled or changed.

use crate::dice::Dice;
use std::ops::Range;

/// What a number may look like to somebody who is not document 01. `#` stands for the number's own digits.
const NUMBERS: [&[u8]; 38] = [
    b"",
    b"-",
    b"--#",
    b"-0",
    b"0",
    b"00",
    b"0#",
    b"-0#",
    b"+#",
    b"+0",
    b" #",
    b"# ",
    b"#\r",
    b"#\t",
    b"#.0",
    b"#.",
    b".#",
    b"#e0",
    b"0x#",
    b"#,",
    b",#",
    b"#,#",
    b"#=",
    b"=#",
    b"#\0",
    b"\0#",
    b"#\x80",
    b"\xc2\xb2",
    b"\xd9\xa3",
    b"#-",
    b"1000000000",
    b"9999999999",
    b"-1000000000",
    b"0000000001",
    b"4294967297",
    b"18446744073709551617",
    b"999999999",
    b"-999999999",
];

pub const NUMBER_FORMS: usize = NUMBERS.len();

/// Bytes that a careless reader takes for others.
const TELLING: [u8; 16] = *b"\n\r\0,=-+ .019:/\x80\xff";

/// The lines of a sheet, each with its LF if it has one.
fn lines(sheet: &[u8]) -> Vec<Range<usize>> {
    let mut start = 0;
    let pieces = sheet.split_inclusive(|&byte| byte == b'\n');
    pieces
        .map(|piece| {
            start += piece.len();
            start - piece.len()..start
        })
        .collect()
}

/// The fields of all lines: what stands after `=` or `,` and before `,` or LF.
fn fields(sheet: &[u8]) -> Vec<Range<usize>> {
    let mut fields = Vec::new();
    let mut start = None;
    for (at, byte) in sheet.iter().enumerate() {
        if matches!(byte, b',' | b'\n') {
            fields.extend(start.map(|start| start..at));
        }
        if matches!(byte, b',' | b'=') {
            start = Some(at + 1);
        }
    }
    fields
}

/// How many fields a sheet has.
pub fn field_count(sheet: &[u8]) -> usize {
    fields(sheet).len()
}

/// One field written in another form.
pub fn number(sheet: &mut Vec<u8>, field: usize, form: usize) {
    let place = fields(sheet)[field].clone();
    let own = sheet[place.clone()].to_vec();
    let mut text = Vec::new();
    for &byte in NUMBERS[form] {
        match byte {
            b'#' => text.extend_from_slice(&own),
            other => text.push(other),
        }
    }
    sheet.splice(place, text);
}

/// Every LF with a CR before it, or in its place.
pub fn carriage_returns(sheet: &mut Vec<u8>, dice: &mut Dice) {
    let ends: [&[u8]; 3] = [b"\r\n", b"\r", b"\n\r"];
    let end = dice.pick(&ends);
    *sheet = sheet.split(|&byte| byte == b'\n').collect::<Vec<_>>().join(end);
}

/// A line lost, doubled, moved, changed for another, run into the next, or with another key.
pub fn line(sheet: &mut Vec<u8>, dice: &mut Dice) {
    let lines = lines(sheet);
    let one = dice.pick(&(0..lines.len()).collect::<Vec<_>>());
    let other = dice.below(lines.len());
    let text = sheet[lines[one].clone()].to_vec();
    match dice.below(9) {
        0 => drop(sheet.drain(lines[one].clone())),
        1 => drop(sheet.splice(lines[one].start..lines[one].start, text)),
        2 => drop(sheet.splice(lines[other].start..lines[other].start, text)),
        3 => {
            let (first, last) = (one.min(other), one.max(other));
            let both = [sheet[lines[first].clone()].to_vec(), sheet[lines[last].clone()].to_vec()];
            let [early, late] = both;
            sheet.splice(lines[last].clone(), early);
            sheet.splice(lines[first].clone(), late);
        }
        4 => drop(sheet.remove(lines[one].end - 1)),
        5 => sheet.insert(lines[one].end - 1, dice.pick(b" ,\n\r0")),
        6 => key(sheet, &lines[one], dice),
        7 => sheet.insert(lines[one].start, dice.pick(b" \n=\xefs")),
        _ => {
            let (first, last) = (one.min(other), one.max(other));
            sheet.drain(lines[first].start..lines[last].start);
        }
    }
}

/// A fault of the whole line of this number, counted from 0: another key, no LF, nothing behind it, a comma more or less.
pub fn whole_line(sheet: &mut Vec<u8>, number: usize, dice: &mut Dice) {
    let line = lines(sheet)[number].clone();
    let comma = sheet[line.clone()].iter().position(|&byte| byte == b',');
    match dice.below(5) {
        0 => key(sheet, &line, dice),
        1 => drop(sheet.remove(line.end - 1)),
        2 => sheet.truncate(line.end - 1),
        3 => sheet.insert(line.end - 1, b','),
        _ => drop(comma.map(|at| sheet.remove(line.start + at))),
    }
}

/// A key in capitals, in the singular or plural, with a blank, or another line's.
fn key(sheet: &mut Vec<u8>, line: &Range<usize>, dice: &mut Dice) {
    let text = &sheet[line.clone()];
    let end = line.start + text.iter().position(|&byte| byte == b'=').unwrap_or(0);
    match dice.below(6) {
        0 => sheet[line.start].make_ascii_uppercase(),
        1 => sheet.insert(end, b's'),
        2 => sheet.insert(end, b' '),
        3 if end > line.start => drop(sheet.remove(end - 1)),
        4 => drop(sheet.remove(end)),
        _ => {
            let names: [&[u8]; 6] = [b"wall", b"end", b"oil", b"stage", b"part", b""];
            let name = dice.pick(&names).to_vec();
            sheet.splice(line.start..end, name);
        }
    }
}

/// One to three bytes changed, put in, taken out, or bits of them turned.
pub fn bytes(sheet: &mut Vec<u8>, dice: &mut Dice) {
    for _ in 0..dice.pick(&[1, 1, 1, 2, 3]) {
        if sheet.is_empty() {
            return;
        }
        let at = dice.below(sheet.len());
        let other = if dice.once_in(2) { dice.pick(&TELLING) } else { dice.below(256) as u8 };
        match dice.below(6) {
            0 => sheet[at] ^= 1 << dice.below(8),
            1 => sheet[at] = other,
            2 => sheet.insert(at, other),
            3 => drop(sheet.remove(at)),
            // A digit for a digit keeps the form and moves a value, perhaps out of its range.
            4 => digit(sheet, at, b'0' + dice.below(10) as u8),
            _ => sheet.swap(at, dice.below(at + 1)),
        }
    }
}

fn digit(sheet: &mut [u8], from: usize, new: u8) {
    if let Some(old) = sheet[from..].iter_mut().find(|byte| byte.is_ascii_digit()) {
        *old = new;
    }
}

/// Something after the end: an LF, a byte, a line, a whole sheet.
pub fn tail(sheet: &mut Vec<u8>, dice: &mut Dice) {
    let tails: [&[u8]; 7] = [b"\n", b" ", b"\0", b"end=1\n", b"x", b"\r\n", b"\x1a"];
    match dice.below(8) {
        7 => sheet.extend_from_within(..),
        kind => sheet.extend_from_slice(tails[kind]),
    }
}

/// As many bytes as asked for, by what may follow a sheet or by what may not stand in one.
pub fn stretch(sheet: &mut Vec<u8>, length: usize, dice: &mut Dice) {
    let filling = dice.pick(b"\n \x001=");
    match dice.below(3) {
        0 if sheet.len() < length => {
            let at = dice.below(sheet.len());
            let more = length - sheet.len();
            sheet.splice(at..at, std::iter::repeat(filling).take(more));
        }
        1 => {
            let whole = sheet.clone();
            while sheet.len() < length {
                sheet.extend_from_slice(&whole);
            }
            sheet.truncate(length);
        }
        _ => sheet.resize(length, filling),
    }
}

/// Bytes from nowhere, which are no sheet at all, or the front of one and then no sheet.
pub fn noise(sheet: &mut Vec<u8>, dice: &mut Dice) {
    let kept = dice.pick(&[0, 0, 8, sheet.len() / 2]);
    sheet.truncate(kept);
    let more = dice.below(300);
    let text = dice.once_in(2);
    sheet.extend((0..more).map(|_| if text { dice.pick(b"0123456789,=\n-abegnrstw") } else { dice.below(256) as u8 }));
}
