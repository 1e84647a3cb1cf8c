//! The library's side of the comparison: sheets go through a pipe to a program in C that calls it, and its answers come back.

use crate::cases::Case;
use second::Answer;
use std::io::{self, BufReader, Read, Write};
use std::process::{Child, ChildStdin, ChildStdout, Command, Stdio};

/// Requests that are sent at once. A batch keeps the two programs from waiting for each other at every sheet.
pub const BATCH: usize = 256;

/// What a deed says where nothing was written that should not have been.
pub const UNTOUCHED: u32 = 0;

/// All that the library did with a sheet.
pub struct Deed {
    pub answer: Answer,
    /// Bits of what was written that should not have been: before the room, behind it, and in the sheet.
    pub touched: u32,
    /// Every byte of the room.
    pub room: Vec<u8>,
}

/// The bytes that the room of this request is filled with before the call.
pub fn fill(request: u64, room: &mut [u8]) {
    for (place, byte) in room.iter_mut().enumerate() {
        *byte = (request.wrapping_mul(167) as u8).wrapping_add((place as u8).wrapping_mul(59)).wrapping_add(11);
    }
}

/// Starts the program that is given with its words.
pub fn start(words: &[String]) -> io::Result<(Child, ChildStdin, BufReader<ChildStdout>)> {
    let mut child = Command::new(&words[0]).args(&words[1..]).stdin(Stdio::piped()).stdout(Stdio::piped()).spawn()?;
    let requests = child.stdin.take().expect("a pipe was asked for");
    let answers = BufReader::with_capacity(1 << 20, child.stdout.take().expect("a pipe was asked for"));
    Ok((child, requests, answers))
}

/// Sends sheets in one piece.
pub fn send(requests: &mut ChildStdin, cases: &[Case]) -> io::Result<()> {
    let mut batch = vec![0; 8];
    for case in cases {
        batch.extend_from_slice(&(case.sheet.len() as u32).to_le_bytes());
        batch.extend_from_slice(&(case.room as u32).to_le_bytes());
        batch.extend_from_slice(&case.sheet);
    }
    let length = batch.len() as u32 - 8;
    batch[..4].copy_from_slice(&length.to_le_bytes());
    batch[4..8].copy_from_slice(&(cases.len() as u32).to_le_bytes());
    requests.write_all(&batch)
}

/// The next answer.
pub fn receive(answers: &mut impl Read) -> io::Result<Deed> {
    let mut head = [0; 32];
    answers.read_exact(&mut head)?;
    let word = |at: usize| u32::from_le_bytes([head[at], head[at + 1], head[at + 2], head[at + 3]]);
    let double = |at: usize| u64::from(word(at)) | u64::from(word(at + 4)) << 32;
    let mut room = vec![0; double(24) as usize];
    answers.read_exact(&mut room)?;
    let answer = Answer { refusal: word(0), line: word(4), field: word(8), length: double(16) as usize };
    Ok(Deed { answer, touched: word(12), room })
}
