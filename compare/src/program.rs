//! A sample of the sheets through the program `balance`, which reads a sheet from standard input.

use second::answer;
use std::io::{self, Write};
use std::process::{Command, Stdio};

/// What the program prints for a sheet. It has room for every report.
pub fn due(sheet: &[u8]) -> Vec<u8> {
    let mut report = [0; 1024];
    let said = answer(sheet, &mut report);
    match said.refusal {
        0 => report[..said.length].to_vec(),
        number => format!("refused={number},{},{}\n", said.line, said.field).into_bytes(),
    }
}

/// What the program printed.
pub fn run(words: &[&str], sheet: &[u8]) -> io::Result<Vec<u8>> {
    let mut child = Command::new(words[0]).args(&words[1..]).stdin(Stdio::piped()).stdout(Stdio::piped()).spawn()?;
    let mut input = child.stdin.take().expect("a pipe was asked for");
    // What it prints is short, so it never waits for a reader. It may close its input before it has all of a sheet that is too long.
    match input.write_all(sheet) {
        Err(error) if error.kind() != io::ErrorKind::BrokenPipe => return Err(error),
        _ => drop(input),
    }
    let output = child.wait_with_output()?;
    if !output.status.success() {
        return Err(io::Error::new(io::ErrorKind::Other, format!("{}: {}", words[0], output.status)));
    }
    Ok(output.stdout)
}
