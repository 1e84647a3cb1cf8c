//! Makes sheets of the kinds that are named: sheets [--seed SEED] [--folder FOLDER] KIND=COUNT...
//! or says to the fuzzer what a sheet is: sheets table, sheets words
//!
//! It is started at the top of the repository, by compare/sheets. A blank in a kind's name may be written as a hyphen. The sheets go to
//! standard output one after the other, each behind its length in bytes on a line of its own; or each into a file of the folder. The same
//! seed (1) gives the same sheets, and a kind that goes through something in order begins at its beginning.

use compare::cases::{names, Source};
use compare::{streams, table};
use std::io::{self, BufWriter, Write};
use std::path::PathBuf;
use std::process::ExitCode;
use std::{env, fs};

/// What is asked for: a seed, a folder, and kinds with their counts.
#[derive(Default)]
struct Order {
    seed: u64,
    folder: Option<PathBuf>,
    kinds: Vec<(String, u64)>,
}

fn order() -> Option<Order> {
    let mut order = Order { seed: 1, ..Order::default() };
    let mut words = env::args().skip(1);
    while let Some(word) = words.next() {
        match word.as_str() {
            "--seed" => order.seed = words.next()?.parse().ok()?,
            "--folder" => order.folder = Some(words.next()?.into()),
            _ => {
                let (kind, count) = word.split_once('=')?;
                let kind = kind.replace('-', " ");
                names().iter().find(|&&name| name == kind)?;
                order.kinds.push((kind, count.parse().ok()?));
            }
        }
    }
    Some(order).filter(|order| !order.kinds.is_empty())
}

/// The file of a sheet: by what it is filled with, how long it has grown, or its number.
fn file(kind: &str, step: u64, sheet: &[u8]) -> String {
    match kind {
        "hostile" => format!("hostile-{}.sheet", streams::hostile(step).0),
        "grown" => format!("grown-{:04}.sheet", sheet.len()),
        _ => format!("{}-{step:04}.sheet", kind.replace(' ', "-")),
    }
}

fn make(order: &Order) -> io::Result<()> {
    let source = Source::at_the_top(order.seed)?;
    let mut out = BufWriter::new(io::stdout().lock());
    order.folder.as_ref().map_or(Ok(()), fs::create_dir_all)?;
    for (kind, count) in &order.kinds {
        for step in 0..*count {
            let sheet = source.sheet(kind, step).expect("a kind that was named");
            match &order.folder {
                Some(folder) => fs::write(folder.join(file(kind, step, &sheet)), sheet)?,
                None => writeln!(out, "{}", sheet.len()).and_then(|()| out.write_all(&sheet))?,
            }
        }
    }
    out.flush()
}

fn main() -> ExitCode {
    let only = env::args().nth(1).filter(|_| env::args().len() == 2).unwrap_or_default();
    let done = match (only.as_str(), order()) {
        ("table", _) => fs::read_to_string("examples/worked.sheet").map(|example| print!("{}", table::header(&example))),
        ("words", _) => io::stdout().write_all(table::words().as_bytes()),
        (_, Some(order)) => make(&order),
        (_, None) => {
            eprintln!("sheets [--seed SEED] [--folder FOLDER] KIND=COUNT...\nsheets table|words\nkinds: {}", names().join(", "));
            return ExitCode::from(2);
        }
    };
    match done {
        Ok(()) => ExitCode::SUCCESS,
        Err(error) => {
            eprintln!("sheets: {error}");
            ExitCode::from(2)
        }
    }
}
