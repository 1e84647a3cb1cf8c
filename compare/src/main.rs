//! Compares the proved library with the second opinion: compare [--damage WAY] [--sample N] [--sheet-1] COUNT SEED HARNESS [WORD...]
//! or with the library before a change: compare [--damage WAY] --same NAMES [--sheet-1] COUNT SEED HARNESS [WORD...]
//!
//! It is started at the top of the repository, by tools/compare, and by tools/same with a harness that has both libraries. The file NAMES has
//! a name to a line, of sheets that are put to both before any is made. With --sheet-1 whatever is a sheet 2 is left out, for a library
//! that has none. It ends with status 0 where nothing differs and every refusal was
//! met, 1 where something differs or a refusal was not met, and 2 where it could not compare.

use compare::cases::{self, Case, Source};
use compare::judge::Damage;
use compare::run::{self, Against, Outcome, Plan};
use second::limits::LONGEST;
use std::path::Path;
use std::process::ExitCode;
use std::{env, fs, io};

/// How the program `balance` is started.
const PROGRAM: [&str; 2] = ["tools/run", "balance"];

fn plan() -> Option<Plan> {
    let mut words: Vec<String> = env::args().skip(1).collect();
    let mut plan = Plan { count: 0, seed: 0, harness: Vec::new(), against: Against::Second, sheet_1: false, damage: None, sample: 0 };
    while words.first()?.starts_with("--") {
        if words[0] == "--sheet-1" {
            plan.sheet_1 = true;
            words.remove(0);
            continue;
        }
        let value = words.get(1)?.clone();
        match words[0].as_str() {
            "--damage" => plan.damage = Some(Damage::named(&value)?),
            "--sample" => plan.sample = value.parse().ok()?,
            "--same" => plan.against = Against::Before(value.into()),
            _ => return None,
        }
        words.drain(..2);
    }
    if words.len() < 3 {
        return None;
    }
    plan.count = words[0].parse().ok()?;
    plan.seed = words[1].parse().ok()?;
    plan.harness = words.split_off(2);
    Some(plan)
}

/// The sheets that the lines of this file name.
fn named(names: &Path) -> io::Result<Vec<Case>> {
    let mut cases = Vec::new();
    for (number, name) in fs::read_to_string(names)?.lines().enumerate() {
        let sheet = fs::read(name).map_err(|error| io::Error::new(error.kind(), format!("{name}: {error}")))?;
        // A batch of longer ones might be more than the harness takes at once.
        if sheet.len() > 2 * LONGEST {
            return Err(io::Error::new(io::ErrorKind::Other, format!("{name} is longer than {} bytes", 2 * LONGEST)));
        }
        cases.extend(cases::of_file(number as u64, Path::new(name), &sheet));
    }
    Ok(cases)
}

fn compare(plan: &Plan) -> io::Result<Outcome> {
    let source = Source::at_the_top(plan.seed)?;
    let given = match &plan.against {
        Against::Second => Vec::new(),
        Against::Before(names) => named(names)?,
    };
    let mut outcome = run::library(plan, &source, given)?;
    if outcome.difference.is_none() {
        outcome.difference = run::program(plan, &source, &PROGRAM)?;
    }
    Ok(outcome)
}

fn main() -> ExitCode {
    let plan = match plan() {
        Some(plan) => plan,
        None => {
            eprintln!("compare [--damage WAY] [--sample N] [--same NAMES] [--sheet-1] COUNT SEED HARNESS [WORD...]");
            return ExitCode::from(2);
        }
    };
    match compare(&plan) {
        Ok(outcome) => ExitCode::from(u8::from(!outcome.tell(&plan))),
        Err(error) => {
            eprintln!("compare: {error}");
            ExitCode::from(2)
        }
    }
}
