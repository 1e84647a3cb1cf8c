//! The comparison as a whole: one thread makes sheets and sends them, the other takes the answers and holds them to what is due.

use crate::cases::{Case, Source};
use crate::harness::{self, Deed, BATCH};
use crate::judge::{agree, due, Damage};
use crate::program as balance;
use crate::show::{self, Names};
use std::collections::BTreeMap;
use std::io::{self, Read};
use std::path::PathBuf;
use std::process::ChildStdin;
use std::sync::mpsc::{sync_channel, Receiver, SyncSender};
use std::thread;
use std::time::Instant;

/// Whom the library is held to.
pub enum Against {
    Second,
    /// The library before a change. The harness puts each sheet to it too, and sends its answer behind the other. The file has the names of
    /// sheets to begin with.
    Before(PathBuf),
}

impl Against {
    /// What the outcome is told under, and the folder in which a difference is kept.
    fn word(&self) -> &'static str {
        match self {
            Against::Second => "compare",
            Against::Before(_) => "same",
        }
    }

    fn names(&self) -> Names {
        match self {
            Against::Second => Names { due: "second opinion", done: "library" },
            Against::Before(_) => Names { due: "archive before", done: "archive after" },
        }
    }
}

/// What is asked for.
pub struct Plan {
    pub count: u64,
    pub seed: u64,
    pub harness: Vec<String>,
    pub against: Against,
    /// Whether sheets 2 are left out.
    pub sheet_1: bool,
    pub damage: Option<Damage>,
    /// How many sheets go through the program besides.
    pub sample: u64,
}

/// The refusals' numbers are below this.
const REFUSALS: usize = 15;

/// The refusal that only a sheet 2 meets.
const OF_SHEET_2: usize = 14;

impl Plan {
    /// Whether this sheet is put at all.
    fn puts(&self, case: &Case) -> bool {
        !(self.sheet_1 && case.sheet.starts_with(b"sheet=2\n"))
    }
}

/// What came of it.
pub struct Outcome {
    /// How many sheets met each refusal, and at 0 how many were accepted.
    met: [u64; REFUSALS],
    kinds: BTreeMap<&'static str, u64>,
    seconds: f64,
    pub difference: Option<String>,
}

/// Batches that may be on their way between the threads.
const AHEAD: usize = 8;

/// An answer is spoilt only after so many, as in the harness.
const FIRST_SPOILT: u64 = 300;

/// Makes and sends the sheets. It stops where nobody takes them any more; whoever reads the answers will say why.
fn send_all(mut cases: impl Iterator<Item = Case>, mut requests: ChildStdin, sent: SyncSender<Vec<Case>>) {
    loop {
        let batch: Vec<Case> = cases.by_ref().take(BATCH).collect();
        if batch.is_empty() {
            return;
        }
        let taken = harness::send(&mut requests, &batch).is_ok();
        if sent.send(batch).is_err() || !taken {
            return;
        }
    }
}

/// The library against whom it is held to, on sheets that are given and then on those that are made, up to the first difference.
pub fn library(plan: &Plan, source: &Source, given: Vec<Case>) -> io::Result<Outcome> {
    let start = Instant::now();
    let (mut child, requests, mut answers) = harness::start(&plan.harness)?;
    let (sent, batches) = sync_channel(AHEAD);
    let mut outcome = Outcome { met: [0; REFUSALS], kinds: BTreeMap::new(), seconds: 0.0, difference: None };
    let cases = given.into_iter().chain((0..plan.count).map(|number| source.case(number))).filter(|case| plan.puts(case));
    thread::scope(|scope| {
        scope.spawn(move || send_all(cases, requests, sent));
        outcome.difference = receive_all(plan, batches, &mut answers, &mut outcome);
        if outcome.difference.is_some() {
            // The sender may be waiting for the harness to read, and the harness for somebody to read its answers.
            let _ = child.kill();
        }
    });
    let mut more = Vec::new();
    answers.read_to_end(&mut more)?;
    let status = child.wait()?;
    if outcome.difference.is_none() && !(status.success() && more.is_empty()) {
        outcome.difference = Some(format!("the harness ended with {status} and {} bytes that nobody asked for\n", more.len()));
    }
    outcome.seconds = start.elapsed().as_secs_f64();
    Ok(outcome)
}

/// What is due for a sheet, which is the harness's request of this number, and what the library did with it.
fn receive(plan: &Plan, case: &Case, request: u64, answers: &mut impl Read) -> io::Result<(Deed, Deed)> {
    let deed = harness::receive(answers)?;
    let due = match plan.against {
        Against::Second => due(case, request),
        Against::Before(_) => harness::receive(answers)?,
    };
    Ok((due, deed))
}

fn receive_all(plan: &Plan, batches: Receiver<Vec<Case>>, answers: &mut impl Read, outcome: &mut Outcome) -> Option<String> {
    let mut damage = plan.damage;
    let mut requests = 0..;
    for batch in batches {
        for case in &batch {
            let request = requests.next().expect("one more");
            let (mut due, deed) = match receive(plan, case, request, answers) {
                Ok(both) => both,
                Err(error) => return Some(culprit(plan, &batch, case, &error)),
            };
            if case.number >= FIRST_SPOILT && damage.map_or(false, |way| way.spoil(&mut due)) {
                damage = None;
            }
            if !agree(&due, &deed) || !outcome.count(case, &due) {
                let words = show::difference(plan.seed, case, &plan.against.names(), &due, &deed);
                return Some(match plan.against {
                    Against::Second => keep(plan, case, words, &[]),
                    Against::Before(_) => keep(plan, case, words, &[("before", &due.room), ("after", &deed.room)]),
                });
            }
        }
    }
    None
}

fn keep(plan: &Plan, case: &Case, words: String, more: &[(&str, &[u8])]) -> String {
    let folder = plan.against.word();
    let kept = [&[("sheet", &case.sheet[..]), ("txt", words.as_bytes())], more].concat();
    let rooms: String = more.iter().map(|(kind, _)| format!(", the room {kind} as .{kind}")).collect();
    match show::save(folder, &kept) {
        Ok(()) => words + &format!("the sheet and these words are kept as target/{folder}/difference.sheet and .txt{rooms}\n"),
        Err(error) => format!("{words}the sheet could not be kept: {error}\n"),
    }
}

/// The harness lays a sheet at the front of what can be read once in so many requests, and otherwise at its end.
const PLACES: usize = 3;

/// The sheet at which the harness ends, when it has ended in the midst of a batch: each is put to a harness of its own.
fn culprit(plan: &Plan, batch: &[Case], from: &Case, error: &io::Error) -> String {
    let mut words = show::heading(plan.seed, from) + &format!("the harness ended before it answered this one ({error})\n");
    for case in batch {
        if alone(plan, case).is_err() {
            words += "it ends also with this sheet alone:\n";
            words += &show::heading(plan.seed, case);
            words += &show::numbered(&case.sheet);
            return keep(plan, case, words, &[]);
        }
    }
    words + "with each sheet of the batch alone it does not end\n"
}

/// Whether the harness answers this sheet in every place.
fn alone(plan: &Plan, case: &Case) -> io::Result<()> {
    let (mut child, mut requests, mut answers) = harness::start(&plan.harness)?;
    harness::send(&mut requests, &vec![case.clone(); PLACES])?;
    drop(requests);
    let answered = (0..PLACES as u64).try_for_each(|request| receive(plan, case, request, &mut answers).map(drop));
    child.wait()?;
    answered
}

/// A sample of the same sheets through the program, up to the first difference.
pub fn program(plan: &Plan, source: &Source, words: &[&str]) -> io::Result<Option<String>> {
    for place in 0..plan.sample {
        let case = source.case(place * plan.count / plan.sample);
        if !plan.puts(&case) {
            continue;
        }
        let printed = balance::run(words, &case.sheet)?;
        let due = balance::due(&case.sheet);
        if printed != due {
            let mut text = show::heading(plan.seed, &case) + "through the program `balance`\nit prints:\n";
            text += &(show::numbered(&printed) + "and the second opinion is:\n" + &show::numbered(&due));
            text += &("of the sheet:\n".to_string() + &show::numbered(&case.sheet));
            return Ok(Some(keep(plan, &case, text, &[])));
        }
    }
    Ok(None)
}

impl Outcome {
    /// False where there is no such refusal.
    fn count(&mut self, case: &Case, due: &Deed) -> bool {
        *self.kinds.entry(case.kind).or_default() += 1;
        let met = self.met.get_mut(due.answer.refusal as usize);
        met.map(|sheets| *sheets += 1).is_some()
    }

    /// Says what came of it, and whether that is well.
    pub fn tell(&self, plan: &Plan) -> bool {
        let word = plan.against.word();
        if let Some(words) = &self.difference {
            eprint!("{word}: a difference\n{words}");
            return false;
        }
        if let Against::Before(_) = plan.against {
            self.kinds.iter().for_each(|(kind, sheets)| println!("{word}: {kind:20} {sheets:8} sheets"));
        }
        for (number, sheets) in self.met.iter().enumerate() {
            let what = if number == 0 { "accepted".to_string() } else { format!("refusal {number}") };
            println!("{word}: {what:10} {sheets:8} sheets");
        }
        if plan.sheet_1 {
            println!("{word}: {} sheets were put, the others are sheets 2", self.kinds.values().sum::<u64>());
        }
        let each = self.seconds * 1e6 / plan.count.max(1) as f64;
        println!("{word}: {} sheets of seed {} in {:.1} s, {each:.0} us each", plan.count, plan.seed, self.seconds);
        match plan.against {
            Against::Second => println!("{word}: {} of them through the program too; no difference", plan.sample),
            Against::Before(_) => println!("{word}: no difference"),
        }
        let missed = (0..REFUSALS).find(|&number| self.met[number] == 0 && !(plan.sheet_1 && number == OF_SHEET_2));
        if let Some(number) = missed {
            eprintln!("{word}: no sheet met {number}, so nothing is said about it");
        }
        missed.is_none()
    }
}
