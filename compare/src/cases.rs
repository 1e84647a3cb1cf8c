//! The sheets that are compared: which kinds there are, how often each comes, and in what room the report is written.

use crate::bases::*;
use crate::dice::Dice;
use crate::draft::{fields, span, Draft};
use crate::faults::{self, FAULTS, OF_STAGES, OF_WALLS, WHOLE};
use crate::valid::{self, Pin, Style};
use crate::{forms, halves, inner, streams};
use second::limits::LONGEST;
use std::path::{Path, PathBuf};
use std::{fs, io};

/// A sheet and the room that is lent for its report.
#[derive(Clone)]
pub struct Case {
    pub number: u64,
    pub kind: &'static str,
    pub sheet: Vec<u8>,
    pub room: usize,
    /// Where the sheet lies, if it was not made.
    pub file: Option<PathBuf>,
}

/// Makes the bytes of a kind's sheet. The step counts the sheets of the kind, for kinds that go through something in order.
type Make = fn(&Source, u64, &mut Dice) -> Vec<u8>;

struct Kind {
    name: &'static str,
    /// Of 64 sheets so many are of this kind. The others come only where they are asked for by name.
    often: usize,
    make: Make,
}

const KINDS: [Kind; 29] = [
    Kind { name: "usual", often: 14, make: |_, _, dice| usual(dice).bytes() },
    Kind { name: "wild", often: 7, make: |_, _, dice| wild(dice).bytes() },
    Kind { name: "corner", often: 2, make: |_, _, dice| corner(dice).bytes() },
    Kind { name: "of any size", often: 1, make: |_, _, dice| of_any_size(dice).bytes() },
    Kind { name: "least", often: 2, make: |_, _, dice| least(dice).bytes() },
    Kind { name: "at a limit", often: 5, make: at_limit },
    Kind { name: "beyond a limit", often: 3, make: beyond_limit },
    Kind { name: "one rule broken", often: 5, make: one_fault },
    Kind { name: "two rules broken", often: 5, make: two_faults },
    Kind { name: "faults in a line", often: 2, make: |_, step, dice| faults::in_a_line(SMALL[0](dice), step, dice) },
    Kind { name: "number form", often: 4, make: number_form },
    Kind { name: "torn", often: 2, make: torn },
    Kind { name: "lines", often: 2, make: lines },
    Kind { name: "bytes", often: 3, make: |_, _, dice| bytes(dice) },
    Kind { name: "length and noise", often: 1, make: long_or_noise },
    Kind { name: "printed at a half", often: 2, make: |_, step, dice| halves::printed(step, dice).bytes() },
    Kind { name: "rounded at a half", often: 1, make: |_, step, dice| inner::rounded(step, dice).bytes() },
    Kind { name: "efficiency at a half", often: 1, make: |_, step, dice| halves::efficiency(step, dice).bytes() },
    Kind { name: "room", often: 1, make: |source, step, _| source.base("room", step / ROOMS, usual).bytes() },
    Kind { name: "unchanged example", often: 1, make: example },
    Kind { name: "beside a limit", often: 0, make: beside_limit },
    Kind { name: "byte gone", often: 0, make: byte_gone },
    Kind { name: "damaged", often: 0, make: damaged },
    Kind { name: "grown", often: 0, make: |_, step, _| streams::grown(step).bytes() },
    Kind { name: "hostile", often: 0, make: |_, step, _| streams::hostile(step).1 },
    Kind { name: TYPICAL, often: 0, make: |_, _, dice| streams::typical(dice).bytes() },
    Kind { name: WIDE, often: 0, make: |_, _, dice| streams::wide(dice).bytes() },
    Kind { name: "typical analysed", often: 0, make: |source, step, _| source.analysed(TYPICAL, streams::typical, step) },
    Kind { name: "wide analysed", often: 0, make: |source, step, _| source.analysed(WIDE, streams::wide, step) },
];

/// The streams of sheet 1, of which each firing comes on sheet 2 too.
const TYPICAL: &str = "typical";
const WIDE: &str = "wide";

/// The name of all kinds together, in the turns of the wheel.
const MADE: &str = "made";

const WHEEL: usize = 64;

/// Rooms that are tried with the same sheet, one after the other. No report is longer than 328 bytes.
const ROOMS: u64 = 340;

/// Tears that are tried with the same sheet: a small one is shorter than this and so torn at every byte.
const TEARS: u64 = 450;

/// Where sheets come from: a seed, and sheets that are given.
pub struct Source {
    seed: u64,
    examples: Vec<Vec<u8>>,
    wheel: Vec<usize>,
}

impl Source {
    /// For a program that is started at the top of the repository. The examples go by name, lest their order hang on the file system.
    pub fn at_the_top(seed: u64) -> io::Result<Source> {
        let mut paths = fs::read_dir("examples")?.map(|entry| Ok(entry?.path())).collect::<io::Result<Vec<_>>>()?;
        paths.retain(|path| path.extension().map_or(false, |kind| kind == "sheet"));
        paths.sort();
        Ok(Source::new(seed, paths.iter().map(fs::read).collect::<io::Result<_>>()?))
    }

    fn new(seed: u64, examples: Vec<Vec<u8>>) -> Source {
        let mut wheel = Vec::new();
        for (place, kind) in KINDS.iter().enumerate() {
            wheel.extend(std::iter::repeat(place).take(kind.often));
        }
        assert_eq!(wheel.len(), WHEEL, "the kinds fill the wheel");
        // The kinds take turns, so that few sheets already show something of each.
        let mut turns = Dice::new(0, 0, 0);
        turns.shuffle(&mut wheel);
        Source { seed, examples, wheel }
    }

    /// The sheet of this number, which is the same each time.
    pub fn case(&self, number: u64) -> Case {
        let turn = (number % WHEEL as u64) as usize;
        let place = self.wheel[turn];
        let before = self.wheel[..turn].iter().filter(|&&other| other == place).count() as u64;
        let kind = &KINDS[place];
        let step = number / WHEEL as u64 * kind.often as u64 + before;
        let mut dice = Dice::new(self.seed, place as u64, step);
        let sheet = (kind.make)(self, step, &mut dice);
        let room = if kind.name == "room" { (step % ROOMS) as usize } else { room(&sheet, &mut dice) };
        Case { number, kind: kind.name, sheet, room, file: None }
    }

    /// The sheet of this step of a kind, in whatever room. None where there is no such kind.
    pub fn sheet(&self, kind: &str, step: u64) -> Option<Vec<u8>> {
        if kind == MADE {
            return Some(self.case(step).sheet);
        }
        let place = place(kind)?;
        Some((KINDS[place].make)(self, step, &mut Dice::new(self.seed, place as u64, step)))
    }

    /// The same firing as in a stream of this name, on sheet 2.
    fn analysed(&self, stream: &str, make: Base, step: u64) -> Vec<u8> {
        let mut dice = Dice::new(self.seed, place(stream).expect("a kind") as u64, step);
        let mut draft = make(&mut dice);
        draft.analyse(&mut dice);
        draft.bytes()
    }

    /// A sheet that several cases start from.
    fn base(&self, purpose: &str, step: u64, make: Base) -> Draft {
        let name = purpose.bytes().fold(0, |sum: u64, byte| sum * 256 + u64::from(byte));
        make(&mut Dice::new(self.seed, name, step))
    }
}

fn place(kind: &str) -> Option<usize> {
    KINDS.iter().position(|other| other.name == kind)
}

/// The names of all kinds.
pub fn names() -> Vec<&'static str> {
    std::iter::once(MADE).chain(KINDS.iter().map(|kind| kind.name)).collect()
}

/// A sheet that lies in a file, in every room that may show something of it.
pub fn of_file(number: u64, path: &Path, sheet: &[u8]) -> Vec<Case> {
    let needed = second::answer(sheet, &mut [0; 1024]).length;
    let mut rooms = vec![0, needed / 2, needed.saturating_sub(1), needed, needed + 1, 1024];
    rooms.dedup();
    let case = |room| Case { number, kind: "of a file", sheet: sheet.to_vec(), room, file: Some(path.to_path_buf()) };
    rooms.into_iter().map(case).collect()
}

/// Mostly a room that suits, exactly or with some to spare; now and then one that is too small.
fn room(sheet: &[u8], dice: &mut Dice) -> usize {
    let needed = second::answer(sheet, &mut [0; 1024]).length;
    match dice.below(12) {
        0..=4 => needed,
        5..=7 => needed + dice.below(64),
        8 => needed + 1,
        9 => needed.saturating_sub(1),
        10 => dice.below(600),
        _ => dice.pick(&[0, 1, 1024, needed / 2]),
    }
}

/// The step's field, and what has gone through all fields before.
fn turn(step: u64) -> ((usize, usize), u64) {
    let all: Vec<_> = fields().collect();
    (all[(step % all.len() as u64) as usize], step / all.len() as u64)
}

/// Each field in turn at its least and greatest value and next to them, in a sheet that allows it.
fn at_limit(_: &Source, step: u64, dice: &mut Dice) -> Vec<u8> {
    let ((key, field), round) = turn(step);
    let (least, greatest) = span(key, field);
    let value = [least, greatest, (least + 1).min(greatest), (greatest - 1).max(least)][(round % 4) as usize];
    let style = dice.pick(&[Style::Plain, Style::Plain, Style::Wild]);
    let size = valid::usual_size(dice);
    valid::draft(dice, style, size, Some(Pin { key, field, value })).bytes()
}

/// Each field in turn one below its least value and one above its greatest.
fn beyond_limit(_: &Source, step: u64, dice: &mut Dice) -> Vec<u8> {
    let ((key, field), round) = turn(step);
    let (least, greatest) = span(key, field);
    let value = if round % 2 == 0 { least - 1 } else { greatest + 1 };
    let size = valid::usual_size(dice);
    valid::draft(dice, Style::Plain, size, Some(Pin { key, field, value })).bytes()
}

/// One sheet of each edition, with each field in turn at its limits and one beyond them, in the first line of its kind and in the last: a
/// block's first and last line may be judged apart. What else the number breaks is not looked at.
fn beside_limit(source: &Source, step: u64, _: &mut Dice) -> Vec<u8> {
    let both = TWO_OF_EACH.map(|make| source.base("beside", 0, make));
    let ends: Vec<_> = both.iter().flat_map(|draft| draft.ends().into_iter().map(move |end| (draft, end))).collect();
    let (draft, (place, field)) = ends[step as usize % ends.len()];
    let mut draft = draft.clone();
    let (least, greatest) = span(draft.rows[place].key, field);
    draft.rows[place].values[field] = [least - 1, least, greatest, greatest + 1][step as usize / ends.len() % 4];
    draft.bytes()
}

fn one_fault(_: &Source, step: u64, dice: &mut Dice) -> Vec<u8> {
    let mut draft = any(dice);
    FAULTS[(step % FAULTS.len() as u64) as usize](&mut draft, dice);
    draft.bytes()
}

/// Two or three faults: anywhere, in wall lines, in stage lines, in one row, of the whole sheet, or of bytes and numbers together.
fn two_faults(_: &Source, step: u64, dice: &mut Dice) -> Vec<u8> {
    let mut draft = any(dice);
    let sets: [&[faults::Fault]; 4] = [&FAULTS, &OF_WALLS, &WHOLE, &OF_STAGES];
    let set = sets[(step % 4) as usize];
    for _ in 0..dice.pick(&[1, 2, 2, 3]) {
        dice.pick(set)(&mut draft, dice);
    }
    let place = dice.below(draft.rows.len());
    match dice.below(6) {
        0 => faults::beyond(&mut draft, dice, place),
        1 => dice.pick(&FAULTS)(&mut draft, dice),
        _ => {}
    }
    let mut sheet = draft.bytes();
    match dice.below(8) {
        0 => forms::line(&mut sheet, dice),
        1 => forms::bytes(&mut sheet, dice),
        2 => forms::tail(&mut sheet, dice),
        3 => any_form(&mut sheet, dice),
        4 => sheet.truncate(sheet.len() - 1),
        _ => {}
    }
    sheet
}

fn any_form(sheet: &mut Vec<u8>, dice: &mut Dice) {
    let field = dice.below(forms::field_count(sheet));
    forms::number(sheet, field, dice.below(forms::NUMBER_FORMS));
}

/// Every form of a number in every field of a small sheet, one after the other.
fn number_form(source: &Source, step: u64, dice: &mut Dice) -> Vec<u8> {
    let mut sheet = source.base("form", step / 4096, small(step / 4096)).bytes();
    let form = (step % forms::NUMBER_FORMS as u64) as usize;
    let field = step as usize / forms::NUMBER_FORMS % forms::field_count(&sheet);
    forms::number(&mut sheet, field, form);
    if dice.once_in(16) {
        any_form(&mut sheet, dice);
    }
    sheet
}

fn torn(source: &Source, step: u64, dice: &mut Dice) -> Vec<u8> {
    let mut sheet = source.base("torn", step / TEARS, small(step / TEARS)).bytes();
    let mut length = (step % TEARS) as usize;
    if length > sheet.len() {
        sheet = any(dice).bytes();
        length = dice.below(sheet.len());
    }
    sheet.truncate(length);
    sheet
}

/// A small sheet without one of its bytes, each in turn, of edition 1 and then of edition 2.
fn byte_gone(source: &Source, step: u64, _: &mut Dice) -> Vec<u8> {
    let [mut one, mut two] = SMALL.map(|make| source.base("gone", 0, make).bytes());
    let at = step as usize % (one.len() + two.len());
    if at < one.len() {
        one.remove(at);
        return one;
    }
    two.remove(at - one.len());
    two
}

fn lines(_: &Source, step: u64, dice: &mut Dice) -> Vec<u8> {
    let mut sheet = any(dice).bytes();
    match step % 8 {
        0 => forms::carriage_returns(&mut sheet, dice),
        1 => forms::tail(&mut sheet, dice),
        _ => forms::line(&mut sheet, dice),
    }
    sheet
}

fn bytes(dice: &mut Dice) -> Vec<u8> {
    let mut sheet = any(dice).bytes();
    forms::bytes(&mut sheet, dice);
    sheet
}

/// Around the longest length now and then, for such sheets take time; otherwise bytes that are hardly a sheet.
fn long_or_noise(_: &Source, step: u64, dice: &mut Dice) -> Vec<u8> {
    let mut sheet = any(dice).bytes();
    if step % 8 == 0 {
        let length = dice.pick(&[LONGEST - 1, LONGEST, LONGEST, LONGEST + 1, LONGEST + 1, 2 * LONGEST]);
        forms::stretch(&mut sheet, length, dice);
    } else {
        forms::noise(&mut sheet, dice);
    }
    sheet
}

/// Something broken in every sheet, in each of these ways in turn.
fn damaged(source: &Source, step: u64, dice: &mut Dice) -> Vec<u8> {
    const WAYS: [Make; 7] = [one_fault, two_faults, number_form, torn, lines, |_, _, dice| bytes(dice), long_or_noise];
    let ways = WAYS.len() as u64;
    WAYS[(step % ways) as usize](source, step / ways, dice)
}

fn example(source: &Source, step: u64, dice: &mut Dice) -> Vec<u8> {
    match source.examples.get((step % 64) as usize) {
        Some(sheet) => sheet.clone(),
        None => usual(dice).bytes(),
    }
}

#[cfg(test)]
mod tests {
    use super::*;

    /// At least half of the made sheets are sheet 1, as before T-03, and a quarter are sheet 2, so that both are compared in earnest.
    #[test]
    fn both_editions_are_made() {
        let source = Source::new(1, Vec::new());
        let count = 64 * 200;
        let begin = |line: &[u8]| (0..count).filter(|&number| source.case(number).sheet.starts_with(line)).count() as u64;
        let (one, two) = (begin(b"sheet=1\n"), begin(b"sheet=2\n"));
        assert!(2 * one >= count && 4 * two >= count, "{one} and {two} of {count}");
    }

    /// A firing of a stream comes on both sheets with the same lines but for the stages.
    #[test]
    fn streams_have_their_twins() {
        let source = Source::new(1, Vec::new());
        for step in 0..100 {
            for (kind, twin) in [(TYPICAL, "typical analysed"), (WIDE, "wide analysed")] {
                let [one, two] = [kind, twin].map(|kind| source.sheet(kind, step).expect("a kind"));
                assert!(second::balance(&two).is_ok(), "{kind} {step}");
                let rest = |sheet: &[u8]| sheet.split(|&byte| byte == b'\n').skip(1).filter(|line| !line.starts_with(b"stage=")).count();
                assert_eq!(rest(&one), rest(&two));
            }
        }
    }
}
