//! Sheets in which one number or row breaks a rule of the documents, refusals 3 to 10 and 14, or one line several.

use crate::dice::Dice;
use crate::draft::*;
use crate::forms;
use second::limits::MOST_ANALYSED;

/// Makes a sheet break a rule. What the sheet breaks besides is not looked at: the comparison does that.
pub type Fault = fn(&mut Draft, &mut Dice);

pub const FAULTS: [Fault; 16] = [
    range,
    far_range,
    material,
    shares,
    no_air,
    section_twice,
    wall_of_no_section,
    wall_of_no_stage,
    read_twice,
    not_read,
    too_many_places,
    colder,
    little_gas,
    much_gas,
    analysis,
    other_edition,
];

/// The faults that belong to the whole sheet: they come last, in an order of their own.
pub const WHOLE: [Fault; 4] = [not_read, too_many_places, little_gas, much_gas];

/// The faults of wall lines, of which one line can have several.
pub const OF_WALLS: [Fault; 5] = [wall_of_no_section, wall_of_no_stage, read_twice, colder, range_of_wall];

/// The faults of stage lines, of which one line can have several.
pub const OF_STAGES: [Fault; 4] = [analysis, analysis, range_of_stage, other_edition];

fn any_row(draft: &Draft, dice: &mut Dice) -> usize {
    dice.below(draft.rows.len())
}

/// A field one beyond a limit.
fn range(draft: &mut Draft, dice: &mut Dice) {
    let place = any_row(draft, dice);
    beyond(draft, dice, place);
}

fn range_of_stage(draft: &mut Draft, dice: &mut Dice) {
    let place = dice.pick(&draft.stages());
    beyond(draft, dice, place);
}

fn range_of_wall(draft: &mut Draft, dice: &mut Dice) {
    let places = draft.places(WALL);
    if !places.is_empty() {
        let place = dice.pick(&places);
        beyond(draft, dice, place);
    }
}

pub fn beyond(draft: &mut Draft, dice: &mut Dice, place: usize) {
    let field = dice.below(draft.rows[place].values.len());
    beyond_in(draft, dice, place, field);
}

fn beyond_in(draft: &mut Draft, dice: &mut Dice, place: usize, field: usize) {
    let row = &mut draft.rows[place];
    let (least, greatest) = span(row.key, field);
    row.values[field] = if dice.once_in(2) { least - 1 } else { greatest + 1 };
}

/// A field as far out as a number can be.
fn far_range(draft: &mut Draft, dice: &mut Dice) {
    let place = any_row(draft, dice);
    let row = &mut draft.rows[place];
    let field = dice.below(row.values.len());
    row.values[field] = dice.pick(&[-999_999_999, 999_999_999, -1, 1_000_001, -201, 100_001]);
}

/// A material with a specific heat, or code 0 without one.
fn material(draft: &mut Draft, dice: &mut Dice) {
    let places: Vec<usize> = [SETTER, PART, WARE].iter().flat_map(|&key| draft.places(key)).collect();
    let row = &mut draft.rows[dice.pick(&places)];
    let field = crate::draft::material(row.key).expect("one of these");
    let (code, heat) = dice.pick(&[(0, 0), (1, 1), (18, 1), (3, 100_000), (12, 1), (17, 1)]);
    row.values[field] = code;
    row.values[field + 1] = heat;
}

/// Shares that add to one more or less, or to nothing like 10,000.
fn shares(draft: &mut Draft, dice: &mut Dice) {
    let gas = draft.first(GAS);
    let field = dice.below(gas.len());
    let change = dice.pick(&[1, -1, 100, -100, 5_000]);
    gas[field] = (gas[field] + change).clamp(0, 10_000);
}

/// A gas that needs no air: by nothing to burn, by as much oxygen of its own, or by a little less, when it does need some.
fn no_air(draft: &mut Draft, dice: &mut Dice) {
    let gas = draft.first(GAS);
    gas.iter_mut().for_each(|share| *share = 0);
    let (fuel, weight) = dice.pick(&[(0, 1), (2, 1), (6, 4), (7, 6), (8, 7), (9, 10), (10, 13), (11, 3)]);
    let share = 2 * dice.between(0, 10_000 / (weight + 2));
    let oxygen = (share * weight / 2 + dice.pick(&[0, 0, 1, -1])).max(0);
    gas[fuel] = share.min(10_000);
    gas[3] = oxygen.min(10_000 - gas[fuel]);
    let inert = dice.pick(&[1, 4, 5, 12]);
    gas[inert] = 10_000 - gas[fuel] - gas[3];
}

/// A later section with an earlier one's number. Its readings may go with it or not.
fn section_twice(draft: &mut Draft, dice: &mut Dice) {
    let places = draft.places(SECTION);
    if places.len() < 2 {
        let copy = draft.rows[places[0]].values.clone();
        draft.append(SECTIONS, &copy);
        return;
    }
    let later = 1 + dice.below(places.len() - 1);
    let earlier = dice.below(later);
    draft.rows[places[later]].values[0] = draft.rows[places[earlier]].values[0];
}

fn some_wall<'a>(draft: &'a mut Draft, dice: &mut Dice) -> Option<&'a mut Vec<i64>> {
    let places = draft.places(WALL);
    if places.is_empty() {
        return None;
    }
    let place = dice.pick(&places);
    Some(&mut draft.rows[place].values)
}

fn wall_of_no_section(draft: &mut Draft, dice: &mut Dice) {
    let listed: Vec<i64> = draft.places(SECTION).iter().map(|&place| draft.rows[place].values[0]).collect();
    let mut number = dice.between(1, 999);
    while listed.contains(&number) {
        number = dice.between(1, 999);
    }
    if let Some(wall) = some_wall(draft, dice) {
        wall[0] = number;
    }
}

/// A stage above the sheet's own, which a sheet of 12 stages can't have without leaving the limits.
fn wall_of_no_stage(draft: &mut Draft, dice: &mut Dice) {
    let stages = draft.stages().len() as i64;
    if let Some(wall) = some_wall(draft, dice) {
        wall[1] = dice.pick(&[stages + 1, 12, 13, stages + 2]);
    }
}

/// A reading of what another line has read, as one line more or in the place of another reading.
fn read_twice(draft: &mut Draft, dice: &mut Dice) {
    let places = draft.places(WALL);
    if places.is_empty() {
        return;
    }
    let mut copy = draft.rows[dice.pick(&places)].values.clone();
    if places.len() < 48 && dice.once_in(2) {
        copy[2] = copy[2].max(400);
        draft.append(WALLS, &copy);
    } else {
        let other = dice.pick(&places);
        draft.rows[other].values[..2].copy_from_slice(&copy[..2]);
    }
}

/// Readings left out, one or all.
fn not_read(draft: &mut Draft, dice: &mut Dice) {
    let places = draft.places(WALL);
    let all = dice.once_in(4);
    let mut left = places.len();
    while left > 0 {
        let gone = dice.pick(&draft.places(WALL));
        draft.rows.remove(gone);
        left -= 1;
        if !all {
            break;
        }
    }
    draft.first(WALLS)[0] = left as i64;
}

/// More sections than there can be readings for in so many stages.
fn too_many_places(draft: &mut Draft, dice: &mut Dice) {
    let more = 12 - draft.places(SECTION).len();
    for _ in 0..more {
        let listed: Vec<i64> = draft.places(SECTION).iter().map(|&place| draft.rows[place].values[0]).collect();
        let mut number = dice.between(1, 999);
        while listed.contains(&number) {
            number = dice.between(1, 999);
        }
        draft.append(SECTIONS, &[number, dice.between(1, 3), dice.between(1, 20_000)]);
    }
}

/// A surface colder than its air by one, or as warm, which is allowed.
fn colder(draft: &mut Draft, dice: &mut Dice) {
    let below = dice.pick(&[1, 1, 1, 0, 100]);
    let air = dice.between(-200 + below, 500);
    if let Some(wall) = some_wall(draft, dice) {
        wall[3] = air;
        wall[2] = air - below;
    }
}

fn set_gas(draft: &mut Draft, total: i64, dice: &mut Dice) {
    let places = draft.stages();
    let mut rest = total;
    for (count, &place) in places.iter().enumerate() {
        let last = count + 1 == places.len();
        let gas = if last { rest.min(200_000) } else { dice.between(0, rest.min(200_000)) };
        draft.rows[place].values[0] = gas;
        rest -= gas;
    }
}

fn little_gas(draft: &mut Draft, dice: &mut Dice) {
    let total = dice.pick(&[99, 99, 100, 0, 50]);
    set_gas(draft, total, dice);
}

/// More gas than 200,000 in all, though each stage has no more than that. One stage alone can only reach it.
fn much_gas(draft: &mut Draft, dice: &mut Dice) {
    let total = dice.pick(&[200_001, 200_001, 200_000, 2_400_000, 300_000]);
    set_gas(draft, total, dice);
}

/// A sheet 2 whose analyser has read one too much of all three in a stage, or just as much as can be, or far more.
fn analysis(draft: &mut Draft, dice: &mut Dice) {
    draft.analyse(dice);
    let place = dice.pick(&draft.places(ANALYSED));
    let all = MOST_ANALYSED + dice.pick(&[1, 1, 1, 0, 1_000, 1_600]);
    let most = [3, 4, 5].map(|field| span(ANALYSED, field).1);
    let co = dice.between((all - most[1] - most[2]).max(0), most[0]);
    let pair = dice.between(all - co - most[2], most[1].min(all - co));
    draft.rows[place].values[3..6].copy_from_slice(&[co, pair, all - co - pair]);
}

/// A sheet with the other sheet's number, or one of its stages as the other sheet has them.
fn other_edition(draft: &mut Draft, dice: &mut Dice) {
    let place = dice.pick(&draft.stages());
    let row = &mut draft.rows[place];
    if dice.once_in(2) {
        draft.first(SHEET)[0] = if row.key == STAGE { 2 } else { 1 };
    } else if row.key == STAGE {
        row.analyse(dice);
    } else {
        row.forget();
    }
}

/// Two or three faults in one line: a range and a form in every pair of a line's fields in turn, and every other time a form, a range or a
/// fault of the whole line besides. The draft is of sheet 1, and becomes a sheet 2 where the line is of that, or by chance.
pub fn in_a_line(mut draft: Draft, step: u64, dice: &mut Dice) -> Vec<u8> {
    let pairs: Vec<_> = pairs().collect();
    let (key, ranged, formed) = pairs[step as usize % pairs.len()];
    if key == ANALYSED || key != STAGE && dice.once_in(3) {
        draft.analyse(dice);
    }
    let place = dice.pick(&draft.places(key));
    beyond_in(&mut draft, dice, place, ranged);
    let third = dice.below(6);
    if third == 0 {
        beyond(&mut draft, dice, place);
    }
    let first: usize = draft.rows[..place].iter().map(|row| row.values.len()).sum();
    let mut sheet = draft.bytes();
    // The form of a later field first: one that brings a comma moves all fields behind it.
    let mut places = vec![formed];
    if third == 1 {
        places.push(dice.below(draft.rows[place].values.len()));
    }
    places.sort_unstable();
    places.iter().rev().for_each(|field| forms::number(&mut sheet, first + field, dice.below(forms::NUMBER_FORMS)));
    if third == 2 {
        forms::whole_line(&mut sheet, place, dice);
    }
    sheet
}

#[cfg(test)]
mod tests {
    use super::*;
    use crate::valid::{self, Size, Style};

    /// Each of 13, 2, 12 and 3 is met, 12 in every field of every line.
    #[test]
    fn faults_in_a_line_meet_every_field() {
        let mut met = [0; 15];
        let mut boxes = std::collections::BTreeSet::new();
        for step in 0..20 * pairs().count() as u64 {
            let mut dice = Dice::new(1, 5, step);
            let draft = valid::draft_of(1, &mut dice, Style::Plain, Size { stages: 1, setters: 1, parts: 1, sections: 1 }, None);
            let kinds: Vec<Key> = draft.rows.iter().map(|row| row.key).collect();
            let sheet = in_a_line(draft, step, &mut dice);
            if let Err(refused) = second::balance(&sheet) {
                met[refused.number as usize] += 1;
                let kind = kinds.get(refused.line as usize - 1).map(|&kind| match kind {
                    STAGE if sheet.starts_with(b"sheet=2") => ANALYSED,
                    other => other,
                });
                if refused.number == 12 {
                    boxes.insert((kind.expect("a line of the sheet"), refused.field as usize - 1));
                }
            }
        }
        assert!(fields().all(|place| boxes.contains(&place)), "{boxes:?}");
        assert!([13, 2, 12, 3].iter().all(|&number| met[number] > 50), "{met:?}");
    }
}
