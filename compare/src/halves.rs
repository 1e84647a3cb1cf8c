//! Sheets with a printed figure exactly at a half, or a joule beside it.
//!
//! With 100 kg of ware a figure is printed from hundreds of joules, so that one joule decides how a half is printed.

use crate::dice::Dice;
use crate::draft::*;
use crate::valid::{self, Size, Style};
use second::{balance, Balance, HEATS};

/// How often a field is thrown anew. One throw in a hundred hits a half, so a miss is rare, and does no harm.
const TRIES: usize = 400;

/// Products that leave a half in heats which come in hundreds of joules: the gas's and the clay's.
const FINE: [i64; 6] = [2_048, 4_096, 6_144, 10_240, 16_000, 64_000];

/// The fields that move a heat, by the heat's place in the report. Below zero no field may warm it again.
fn knobs(heat: usize, negative: bool) -> &'static [(Key, usize)] {
    match heat {
        6 | 15 if negative => &[(WARE, 4)],
        10 if negative => &[(STAGE, 0)],
        14 if negative => &[(PART, 0), (WARE, 0)],
        0 => &[(FUEL, 0), (STAGE, 0)],
        1 => &[(FUEL, 1), (STAGE, 0)],
        2 | 9 | 16 => &[(SETTER, 0)],
        3 => &[(WARE, 0)],
        4 | 13 => &[(PART, 0)],
        5 => &[(WARE, 0), (SETTER, 0), (PART, 0)],
        6 => &[(WARE, 2)],
        7 => &[(WATER, 0), (WATER, 1), (WATER, 2)],
        8 => &[(CLAY, 0)],
        10 => &[(STAGE, 2), (STAGE, 0)],
        11 => &[(STAGE, 3), (STAGE, 0)],
        12 => &[(SECTION, 2)],
        14 => &[(WATER, 1), (PART, 0), (WARE, 0)],
        _ => &[(WARE, 2), (WATER, 0)],
    }
}

/// True where a heat would be printed at a half if `more` joules were added to its amount.
fn at_half(balance: &Balance, heat: usize, more: i64) -> bool {
    let joules = balance.heats[heat].abs() + more;
    20 * joules % (2 * balance.product) == balance.product
}

/// Throws one of the fields anew until the sheet is as wanted.
pub fn tune(draft: &mut Draft, dice: &mut Dice, fields: &[(usize, usize)], wanted: impl Fn(&Balance) -> bool) {
    let mut sheet = Vec::new();
    for _ in 0..TRIES {
        let (place, field) = dice.pick(fields);
        let old = draft.rows[place].values[field];
        let (least, greatest) = span(draft.rows[place].key, field);
        draft.rows[place].values[field] = dice.between(least, greatest);
        draft.write(&mut sheet);
        match balance(&sheet) {
            Ok(found) if wanted(&found) => return,
            Ok(_) => {}
            // Too much gas in all: the old value at least gave a balance.
            Err(_) => draft.rows[place].values[field] = old,
        }
    }
}

fn small(dice: &mut Dice) -> Size {
    Size { stages: 1 + dice.below(3), setters: 1 + dice.below(2), parts: 1 + dice.below(2), sections: 1 + dice.below(2) }
}

/// A sheet of 100 kg of ware, of which much is known: nothing that is tuned is missing from it.
pub fn hundred(dice: &mut Dice) -> Draft {
    let size = small(dice);
    let mut draft = valid::draft(dice, Style::Plain, size, None);
    draft.first(PRODUCT)[0] = 1_000;
    draft
}

/// Everything colder than the room, so that every heat that can be negative is.
fn chill(draft: &mut Draft, dice: &mut Dice) {
    let base = dice.between(300, 500);
    for row in &mut draft.rows {
        let values = &mut row.values;
        match row.key {
            AMBIENT => values[0] = base,
            FUEL => (values[0], values[1]) = (dice.between(3_000, 4_000), dice.between(0, 200)),
            WARE => values[1..].copy_from_slice(&[dice.between(0, 200), dice.between(-200, -1), 0, dice.between(1, 9_999)]),
            WATER => (values[0], values[1]) = (0, 0),
            CLAY => values[0] = 0,
            STAGE | ANALYSED => (values[0], values[2]) = (dice.between(100, 200), dice.between(0, 200)),
            SETTER => values[1] = dice.between(0, 200),
            PART => (values[3], values[4]) = (dice.between(-200, 200), dice.between(-200, 200)),
            _ => {}
        }
    }
}

/// The heats in turn, each above and below zero, at a half and one joule short of it.
pub fn printed(step: u64, dice: &mut Dice) -> Draft {
    let heat = (step % HEATS as u64) as usize;
    let turn = step / HEATS as u64;
    let negative = turn % 2 == 1 && !matches!(heat, 0 | 7 | 8 | 11 | 12);
    let more = i64::from(turn / 2 % 3 == 1);
    let mut draft = hundred(dice);
    if negative {
        chill(&mut draft, dice);
    }
    if matches!(heat, 0 | 8) {
        draft.first(PRODUCT)[0] = dice.pick(&FINE);
    }
    let mut fields = Vec::new();
    for &(key, field) in knobs(heat, negative) {
        let key = if key == STAGE { draft.stage() } else { key };
        fields.extend(draft.places(key).into_iter().map(|place| (place, field)));
    }
    tune(&mut draft, dice, &fields, |found| at_half(found, heat, more) && (found.heats[heat] < 0) == negative);
    draft
}

/// Brings one of these heats to a half, by the mass of the last part or of the last setter: beside an even figure a joule more is printed,
/// and beside an odd one a joule less.
pub fn edge(draft: &mut Draft, dice: &mut Dice, heats: &[usize]) {
    let heat = dice.pick(heats);
    let key = if matches!(heat, 2 | 9 | 16) { SETTER } else { PART };
    let place = *draft.places(key).last().expect("a row to tune");
    tune(draft, dice, &[(place, 0)], |found| at_half(found, heat, 0));
}

/// Ways to make 2,000,000 of gas and heating value, the gas to be taken several times.
const BURNT: [(i64, i64); 14] = [
    (625, 3_200),
    (500, 4_000),
    (400, 5_000),
    (320, 6_250),
    (250, 8_000),
    (200, 10_000),
    (160, 12_500),
    (125, 16_000),
    (100, 20_000),
    (80, 25_000),
    (50, 40_000),
    (40, 50_000),
    (20, 100_000),
    (16, 125_000),
];

/// An efficiency at a half, or a joule beside it.
///
/// 100 kg that take up 1 kJ/(kg °C) need 10,000 J for a tenth of a degree, and q1 is 2e8 `times` joules. So the ware's efficiency
/// is at a half where its rise is an odd multiple of `times`, and with the setters where the sum of both rises is.
pub fn efficiency(step: u64, dice: &mut Dice) -> Draft {
    let with_setters = step % 2 == 1;
    let mut draft = valid::draft(dice, Style::Plain, Size { stages: 1, setters: 0, parts: 0, sections: 1 }, None);
    let (gas, heating) = dice.pick(&BURNT);
    let mut times = dice.between(1, 40);
    while gas * times < 100 {
        times += 1;
    }
    draft.first(PRODUCT)[0] = 1_000;
    draft.first(FUEL)[0] = heating;
    let stage = draft.stage();
    draft.first(stage)[0] = gas * times;
    draft.first(CLAY)[0] = 0;
    draft.first(WATER)[..2].fill(0);
    let half = times * (2 * dice.between(-4_000 / times, 4_000 / times) + 1);
    let entry = dice.between(8_000, 9_000);
    let rise = if with_setters { dice.between(-2_000, 2_000) } else { half };
    draft.set(WARE, &[dice.between(0, 2_000), entry, entry + rise, 0, 10_000]);
    let highest = entry + rise;
    let below = |setter: i64| (-200..=18_000).contains(&(highest - setter)).then(|| highest - setter);
    if let (true, Some(first)) = (with_setters, below(half - rise)) {
        draft.append(SETTERS, &[1_000, first, 0, 10_000]);
        let joule = dice.between(-1, 1) * 1_000;
        if let Some(second) = below(joule) {
            draft.append(SETTERS, &[1, second, 0, 1]);
        }
    }
    draft
}

#[cfg(test)]
mod tests {
    use super::*;

    /// Which kind of a half this is: above zero beside an even figure or an odd one, or below zero.
    fn kind(n: i64, d: i64) -> usize {
        2 * usize::from(n < 0) + (n / d % 2).unsigned_abs() as usize
    }

    /// Each heat is met at a half beside an even figure and an odd one and a joule short of it, above zero and, where it can be, below.
    #[test]
    fn every_heat_is_met_at_a_half() {
        let mut met = [[[0; 4]; 2]; HEATS];
        for step in 0..HEATS as u64 * 120 {
            let draft = printed(step, &mut Dice::new(1, 2, step));
            let found = balance(&draft.bytes()).expect("an accepted sheet");
            let heat = (step % HEATS as u64) as usize;
            let kind = kind(10 * found.heats[heat], found.product);
            for more in 0..2 {
                met[heat][more][kind] += usize::from(at_half(&found, heat, more as i64));
            }
        }
        for (heat, [half, short]) in met.into_iter().enumerate() {
            let kinds = if matches!(heat, 0 | 7 | 8 | 11 | 12) { 2 } else { 4 };
            assert!(half[..kinds].iter().all(|&count| count > 2), "heat {heat}: {met:?}");
            assert!(matches!(heat, 0 | 8) || short[..kinds].iter().all(|&count| count > 0), "heat {heat}: {met:?}");
        }
    }

    /// Both efficiencies are met at a half beside an even figure and an odd one, above and below zero.
    #[test]
    fn both_efficiencies_are_met_at_a_half() {
        let mut met = [[0; 4]; 2];
        for step in 0..400 {
            let draft = efficiency(step, &mut Dice::new(1, 3, step));
            let found = balance(&draft.bytes()).expect("an accepted sheet");
            let joules = found.heats[15 + step as usize % 2];
            let half = 20_000 * joules.abs() % (2 * found.heats[0]) == found.heats[0];
            met[step as usize % 2][kind(10_000 * joules, found.heats[0])] += usize::from(half);
        }
        assert!(met.iter().flatten().all(|&count| count > 10), "{met:?}");
    }
}
