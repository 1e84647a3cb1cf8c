//! Sheets in which something is at a half long before it is printed: a record's joules, a volume, a rate, a flux.
//!
//! Each way to round is off by a joule or more then, and a figure that the joules add to stands where a joule is printed.

use crate::dice::Dice;
use crate::draft::*;
use crate::halves::{edge, hundred};
use second::Analysis;

type Recipe = fn(&mut Draft, &mut Dice);

/// Each with the heats of the report that show it: the sums `in` (5) and x11 (14), and its own where more than one record adds to it.
const RECIPES: [(Recipe, &[usize]); 18] = [
    (green_ware, &[5, 14]),
    (ware, &[14]),
    (waters, &[14]),
    (fuel, &[5, 14]),
    (setter, &[2, 9, 5, 14, 16]),
    (part, &[4, 13, 5, 14]),
    (dry_volume, &[14]),
    (vapour_rate, &[14]),
    (vapour_mass, &[14]),
    (flue_capacity, &[14]),
    (dry_heat, &[14]),
    (vapour_heat, &[14]),
    (unburnt, &[14]),
    (radiation, &[14]),
    (reading, &[14]),
    (whole_roots, &[14]),
    (below_the_root, &[14]),
    (break_at_800, &[14, 13]),
];

/// The recipes in turn.
pub fn rounded(step: u64, dice: &mut Dice) -> Draft {
    let (recipe, heats) = RECIPES[(step % RECIPES.len() as u64) as usize];
    let mut draft = hundred(dice);
    recipe(&mut draft, dice);
    // What is tuned must not be what the recipe has set.
    let tuned = [dice.between(0, 500), 0, dice.between(1, 9_999), dice.between(0, 900), dice.between(0, 9_000)];
    draft.append(PARTS, &tuned);
    draft.append(SETTERS, &[dice.between(0, 500), dice.between(0, 900), 0, dice.between(1, 9_999)]);
    edge(&mut draft, dice, heats);
    draft
}

/// An odd number from `least` on, which is odd.
fn odd(dice: &mut Dice, least: i64, greatest: i64) -> i64 {
    least + 2 * dice.between(0, (greatest - least) / 2)
}

/// An odd number of tenths of a degree, now and then below zero.
fn rise(dice: &mut Dice) -> i64 {
    if dice.once_in(2) {
        odd(dice, -99, 199)
    } else {
        odd(dice, 1, 9_999)
    }
}

fn base(draft: &mut Draft) -> i64 {
    draft.first(AMBIENT)[0]
}

/// A mass and a specific heat that make half a joule over an odd number of tenths of a degree: 5 and 100 make 500 of 1,000.
fn half_mass(dice: &mut Dice) -> (i64, i64) {
    let (mass, heat) = dice.pick(&[(5, 100), (25, 20), (125, 4), (1, 500), (4, 125), (20, 25)]);
    (mass * odd(dice, 1, 99), heat * odd(dice, 1, 99))
}

fn green_ware(draft: &mut Draft, dice: &mut Dice) {
    let entry = base(draft) + odd(dice, -99, 399);
    let (mass, heat) = half_mass(dice);
    let highest = draft.first(WARE)[2];
    draft.set(WARE, &[mass, entry, highest, 0, heat]);
}

/// 100 kg of clay brick: (8,400,000 + 260 T)(T - in) over 1,000 is at a half where T and the rise are odd multiples of 5.
fn ware(draft: &mut Draft, dice: &mut Dice) {
    let highest = 5 * odd(dice, 1, 3_599);
    let entry = 10 * dice.between(-20, 1_800);
    let brick = dice.pick(&[1, 2, 15]);
    draft.first(WARE)[1..].copy_from_slice(&[entry, highest, brick, 0]);
}

fn waters(draft: &mut Draft, dice: &mut Dice) {
    let both = 5 * odd(dice, 1, 9_999);
    let adsorbed = dice.between(0, both);
    let flue = base(draft) + odd(dice, 1, 9_999);
    draft.set(WATER, &[adsorbed, both - adsorbed, flue]);
}

fn set_gas(draft: &mut Draft, shares: &[(usize, i64)]) {
    let gas = draft.first(GAS);
    gas.fill(0);
    for &(place, share) in shares {
        gas[place] += share;
    }
}

fn first_stage(draft: &mut Draft) -> &mut Vec<i64> {
    let stage = draft.stage();
    draft.first(stage)
}

/// All gas in one stage, so that what is true of the stage is true of the firing. What an analyser has read stays, and a flue that is too
/// hot for sheet 2 is as hot as it may be.
fn one_stage(draft: &mut Draft, [gas, excess, flue, co, minutes]: [i64; 5]) {
    for place in draft.stages() {
        draft.rows[place].values[0] = 0;
    }
    let hottest = span(draft.stage(), 2).1;
    let stage = first_stage(draft);
    stage[..4].copy_from_slice(&[gas, excess, flue.min(hottest), co]);
    *stage.last_mut().expect("the minutes") = minutes;
}

/// Methane: gas times tenths times 8 (195,375 + 11 T) over 100,000.
fn fuel(draft: &mut Draft, dice: &mut Dice) {
    set_gas(draft, &[(6, 10_000)]);
    let flue = first_stage(draft)[2];
    one_stage(draft, [6_250 * odd(dice, 1, 31), 1_100, flue, 0, 60]);
    let warm = 2 * dice.between(0, 300);
    draft.first(FUEL)[1] = warm;
    draft.first(AMBIENT)[0] = (warm + odd(dice, -299, 299)).clamp(-199, 499);
}

fn setter(draft: &mut Draft, dice: &mut Dice) {
    let entry = base(draft) + odd(dice, -99, 399);
    let highest = entry + rise(dice);
    draft.first(WARE)[2] = highest;
    let (mass, heat) = half_mass(dice);
    draft.set(SETTER, &[mass, entry, 0, heat]);
}

fn part(draft: &mut Draft, dice: &mut Dice) {
    let base = base(draft);
    let before = base + odd(dice, -99, 399);
    let firing = base + rise(dice);
    let (mass, heat) = half_mass(dice);
    draft.set(PART, &[mass, 0, heat, before, firing]);
}

/// CO in nitrogen: 238 CO (excess - 210) gas is 2 * 8 * 3,125 times an odd number.
fn dry_volume(draft: &mut Draft, dice: &mut Dice) {
    let co = 8 * odd(dice, 1, 1_249);
    set_gas(draft, &[(2, co), (1, 10_000 - co)]);
    let stage = [3_125 * odd(dice, 1, 63), odd(dice, 1_001, 4_999), dice.between(1_000, 12_000), dice.between(0, 1_000), 60];
    one_stage(draft, stage);
}

/// CO makes no vapour, so that the air's alone is there: excess, CO and moisture make 2,500,000 times an odd number.
fn vapour_rate(draft: &mut Draft, dice: &mut Dice) {
    let co = 100 * odd(dice, 1, 99);
    set_gas(draft, &[(2, co), (1, 10_000 - co)]);
    draft.first(AIR)[0] = 25 * odd(dice, 1, 19);
    one_stage(draft, [dice.between(50_000, 200_000), 1_000 * odd(dice, 1, 5), dice.between(5_000, 12_000), 0, 60]);
}

/// The rate is odd about every other time, and then 5,000 times it is at a half.
fn vapour_mass(draft: &mut Draft, dice: &mut Dice) {
    let stage = [5_000 * odd(dice, 1, 39), dice.between(1_000, 5_000), dice.between(6_000, 12_000), 0, 60];
    one_stage(draft, stage);
}

/// Methane: the dry volume is four times the gas, and that times an odd number.
fn methane(draft: &mut Draft, dice: &mut Dice, gas: i64, flue: i64, co: i64) {
    set_gas(draft, &[(6, 10_000)]);
    one_stage(draft, [gas, 5 * odd(dice, 201, 999), flue, co, 60]);
}

/// 62,500 of 125,000 are four times 5 and 3,125 tenths of a degree, or four times 125 and 125 tenths below the room's.
fn dry_heat(draft: &mut Draft, dice: &mut Dice) {
    if draft.stage() == ANALYSED {
        nitrogen_heat(draft, dice);
    } else if dice.once_in(2) {
        let flue = base(draft) + dice.pick(&[3_125, 9_375]);
        let gas = 5 * odd(dice, 21, 39_999);
        methane(draft, dice, gas, flue, 0);
    } else {
        draft.first(AMBIENT)[0] = dice.between(375, 500);
        let flue = base(draft) - dice.pick(&[125, 375]);
        let gas = 125 * odd(dice, 1, 1_599);
        methane(draft, dice, gas, flue, 0);
    }
}

/// The like on sheet 2, where the flue is nitrogen: 1.304 at 300.0, which has as many twos as 1.384, and 1.297 at 25.0, which has none.
fn nitrogen_heat(draft: &mut Draft, dice: &mut Dice) {
    first_stage(draft)[4..6].fill(0);
    let (base, flue, step, most) = dice.pick(&[(-125, 3_000, 5, 39_999), (375, 250, 1_000, 199)]);
    draft.first(AMBIENT)[0] = base;
    let gas = step * odd(dice, 21, most);
    methane(draft, dice, gas, flue, 0);
}

/// A flue of sheet 2 whose four gases take up half of 0.001 more than a whole number. At a row of the table or a quarter of the way to
/// the next one that is met soonest.
fn flue_capacity(draft: &mut Draft, dice: &mut Dice) {
    draft.analyse(dice);
    let (mut read, mut flue) = (Analysis { co: 0, pair: 0, o2: 0 }, 0);
    while read.surpasses() || read.mixture(flue) % 10_000_000 != 5_000_000 {
        let [co, pair, o2] = [3, 4, 5].map(|field| span(ANALYSED, field)).map(|(least, greatest)| dice.between(least, greatest));
        read = Analysis { co, pair, o2 };
        flue = 250 * dice.between(0, 40);
    }
    let gas = dice.between(1_000, 200_000);
    one_stage(draft, [gas, 1_100, flue, read.co, 60]);
    first_stage(draft)[4..6].copy_from_slice(&[read.pair, read.o2]);
}

fn unburnt(draft: &mut Draft, dice: &mut Dice) {
    let flue = first_stage(draft)[2];
    let (gas, co) = (5 * odd(dice, 21, 39_999), 100 * odd(dice, 1, 9));
    methane(draft, dice, gas, flue, co);
}

/// CO: a rate of 307,734 hundreds times an odd number, and a gas and tenths of a degree that bring its twos and fives to 500,000's.
fn vapour_heat(draft: &mut Draft, dice: &mut Dice) {
    set_gas(draft, &[(2, 10_000)]);
    draft.first(AIR)[0] = 100 * odd(dice, 1, 5);
    let (gas, most, rise) = dice.pick(&[(2_500, 79, 10_000), (50_000, 3, -500), (62_500, 3, -400)]);
    if rise < 0 {
        draft.first(AMBIENT)[0] = 500;
    }
    let flue = base(draft) + rise;
    one_stage(draft, [gas * odd(dice, 1, most), 1_000, flue, 0, 60]);
}

/// Sets the first reading, and its section and stage so that a unit of flux is some joules.
fn wall(draft: &mut Draft, surface: i64, air: i64, area: i64, minutes: i64) {
    let first = draft.first(WALL);
    first[2] = surface;
    first[3] = air;
    let (number, stage) = (first[0], first[1]);
    for row in &mut draft.rows {
        if row.key == SECTION && row.values[0] == number {
            row.values[2] = area;
        }
    }
    let place = draft.stages()[stage as usize - 1];
    *draft.rows[place].values.last_mut().expect("the minutes") = minutes;
}

/// 454 (S^4 - R^4) is at a half of 1e9 where S and R are odd multiples of 25 but not of 125, and S^4 - R^4 has seven twos.
fn radiation(draft: &mut Draft, dice: &mut Dice) {
    let fits = |s: i64, r: i64| s % 5 != 0 && r % 5 != 0 && (s - r).trailing_zeros() + (s + r).trailing_zeros() == 6;
    let (mut s, mut r) = (0, 0);
    while !fits(s, r) {
        r = odd(dice, 103, 129);
        s = odd(dice, r, 229);
    }
    wall(draft, 25 * s - 2_730, 25 * r - 2_730, dice.between(500, 20_000), dice.between(50, 2_880));
}

/// 25 m² over 100 minutes make 250,000 of 500,000, so that an odd flux is at a half.
fn reading(draft: &mut Draft, dice: &mut Dice) {
    let (area, minutes) = dice.pick(&[(2_500, 100), (12_500, 20), (6_250, 40), (500, 500), (250, 1_000), (125, 2_000)]);
    let air = dice.between(-200, 500);
    let surface = air + dice.between(0, 2_500);
    wall(draft, surface, air, area, minutes);
}

/// A reading of this place and drop, with so much surface and time that a unit of flux is 100 J or more.
fn dropping(draft: &mut Draft, dice: &mut Dice, place: usize, drop: i64) {
    let air = dice.between(-200, (3_000 - drop).min(500));
    wall(draft, air + drop, air, dice.between(12_000, 20_000), dice.between(1_440, 2_880));
    let number = draft.first(WALL)[0];
    let section = draft.rows.iter_mut().find(|row| row.key == SECTION && row.values[0] == number);
    section.expect("the reading's section").values[1] = place as i64;
}

/// The square root of the drop is a whole number or its fourth root is, and those of its neighbours are not.
fn whole_roots(draft: &mut Draft, dice: &mut Dice) {
    let any = dice.between(1, 17);
    let side = dice.pick(&[any, 1, 4, 9, 16]);
    let drop = 10 * side * side + dice.pick(&[0, 0, 1, -1]);
    let place = dice.between(1, 3) as usize;
    dropping(draft, dice, place, drop);
}

/// Formula 25's factor for roof, wall and floor, in hundredths.
const FACTORS: [u128; 4] = [0, 326, 256, 210];

/// The greatest whole number whose square is not above `n`.
fn root(n: u128) -> u128 {
    let mut root = (n as f64).sqrt() as u128;
    while root * root > n {
        root -= 1;
    }
    while (root + 1) * (root + 1) <= n {
        root += 1;
    }
    root
}

/// T-02's product of the factor, the drop and its fourth root by roots that are cut down, in 1e-11 W/m².
pub fn product(place: usize, drop: i64) -> u128 {
    let drop = drop as u128;
    FACTORS[place] * drop * root(root(drop * 10_u128.pow(15)) * 10_u128.pow(8))
}

/// T-02's term in 1e-5 W/m², less the greatest whole number whose fourth power is not above the exact term's.
fn beside_the_root(place: usize, drop: i64) -> i128 {
    let term = (product(place, drop) + 500_000) / 1_000_000;
    term as i128 - root(root(FACTORS[place].pow(4) * (drop as u128).pow(5) * 10_u128.pow(7))) as i128
}

/// What the two roots have lost comes to a whole unit.
fn below_the_root(draft: &mut Draft, dice: &mut Dice) {
    let (mut place, mut drop) = (0, 0);
    while beside_the_root(place, drop) >= 0 {
        place = dice.between(1, 3) as usize;
        drop = dice.between(0, 3_200);
    }
    dropping(draft, dice, place, drop);
}

/// The two materials with a break, at it and on both sides of it, in every place where a specific heat is taken.
fn break_at_800(draft: &mut Draft, dice: &mut Dice) {
    let mut at = || (dice.pick(&[3, 3, 12, 12, 10]), dice.pick(&[7_999, 8_000, 8_001]));
    let (material, temperature) = at();
    draft.first(WARE)[1..].copy_from_slice(&[at().1, temperature, material, 0]);
    let (material, temperature) = at();
    draft.first(SETTER)[1..].copy_from_slice(&[temperature, material, 0]);
    let (material, temperature) = at();
    draft.first(PART)[1..].copy_from_slice(&[material, 0, at().1, temperature]);
}

#[cfg(test)]
mod tests {
    use super::*;

    /// Over all places and drops the term is that number, one unit more, or now and then one less, and its product is never at a half.
    #[test]
    fn the_term_stands_beside_the_root() {
        let mut met = [0; 3];
        for place in 1..4 {
            for drop in 0..=3_200 {
                met[(beside_the_root(place, drop) + 1) as usize] += 1;
                assert_ne!(product(place, drop) % 1_000_000, 500_000, "at a half");
            }
        }
        assert_eq!(met, [177, 6_802, 2_624]);
    }
}
