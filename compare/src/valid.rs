//! Sheets that break no rule, from the least to the greatest in every dimension.

use crate::dice::Dice;
use crate::draft::*;
use second::limits::{Span, ALL_SHARES, MOST_ANALYSED};

/// How a sheet's numbers are drawn.
#[derive(Clone, Copy, PartialEq)]
pub enum Style {
    /// As a volunteer would write them.
    Plain,
    /// Anywhere inside the limits, often at one.
    Wild,
    /// With as many digits as can be, or nearly, and below zero where that can be.
    Wide,
    /// Each field at its least value or at its greatest, in all lines of a kind alike, by a bit for each field of `draft::fields`.
    Corner(u64),
}

/// How many stages, setters, parts and sections.
#[derive(Clone, Copy)]
pub struct Size {
    pub stages: usize,
    pub setters: usize,
    pub parts: usize,
    pub sections: usize,
}

/// A field that is to have a certain value in the first line of its kind.
#[derive(Clone, Copy)]
pub struct Pin {
    pub key: Key,
    pub field: usize,
    pub value: i64,
}

const NATURAL: [i64; 13] = [0, 1435, 0, 1, 0, 89, 8130, 0, 285, 0, 60, 0, 0];
const METHANE: [i64; 13] = [0, 0, 0, 0, 0, 0, 10000, 0, 0, 0, 0, 0, 0];
const BOTTLED: [i64; 13] = [0, 0, 0, 0, 0, 0, 0, 0, 0, 7000, 3000, 0, 0];
const TOWN: [i64; 13] = [5100, 800, 900, 50, 100, 350, 2200, 250, 100, 50, 0, 60, 40];
const PRODUCER: [i64; 13] = [1200, 4900, 2750, 20, 300, 550, 250, 10, 0, 0, 0, 15, 5];

/// The gases that need air, and so can stand for the rest of the gas: H2, CO, CH4, C2H4, C2H6, C3H8, C4H10, H2S.
const FUELS: [usize; 8] = [0, 2, 6, 7, 8, 9, 10, 11];

/// Sizes as they occur, most of them small.
pub fn usual_size(dice: &mut Dice) -> Size {
    let stages = 1 + dice.below(5);
    Size { stages, setters: dice.below(4), parts: dice.below(5), sections: 1 + dice.below(4) }
}

/// Any size that can be accepted, mostly with some dimension at its end.
pub fn any_size(dice: &mut Dice) -> Size {
    let stages = dice.wild((1, 12)) as usize;
    let sections = dice.wild((1, (48 / stages as i64).min(12))) as usize;
    Size { stages, setters: dice.wild((0, 32)) as usize, parts: dice.wild((0, 32)) as usize, sections }
}

/// As many lines as can be accepted: 48 readings in one of the ways that make 48.
pub fn largest_size(dice: &mut Dice) -> Size {
    let (stages, sections) = dice.pick(&[(12, 4), (4, 12), (6, 8), (8, 6)]);
    Size { stages, setters: 32, parts: 32, sections }
}

pub fn least_size() -> Size {
    Size { stages: 1, setters: 0, parts: 0, sections: 1 }
}

/// A valid sheet of either edition. A pin that no valid sheet can have gives a sheet that is valid but for the pin.
pub fn draft(dice: &mut Dice, style: Style, size: Size, pin: Option<Pin>) -> Draft {
    let edition = edition(dice, style, pin);
    draft_of(edition, dice, style, size, pin)
}

/// Two sheets in three are of edition 1, where nothing else says which.
fn edition(dice: &mut Dice, style: Style, pin: Option<Pin>) -> i64 {
    match (pin.map(|pin| (pin.key, pin.value)), style) {
        (Some((SHEET, 1) | (STAGE, _)), _) => 1,
        (Some((SHEET, 2) | (ANALYSED, _)), _) => 2,
        (_, Style::Corner(greatest)) => 1 + (greatest & 1) as i64,
        _ => 1 + i64::from(dice.once_in(3)),
    }
}

/// The like of this edition.
pub fn draft_of(edition: i64, dice: &mut Dice, style: Style, size: Size, pin: Option<Pin>) -> Draft {
    let size = pinned_size(dice, size, pin);
    let mut maker = Maker { dice, style, pin, draft: Draft::default() };
    for key in [SHEET, FIRING, PRODUCT, AMBIENT, FUEL] {
        maker.row(key);
    }
    // What the pin has put beyond the limits stays there.
    let number = &mut maker.draft.first(SHEET)[0];
    if (1..=2).contains(number) {
        *number = edition;
    }
    maker.gas();
    maker.row(AIR);
    maker.stuff(WARE);
    maker.row(WATER);
    maker.row(CLAY);
    maker.stages(if edition == 1 { STAGE } else { ANALYSED }, size.stages);
    maker.count(SETTERS, size.setters);
    (0..size.setters).for_each(|_| maker.stuff(SETTER));
    maker.count(PARTS, size.parts);
    (0..size.parts).for_each(|_| maker.stuff(PART));
    maker.surface(size);
    maker.row(END);
    maker.draft
}

/// The size under which a pinned field is met at all, and a pinned count is the true one where it can be.
fn pinned_size(dice: &mut Dice, mut size: Size, pin: Option<Pin>) -> Size {
    let Pin { key, field, value } = match pin {
        Some(pin) => pin,
        None => return size,
    };
    let count = value.max(0) as usize;
    match (key, field) {
        (STAGES, _) if (1..=12).contains(&count) => size.stages = count,
        (WALL, 1) if (1..=12).contains(&count) => size.stages = size.stages.max(count),
        (SETTERS, _) if count <= 32 => size.setters = count,
        (PARTS, _) if count <= 32 => size.parts = count,
        (SECTIONS, _) if (1..=12).contains(&count) => {
            size.sections = count;
            size.stages = size.stages.min(48 / count);
        }
        (WALLS, _) if count == 48 => size = Size { setters: 0, parts: 0, ..largest_size(dice) },
        (WALLS, _) if count == 47 => size = Size { stages: 12, sections: 4, ..size },
        (SETTER, _) => size.setters = size.setters.max(1),
        (PART, _) => size.parts = size.parts.max(1),
        _ => {}
    }
    size.sections = size.sections.min(48 / size.stages);
    size
}

struct Maker<'a> {
    dice: &'a mut Dice,
    style: Style,
    pin: Option<Pin>,
    draft: Draft,
}

impl Maker<'_> {
    /// The pinned value, for the first line that asks for it.
    fn pinned(&mut self, key: Key, field: usize) -> Option<i64> {
        let pin = self.pin.filter(|pin| (pin.key, pin.field) == (key, field))?;
        self.pin = None;
        Some(pin.value)
    }

    fn value(&mut self, key: Key, field: usize) -> i64 {
        if let Some(value) = self.pinned(key, field) {
            return value;
        }
        let limits = span(key, field);
        match self.style {
            Style::Wild => self.dice.wild(limits),
            Style::Wide => {
                let (least, greatest) = wide(limits);
                self.dice.between(least, greatest)
            }
            Style::Corner(greatest) => {
                let place = fields().position(|other| other == (key, field)).expect("a field");
                if greatest >> place & 1 == 1 {
                    limits.1
                } else {
                    limits.0
                }
            }
            Style::Plain => {
                let (least, greatest) = plain(key, field).unwrap_or(limits);
                self.dice.between(least, greatest)
            }
        }
    }

    fn values(&mut self, key: Key) -> Vec<i64> {
        (0..second::limits::LINES[key].1.len()).map(|field| self.value(key, field)).collect()
    }

    fn row(&mut self, key: Key) {
        let values = self.values(key);
        self.draft.add(key, &values);
    }

    fn count(&mut self, key: Key, count: usize) {
        let value = self.pinned(key, 0).unwrap_or(count as i64);
        self.draft.add(key, &[value]);
    }

    /// A row that names a material and a specific heat, of which one is 0.
    fn stuff(&mut self, key: Key) {
        let material = material(key).expect("a line with a material");
        let pin = self.pin.filter(|pin| pin.key == key);
        let mut values = self.values(key);
        let own_heat = match pin {
            Some(pin) if pin.field == material => pin.value == 0,
            Some(pin) if pin.field == material + 1 => pin.value != 0,
            _ => self.dice.once_in(3),
        };
        let met = |field| pin.map_or(false, |pin: Pin| pin.field == field);
        if own_heat && !met(material) {
            values[material] = 0;
        }
        if own_heat && values[material + 1] == 0 {
            values[material + 1] = self.dice.between(1, 100_000);
        }
        if !own_heat && !met(material + 1) {
            values[material + 1] = 0;
        }
        if !own_heat && values[material] == 0 {
            values[material] = self.dice.between(1, 18);
        }
        self.draft.add(key, &values);
    }

    fn gas(&mut self) {
        let pin = self.pin.filter(|pin| pin.key == GAS);
        let shares = match self.style {
            Style::Plain if pin.is_none() => self.dice.pick(&[NATURAL, NATURAL, METHANE, BOTTLED, TOWN, PRODUCER]),
            Style::Wide if pin.is_none() => self.gas_of_all(),
            Style::Corner(_) if self.dice.once_in(2) => {
                let mut shares = [0; 13];
                shares[self.dice.pick(&FUELS)] = ALL_SHARES;
                shares
            }
            _ => self.gas_of_some(pin),
        };
        self.draft.add(GAS, &shares);
    }

    /// A little of everything, and methane for the rest.
    fn gas_of_all(&mut self) -> [i64; 13] {
        let mut shares = [0; 13].map(|_: i64| self.dice.between(100, 760));
        shares[6] += ALL_SHARES - shares.iter().sum::<i64>();
        shares
    }

    fn gas_of_some(&mut self, pin: Option<Pin>) -> [i64; 13] {
        let mut shares = [0; 13];
        let mut rest = ALL_SHARES;
        if let Some(pin) = pin {
            shares[pin.field] = self.pinned(GAS, pin.field).unwrap_or(0);
            rest -= shares[pin.field].max(0).min(rest);
        }
        for _ in 0..self.dice.below(6) {
            let gas = self.dice.below(13);
            // Little oxygen, so that the gas mostly still needs air.
            let share = self.dice.wild((0, rest)) / if gas == 3 { 16 } else { 1 };
            if pin.map_or(true, |pin| pin.field != gas) {
                shares[gas] += share;
                rest -= share;
            }
        }
        let burns = FUELS.iter().any(|&gas| shares[gas] > 0);
        let mut gas = self.dice.pick(&FUELS);
        if burns && self.dice.once_in(2) {
            gas = 1;
        }
        if pin.map_or(false, |pin| pin.field == gas) {
            gas = if gas == 6 { 0 } else { 6 };
        }
        shares[gas] += rest;
        shares
    }

    /// Stages of this kind, whose gas is inside its limits together.
    fn stages(&mut self, kind: Key, stages: usize) {
        self.count(STAGES, stages);
        let first = self.pin.filter(|pin| pin.key == kind && pin.field == 0).map(|pin| pin.value);
        let total = match self.style {
            Style::Plain => self.dice.between(1_000, 60_000),
            Style::Wild => self.dice.wild((100, 200_000)),
            Style::Wide => self.dice.between(100_000, 200_000),
            Style::Corner(_) => self.dice.pick(&[100, 200_000]),
        };
        let total = total.max(first.unwrap_or(0)).min(200_000);
        let mut rest = total;
        for stage in 0..stages {
            let pin = self.pin.filter(|pin| pin.key == ANALYSED).map(|pin| pin.field);
            let mut values = self.values(kind);
            if kind == ANALYSED {
                self.bound(&mut values, pin);
            }
            if stage > 0 || first.is_none() {
                values[0] = match self.style {
                    _ if stage + 1 == stages => rest,
                    Style::Wide => self.dice.between(rest / 4, rest / 2),
                    _ => self.dice.wild((0, rest)),
                };
            }
            rest -= values[0].max(0).min(rest);
            self.draft.add(kind, &values);
        }
    }

    /// Takes from CO2 with SO2 or from O2, and not from what is pinned, what the analyser has read too much of all three.
    fn bound(&mut self, values: &mut [i64], pinned: Option<usize>) {
        let surplus = values[3..6].iter().sum::<i64>() - MOST_ANALYSED;
        let oxygen = match pinned {
            Some(4) => true,
            Some(5) => false,
            _ => self.dice.once_in(2),
        };
        values[if oxygen { 5 } else { 4 }] -= surplus.max(0);
    }

    /// Sections, and a reading of each in each stage, in any order.
    fn surface(&mut self, size: Size) {
        self.count(SECTIONS, size.sections);
        let named = self.pinned(WALL, 0);
        let listed = named.filter(|number| (1..=999).contains(number));
        let mut pairs = Vec::new();
        let mut numbers: Vec<i64> = Vec::new();
        for _ in 0..size.sections {
            let mut values = self.values(SECTION);
            values[0] = listed.filter(|_| numbers.is_empty()).unwrap_or(values[0]);
            while numbers.contains(&values[0]) {
                values[0] = self.dice.between(1, 999);
            }
            numbers.push(values[0]);
            pairs.extend((1..=size.stages as i64).map(|stage| (values[0], stage)));
            self.draft.add(SECTION, &values);
        }
        if !self.dice.once_in(4) {
            self.dice.shuffle(&mut pairs);
        }
        self.count(WALLS, pairs.len());
        // A number that no section may have, or no stage, stands in the first reading alone.
        pairs[0].0 = named.filter(|_| listed.is_none()).unwrap_or(pairs[0].0);
        pairs[0].1 = self.pinned(WALL, 1).filter(|stage| !(1..=12).contains(stage)).unwrap_or(pairs[0].1);
        pairs.into_iter().for_each(|pair| self.wall(pair));
    }

    fn wall(&mut self, (number, stage): (i64, i64)) {
        let pin = self.pin.filter(|pin| pin.key == WALL);
        let mut surface = self.value(WALL, 2);
        let mut air = self.value(WALL, 3);
        if surface < air {
            match pin {
                Some(pin) if pin.field == 2 => air = surface.max(span(WALL, 3).0),
                Some(pin) if pin.field == 3 => surface = air.min(span(WALL, 2).1),
                _ => std::mem::swap(&mut surface, &mut air),
            }
        }
        self.draft.add(WALL, &[number, stage, surface, air]);
    }
}

/// What lies below zero; without that, what has about as many digits as the greatest.
fn wide((least, greatest): Span) -> Span {
    if least < 0 {
        return (least, -1);
    }
    let mut long = 1;
    while 20 * long <= greatest {
        long *= 10;
    }
    (least.max(long), greatest)
}

/// The values that firings have, where the limits are much wider.
fn plain(key: Key, field: usize) -> Option<(i64, i64)> {
    Some(match (key, field) {
        (FIRING, 0) => (1, 9_999),
        (PRODUCT, 0) => (1_000, 200_000),
        (AMBIENT, 0) => (50, 350),
        (FUEL, 0) => (5_000, 110_000),
        (FUEL, 1) => (20, 350),
        (AIR, 0) => (20, 200),
        (WARE, 0) => (1_000, 250_000),
        (WARE, 1) | (SETTER, 1) => (50, 600),
        (WARE, 2) => (8_500, 14_500),
        (WATER, 0) | (WATER, 1) => (0, 12_000),
        (WATER, 2) => (800, 5_000),
        (CLAY, 0) => (0, 80_000),
        (STAGE, 1) | (ANALYSED, 1) => (1_000, 3_200),
        (STAGE, 2) => (900, 11_500),
        (ANALYSED, 2) => (900, 9_800),
        (STAGE, 3) | (ANALYSED, 3) => (0, 400),
        (ANALYSED, 4) => (200, 1_400),
        (ANALYSED, 5) => (50, 1_600),
        (STAGE, 4) | (ANALYSED, 6) => (30, 1_000),
        (SETTER, 0) => (0, 40_000),
        (PART, 0) => (500, 600_000),
        (PART, 3) => (50, 2_500),
        (PART, 4) => (200, 8_500),
        (SECTION, 0) => (1, 40),
        (SECTION, 2) => (100, 5_000),
        (WALL, 2) => (210, 1_500),
        (WALL, 3) => (50, 330),
        _ => return None,
    })
}
