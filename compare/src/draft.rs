//! A sheet as rows of numbers, before it becomes bytes.

use crate::dice::Dice;
use second::limits::{Span, LINES, PART_MATERIAL, SETTER_MATERIAL, WARE_MATERIAL};
use std::io::Write;

/// A kind of line: its place in document 01's table.
pub type Key = usize;

pub const SHEET: Key = 0;
pub const FIRING: Key = 1;
pub const PRODUCT: Key = 2;
pub const AMBIENT: Key = 3;
pub const FUEL: Key = 4;
pub const GAS: Key = 5;
pub const AIR: Key = 6;
pub const WARE: Key = 7;
pub const WATER: Key = 8;
pub const CLAY: Key = 9;
pub const STAGES: Key = 10;
pub const STAGE: Key = 11;
/// A stage of sheet 2.
pub const ANALYSED: Key = 12;
pub const SETTERS: Key = 13;
pub const SETTER: Key = 14;
pub const PARTS: Key = 15;
pub const PART: Key = 16;
pub const SECTIONS: Key = 17;
pub const SECTION: Key = 18;
pub const WALLS: Key = 19;
pub const WALL: Key = 20;
pub const END: Key = 21;

/// One line.
#[derive(Clone)]
pub struct Row {
    pub key: Key,
    pub values: Vec<i64>,
}

impl Row {
    /// Makes a stage of sheet 1 one of sheet 2, with some analysis. It is no hotter then than table A.1.
    pub fn analyse(&mut self, dice: &mut Dice) {
        self.key = ANALYSED;
        self.values[2] = self.values[2].min(span(ANALYSED, 2).1);
        self.values.splice(4..4, [dice.between(200, 1_400), dice.between(50, 1_600)]);
    }

    /// Makes a stage of sheet 2 one of sheet 1.
    pub fn forget(&mut self) {
        self.key = STAGE;
        self.values.drain(4..6);
    }
}

/// A whole sheet. Nothing keeps its rows from breaking rules: that is what most of them are for.
#[derive(Clone, Default)]
pub struct Draft {
    pub rows: Vec<Row>,
}

pub fn span(key: Key, field: usize) -> Span {
    LINES[key].1[field]
}

/// True of a line that says how many of the next kind follow.
pub fn counts(key: Key) -> bool {
    LINES.get(key + 1).map_or(false, |(one, _)| LINES[key].0.strip_suffix('s') == Some(*one))
}

/// Where a line names a material; the specific heat of its own stands behind that.
pub fn material(key: Key) -> Option<usize> {
    let place = match key {
        WARE => WARE_MATERIAL,
        SETTER => SETTER_MATERIAL,
        PART => PART_MATERIAL,
        _ => return None,
    };
    Some(place as usize - 1)
}

/// Every field of every kind of line, in the sheet's order.
pub fn fields() -> impl Iterator<Item = (Key, usize)> {
    (0..LINES.len()).flat_map(|key| (0..LINES[key].1.len()).map(move |field| (key, field)))
}

/// Every field of every kind of line beside every field of the same line.
pub fn pairs() -> impl Iterator<Item = (Key, usize, usize)> {
    fields().flat_map(|(key, one)| (0..LINES[key].1.len()).map(move |other| (key, one, other)))
}

impl Draft {
    pub fn add(&mut self, key: Key, values: &[i64]) {
        self.rows.push(Row { key, values: values.to_vec() });
    }

    /// Makes it a sheet 2.
    pub fn analyse(&mut self, dice: &mut Dice) {
        self.first(SHEET)[0] = 2;
        self.rows.iter_mut().filter(|row| row.key == STAGE).for_each(|row| row.analyse(dice));
    }

    /// The kind of its stages. A fault may have changed the sheet's number, or some of the stages.
    pub fn stage(&self) -> Key {
        if self.rows.iter().any(|row| row.key == ANALYSED) {
            ANALYSED
        } else {
            STAGE
        }
    }

    /// Where its stages stand, of whichever kind.
    pub fn stages(&self) -> Vec<usize> {
        (0..self.rows.len()).filter(|&place| matches!(self.rows[place].key, STAGE | ANALYSED)).collect()
    }

    /// Where the rows of this kind stand.
    pub fn places(&self, key: Key) -> Vec<usize> {
        (0..self.rows.len()).filter(|&place| self.rows[place].key == key).collect()
    }

    /// Every field of the first and of the last row of each kind.
    pub fn ends(&self) -> Vec<(usize, usize)> {
        let key = |place: usize| self.rows.get(place).map(|row| row.key);
        let end = |place: &usize| key(place.wrapping_sub(1)) != key(*place) || key(place + 1) != key(*place);
        (0..self.rows.len()).filter(end).flat_map(|place| (0..self.rows[place].values.len()).map(move |field| (place, field))).collect()
    }

    /// The first row of this kind, which the sheet has.
    pub fn first(&mut self, key: Key) -> &mut Vec<i64> {
        let row = self.rows.iter_mut().find(|row| row.key == key).expect("a row of this kind");
        &mut row.values
    }

    /// Gives the first row of this kind other values.
    pub fn set(&mut self, key: Key, values: &[i64]) {
        self.first(key).copy_from_slice(values);
    }

    /// Puts a row behind the last one of its kind, or behind the count where there is none, and counts it.
    pub fn append(&mut self, count: Key, values: &[i64]) {
        let start = self.rows.iter().position(|row| row.key == count).expect("a row with the count");
        // A count that a fault has changed does not say how many rows there are.
        let there = self.rows[start + 1..].iter().take_while(|row| row.key == count + 1).count();
        self.rows[start].values[0] += 1;
        self.rows.insert(start + 1 + there, Row { key: count + 1, values: values.to_vec() });
    }

    pub fn bytes(&self) -> Vec<u8> {
        let mut text = Vec::with_capacity(1024);
        self.write(&mut text);
        text
    }

    /// The sheet's bytes, in place of what `text` held.
    pub fn write(&self, text: &mut Vec<u8>) {
        text.clear();
        for row in &self.rows {
            text.extend_from_slice(LINES[row.key].0.as_bytes());
            let mut before = b'=';
            for value in &row.values {
                text.push(before);
                write!(text, "{value}").expect("memory takes all");
                before = b',';
            }
            text.push(b'\n');
        }
    }
}
