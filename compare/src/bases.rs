//! The sheets that the kinds begin with: all valid, and of either edition where they don't say which.

use crate::dice::Dice;
use crate::draft::Draft;
use crate::valid::{self, Style};

/// Makes a sheet that something is then done to.
pub type Base = fn(&mut Dice) -> Draft;

pub fn usual(dice: &mut Dice) -> Draft {
    let size = valid::usual_size(dice);
    valid::draft(dice, Style::Plain, size, None)
}

pub fn wild(dice: &mut Dice) -> Draft {
    let size = valid::usual_size(dice);
    valid::draft(dice, Style::Wild, size, None)
}

pub fn least(dice: &mut Dice) -> Draft {
    let style = dice.pick(&[Style::Plain, Style::Wild]);
    valid::draft(dice, style, valid::least_size(), None)
}

pub fn of_any_size(dice: &mut Dice) -> Draft {
    let size = if dice.once_in(2) { valid::largest_size(dice) } else { valid::any_size(dice) };
    let style = dice.pick(&[Style::Plain, Style::Wild, Style::Wild]);
    valid::draft(dice, style, size, None)
}

/// All numbers as great or small as they can be: what is too great for a word of the processor shows here.
pub fn corner(dice: &mut Dice) -> Draft {
    let greatest = dice.bits();
    // The lowest bit is the edition's.
    let ends = dice.pick(&[0, 1, u64::MAX - 1, u64::MAX]);
    let style = Style::Corner(if dice.once_in(4) { ends } else { greatest });
    let size = if dice.once_in(3) { valid::any_size(dice) } else { valid::usual_size(dice) };
    valid::draft(dice, style, size, None)
}

pub fn any(dice: &mut Dice) -> Draft {
    match dice.below(16) {
        0..=9 => usual(dice),
        10..=12 => wild(dice),
        13 => of_any_size(dice),
        _ => least(dice),
    }
}

/// So many lines of each kind that stands in a block, by edition.
pub const TWO_OF_EACH: [Base; 2] = [|dice| some_of_each(1, 2, dice), |dice| some_of_each(2, 2, dice)];
pub const SMALL: [Base; 2] = [|dice| some_of_each(1, 1, dice), |dice| some_of_each(2, 1, dice)];

fn some_of_each(edition: i64, lines: usize, dice: &mut Dice) -> Draft {
    let size = valid::Size { stages: lines, setters: lines, parts: lines, sections: lines };
    valid::draft_of(edition, dice, Style::Plain, size, None)
}

/// A sheet with a line of each kind and no more, of one edition after the other.
pub fn small(turn: u64) -> Base {
    SMALL[(turn % 2) as usize]
}
