//! What leaves through the kiln's surface (formulas 25 and 27).

use crate::whole::{nearest, root};

/// Formula 25's factor for roof, wall and floor, in hundredths.
const FACTORS: [i64; 4] = [0, 326, 256, 210];

/// A measured piece of the surface.
#[derive(Clone, Copy, Default)]
pub struct Section {
    pub number: i64,
    pub place: i64,
    pub area: i64,
    /// A bit for each stage in which it has been read.
    pub read: u32,
}

/// The fourth root of so many tenths of a degree, in 1e-8: two square roots, each cut down to 1e-8.
#[inline]
fn fourth_root(drop: i64) -> i64 {
    let square_root = root(1_000_000_000_000_000 * drop as u64);
    root(100_000_000 * square_root) as i64
}

/// The flux in 1e-5 W/m². The surface is not colder than the air.
#[inline]
fn flux(place: i64, surface: i64, air: i64) -> i64 {
    let factor = FACTORS[place as usize];
    let drop = surface - air;
    let carried = nearest(factor * drop * fourth_root(drop), 1_000_000);
    let fourth = |t: i64| {
        let square = (2_730 + t) * (2_730 + t);
        square * square
    };
    carried + nearest(454 * (fourth(surface) - fourth(air)), 1_000_000_000)
}

/// The joules that a section loses in a stage of so many minutes.
#[inline]
pub fn loss(section: &Section, minutes: i64, surface: i64, air: i64) -> i64 {
    // 3.6 kJ over 60 minutes is 60 J
    nearest(flux(section.place, surface, air) * section.area * minutes * 3, 500_000)
}

#[cfg(test)]
mod tests {
    use super::{flux, fourth_root, loss, Section};

    #[test]
    fn fourth_roots_of_whole_degrees() {
        assert_eq!([0, 10, 160, 810, 2_560].map(fourth_root), [0, 1, 2, 3, 4].map(|whole| whole * 100_000_000));
        assert_eq!([9, 159, 809, 2_559].map(|below| fourth_root(below) / 100_000_000), [0, 1, 2, 3]);
    }

    #[test]
    fn marked_wall() {
        assert_eq!(flux(2, 560, 200), 22_574_497 + 19_731_127);
        assert_eq!(flux(1, 200, 200), 0);
        let wall = Section { number: 3, place: 2, area: 1_000, read: 0 };
        assert_eq!(loss(&wall, 600, 560, 200), 152_300_246);
    }
}
