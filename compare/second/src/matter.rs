//! What it takes to warm things: tables A.1 and A.2 of the standard, as the documents give them.

use crate::limits::{ALL_SHARES, MOST_ANALYSED};
use crate::whole::nearest;

/// Specific heats are in 1e-7 kJ/(kg °C) here: the finest coefficient, 4.18e-4 at a tenth of a degree, is a whole number of them.
const CAPACITY_UNIT: i64 = 1_000;

/// A row of A.2: the specific heat at 0 °C, and what a tenth of a degree adds to it.
type Row = (i64, i64);

/// Materials 1..18, up to and with 800.0 °C where a material has two rows.
const COOLER: [Row; 19] = [
    (0, 0),           // none: code 0 has a specific heat of its own
    (8_400_000, 260), // clay brick
    (8_400_000, 260), // high-alumina brick
    (4_200_000, 880), // corundum
    (6_700_000, 167), // sillimanite
    (6_700_000, 126), // mullite
    (8_000_000, 330), // silica
    (9_400_000, 250), // magnesia
    (7_500_000, 150), // chrome-magnesia
    (7_700_000, 300), // spinel
    (8_900_000, 420), // forsterite
    (6_300_000, 126), // zircon
    (7_300_000, 376), // opaque quartz
    (9_600_000, 150), // silicon carbide
    (8_000_000, 334), // light silica
    (8_400_000, 260), // light clay brick
    (8_000_000, 293), // fibre blanket
    (8_900_000, 0),   // slag wool
    (4_600_000, 0),   // steel
];

const BREAK: i64 = 8_000;
const CORUNDUM: i64 = 3;
const CORUNDUM_HOTTER: Row = (8_000_000, 418);
const QUARTZ: i64 = 12;
const QUARTZ_HOTTER: Row = (9_000_000, 167);

/// What a thing is made of: a material of table A.2, or code 0 with a specific heat of its own.
#[derive(Clone, Copy)]
pub struct Stuff {
    material: i64,
    capacity: i64,
}

impl Stuff {
    /// None where a listed material comes with a specific heat, or code 0 without one.
    #[inline]
    pub fn new(material: i64, capacity: i64) -> Option<Stuff> {
        if (material == 0) == (capacity == 0) {
            None
        } else {
            Some(Stuff { material, capacity })
        }
    }

    #[inline]
    fn capacity_at(self, temperature: i64) -> i64 {
        if self.material == 0 {
            return self.capacity * CAPACITY_UNIT;
        }
        let (base, slope) = match self.material {
            CORUNDUM if temperature > BREAK => CORUNDUM_HOTTER,
            QUARTZ if temperature > BREAK => QUARTZ_HOTTER,
            listed => COOLER[listed as usize],
        };
        base + slope * temperature
    }

    /// The joules of m c (first - second). The specific heat is taken at the temperature that stands first in the bracket.
    #[inline]
    pub fn heat(self, mass: i64, first: i64, second: i64) -> i64 {
        nearest(mass * self.capacity_at(first) * (first - second), 1_000_000)
    }
}

/// Table A.1 for the 13 gases in the sheet's order: 0.001 kJ/(m³ °C) at 0 °C and at 100 °C.
const GASES: [(i64, i64); 13] = [
    (1275, 1287), // H2
    (1296, 1300), // N2
    (1300, 1301), // CO
    (1304, 1317), // O2
    (1488, 1501), // H2O
    (1597, 1697), // CO2
    (1563, 1651), // CH4
    (1869, 2103), // C2H4
    (2061, 2061), // C2H6
    (3043, 3959), // C3H8
    (4122, 5250), // C4H10
    (1530, 1559), // H2S
    (1777, 1860), // SO2
];

/// The specific heat of a mixture, a straight line, in 1e-10 kJ/(m³ °C): at 0 °C, and what a tenth of a degree adds to it.
pub fn mixture(shares: &[i64; 13]) -> (i64, i64) {
    let mut base = 0;
    let mut slope = 0;
    for (share, (cold, warm)) in shares.iter().zip(GASES) {
        base += share * cold * 1_000;
        slope += share * (warm - cold);
    }
    (base, slope)
}

/// The joules that the gas brings by being warm.
///
/// It is formed only once refusals 5 and 10 are out of the way: then 200,000 of gas, 4.8e10 of mixture and 800 tenths of a degree make
/// 7.7e18, which fits 64 bits.
#[inline]
pub fn fuel_heat(gas: i64, mixture: (i64, i64), fuel: i64, base: i64) -> i64 {
    nearest(gas * (mixture.0 + mixture.1 * fuel) * (fuel - base), 1_000_000_000)
}

/// Table A.1 for CO, CO2, O2 and N2, a row for each 100 °C from 0 to 1,000: 0.001 kJ/(m³ °C).
const FLUE_GASES: [[i64; 4]; 11] = [
    [1300, 1597, 1304, 1296],
    [1301, 1697, 1317, 1300],
    [1308, 1793, 1333, 1301],
    [1317, 1877, 1354, 1304],
    [1329, 1923, 1375, 1317],
    [1342, 1998, 1396, 1325],
    [1359, 2052, 1414, 1338],
    [1372, 2098, 1434, 1354],
    [1388, 2140, 1450, 1367],
    [1400, 2178, 1463, 1379],
    [1413, 2215, 1476, 1392],
];

/// What dry flue consists of besides nitrogen, in hundredths of a percent.
#[derive(Clone, Copy)]
pub struct Analysis {
    pub co: i64,
    /// CO2 with SO2, which are taken for CO2.
    pub pair: i64,
    pub o2: i64,
}

impl Analysis {
    /// True where there is too much of the three together.
    #[inline]
    pub fn surpasses(self) -> bool {
        self.co + self.pair + self.o2 > MOST_ANALYSED
    }

    /// Formula 4 for the dry flue at so many tenths of a degree, in 1e-10 kJ/(m³ °C). At 1,000.0 the way to the last row is all gone.
    #[inline]
    pub fn mixture(self, flue: i64) -> i64 {
        let Analysis { co, pair, o2 } = self;
        let shares = [co, pair, o2, ALL_SHARES - co - pair - o2];
        let row = (flue / 1_000).min(9);
        let way = flue - 1_000 * row;
        let (cold, warm) = (FLUE_GASES[row as usize], FLUE_GASES[row as usize + 1]);
        let mut sum = 0;
        for (gas, share) in shares.iter().enumerate() {
            sum += share * (1_000 * cold[gas] + way * (warm[gas] - cold[gas]));
        }
        sum
    }

    /// The same in 0.001 kJ/(m³ °C), rounded once.
    #[inline]
    pub fn capacity(self, flue: i64) -> i64 {
        nearest(self.mixture(flue), 10_000_000)
    }
}

#[cfg(test)]
mod tests {
    use super::{Analysis, Stuff, FLUE_GASES, GASES};

    #[test]
    fn marked_specific_heats() {
        let at = |material, temperature| Stuff::new(material, 0).unwrap().capacity_at(temperature);
        assert_eq!(at(1, 6_200), 10_012_000);
        assert_eq!(at(3, 8_000), 11_240_000);
        assert_eq!(at(3, 8_001), 11_344_418);
    }

    #[test]
    fn marked_flues() {
        for (co, pair, o2, flue, before, after) in [
            (0, 0, 0, 0, 12_960_000_000, 1_296),
            (0, 1_050, 190, 8_200, 14_526_918_000, 1_453),
            (50, 860, 420, 2_350, 13_484_542_000, 1_348),
            (0, 2_500, 1_500, 10_000, 16_103_500_000, 1_610),
            (0, 1_400, 0, 250, 13_425_000_000, 1_342),
        ] {
            let analysis = Analysis { co, pair, o2 };
            assert_eq!((analysis.mixture(flue), analysis.capacity(flue)), (before, after));
            assert!(!analysis.surpasses());
        }
    }

    #[test]
    fn the_flue_s_rows_begin_as_the_fuel_s() {
        let [_, n2, co, o2, _, co2, ..] = GASES;
        for (gas, (cold, warm)) in [co, co2, o2, n2].into_iter().enumerate() {
            assert_eq!((FLUE_GASES[0][gas], FLUE_GASES[1][gas]), (cold, warm));
        }
    }
}
