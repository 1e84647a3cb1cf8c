//! What burning a cubic metre of gas makes, and what leaves with it (B.3, B.4, B.10, B.15 of the standard).

use crate::limits::ALL_SHARES;
use crate::whole::nearest;

/// What the flue needs to know of the gas. All three count hundredths of a percent of the gas.
pub struct Burning {
    /// Theoretical air is 0.0238 m³ for each percent of this: every coefficient of B.3 is a multiple of 0.0238.
    air: i64,
    /// What stays in the dry flue: each molecule's carbon, and what does not burn.
    dry: i64,
    /// What becomes vapour.
    vapour: i64,
}

/// A stage of the firing, as far as its flue is concerned.
#[derive(Clone, Copy)]
pub struct Stage {
    pub gas: i64,
    pub excess: i64,
    pub flue: i64,
    pub co: i64,
    /// The specific heat of its dry flue, in 0.001 kJ/(m³ °C).
    pub capacity: i64,
}

/// The specific heat of dry flue that nobody has analysed.
pub const UNANALYSED: i64 = 1_384;

impl Burning {
    /// None where the shares don't add up, or where no air is needed.
    pub fn of(shares: &[i64; 13]) -> Option<Burning> {
        let [h2, n2, co, o2, h2o, co2, ch4, c2h4, c2h6, c3h8, c4h10, h2s, so2] = *shares;
        let air = co + h2 + 4 * ch4 + 6 * c2h4 + 7 * c2h6 + 10 * c3h8 + 13 * c4h10 + 3 * h2s - 2 * o2;
        if shares.iter().sum::<i64>() != ALL_SHARES || air <= 0 {
            return None;
        }
        let dry = co + ch4 + 2 * (c2h4 + c2h6) + 3 * c3h8 + 4 * c4h10 + n2 + co2 + h2s + so2;
        let vapour = h2 + 2 * ch4 + 2 * c2h4 + 3 * c2h6 + 4 * c3h8 + 5 * c4h10 + h2s + h2o;
        Some(Burning { air, dry, vapour })
    }

    /// Dry flue from a cubic metre of gas, in 1e-9 m³, at an excess of air in thousandths.
    #[inline]
    fn dry_rate(&self, excess: i64) -> i64 {
        100_000 * self.dry + (excess - 210) * 238 * self.air
    }

    /// Vapour from a cubic metre of gas, in 1e-9 kg, with `moisture` 0.0001 kg in each kg of air.
    ///
    /// 1.293 a L X is 1293 * 238 in 1e-16 kg, and 18/22.4 is 45/56. Over 5.6e8 both are whole; the 16 that they share is out.
    #[inline]
    fn vapour_rate(&self, excess: i64, moisture: i64) -> i64 {
        let from_air = 7 * 1_293 * 119 * excess * self.air * moisture;
        let from_gas = 2_812_500_000_000 * self.vapour;
        nearest(from_air + from_gas, 35_000_000)
    }

    /// The heat that a stage's flue carries off, and the heat of its CO, in joules.
    #[inline]
    pub fn stage(&self, stage: &Stage, moisture: i64, base: i64) -> (i64, i64) {
        let Stage { gas, excess, flue, co, capacity } = *stage;
        let rise = flue - base;
        let dry = nearest(gas * self.dry_rate(excess), 100_000);
        let vapour = nearest(gas * self.vapour_rate(excess, moisture), 10_000);
        let warm = nearest(dry * capacity * rise, 1_000_000) + nearest(vapour * 193 * rise, 1_000_000);
        (warm, nearest(dry * co * 12_750, 1_000_000))
    }
}

#[cfg(test)]
mod tests {
    use super::Burning;

    #[test]
    fn marked_methane() {
        let methane = Burning::of(&[0, 0, 0, 0, 0, 0, 10_000, 0, 0, 0, 0, 0, 0]).unwrap();
        assert_eq!(238 * methane.air, 9_520_000);
        assert_eq!(methane.dry_rate(1_100), 9_472_800_000);
        assert_eq!(methane.vapour_rate(1_100, 0), 1_607_142_857);
    }
}
