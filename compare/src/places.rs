//! Where a balance rounds before anything is printed, worked out of a draft once more, for seeing that the recipes of `inner` meet a half
//! there beside an even number and beside an odd one, above zero and, where it can be, below.

use crate::draft::*;
use crate::inner::product;
use second::Analysis;

/// The fractions that are rounded, each with its place.
#[derive(Default)]
struct Roundings(Vec<(&'static str, i128, i128)>);

impl Roundings {
    /// To the nearest, halves to the even one.
    fn round(&mut self, place: &'static str, n: i128, d: i128) -> i128 {
        self.0.push((place, n, d));
        let (below, rest) = (n.div_euclid(d), n.rem_euclid(d));
        below + i128::from(rest > d - rest || rest == d - rest && below % 2 != 0)
    }

    /// m c (first - second) in joules. Of table A.2 only the row of the bricks is here, which is what the recipes take.
    fn heat(&mut self, place: &'static str, mass: i128, stuff: [i128; 2], [first, second]: [i128; 2]) {
        match stuff {
            [0, own] => drop(self.round(place, mass * own * (first - second), 1_000)),
            [1 | 2 | 15, _] => drop(self.round(place, mass * (8_400_000 + 260 * first) * (first - second), 1_000_000)),
            _ => {}
        }
    }

    fn solids(&mut self, draft: &Draft) {
        let ([base], [product]) = (first(draft, AMBIENT), first(draft, PRODUCT));
        let [green, entry, highest, material, own] = first(draft, WARE);
        self.heat("q5", green, [material, own], [entry, base]);
        self.heat("x1", product, [material, own], [highest, entry]);
        for [mass, entry, material, own] in all(draft, SETTER) {
            self.heat("q3", mass, [material, own], [entry, base]);
            self.heat("x5", mass, [material, own], [highest, entry]);
        }
        for [mass, material, own, before, firing] in all(draft, PART) {
            self.heat("q8", mass, [material, own], [before, base]);
            self.heat("x10", mass, [material, own], [firing, base]);
        }
        let [adsorbed, crystal, flue] = first(draft, WATER);
        self.round("x2", (adsorbed + crystal) * (2_490_000 + 193 * (flue - base)), 10);
        let boiled = 418 * (1_000 - entry) + 2_260_000;
        self.round("formula 33", adsorbed * (boiled + 25 * 1_930) + crystal * (boiled + 450 * 1_930), 10);
    }

    /// Of table A.1 only methane's row is here.
    fn gases(&mut self, draft: &Draft) {
        let ([base], [_, warm], [moisture]) = (first(draft, AMBIENT), first(draft, FUEL), first(draft, AIR));
        let shares: [i128; 13] = first(draft, GAS);
        let of = |weights: [i128; 13]| shares.iter().zip(weights).map(|(share, weight)| share * weight).sum::<i128>();
        let air = of([1, 0, 1, -2, 0, 0, 4, 6, 7, 10, 13, 3, 0]);
        let dry = of([0, 1, 1, 0, 0, 1, 1, 2, 2, 3, 4, 1, 1]);
        let vapour = of([1, 0, 0, 0, 1, 0, 2, 2, 3, 4, 5, 1, 0]);
        let mut total = 0;
        for place in draft.stages() {
            let stage = &draft.rows[place].values;
            let [gas, excess, flue, co] = [0, 1, 2, 3].map(|field| i128::from(stage[field]));
            let capacity = match stage[..] {
                [_, _, flue, co, pair, o2, _] => self.round("flue capacity", Analysis { co, pair, o2 }.mixture(flue).into(), 10_000_000),
                _ => 1_384,
            };
            let volume = self.round("dry volume", gas * (100_000 * dry + (excess - 210) * 238 * air), 100_000);
            let rate = self.round("vapour rate", 1_077_069 * excess * air * moisture + 2_812_500_000_000 * vapour, 35_000_000);
            let mass = self.round("vapour mass", gas * rate, 10_000);
            self.round("dry heat", volume * capacity * (flue - base), 1_000_000);
            self.round("vapour heat", mass * 193 * (flue - base), 1_000_000);
            self.round("x8", volume * co * 12_750, 1_000_000);
            total += gas;
        }
        if shares[6] == 10_000 {
            self.round("q2", total * (1_563_000 + 88 * warm) * (warm - base), 100_000);
        }
    }

    fn walls(&mut self, draft: &Draft) {
        let minutes = |stage: i128| draft.rows[draft.stages()[stage as usize - 1]].values.last().copied().expect("the minutes");
        for [number, stage, surface, air] in all(draft, WALL) {
            let [_, place, area] = all(draft, SECTION).find(|[other, _, _]| *other == number).expect("the reading's section");
            let product = product(place as usize, (surface - air) as i64);
            let carried = self.round("fourth root", product as i128, 1_000_000);
            let radiated = self.round("radiation", 454 * ((2_730 + surface).pow(4) - (2_730 + air).pow(4)), 1_000_000_000);
            self.round("x9", (carried + radiated) * area * i128::from(minutes(stage)) * 3, 500_000);
        }
    }
}

/// The values of all rows of this kind.
fn all<const N: usize>(draft: &Draft, key: Key) -> impl Iterator<Item = [i128; N]> + '_ {
    let rows = draft.rows.iter().filter(move |row| row.key == key);
    rows.map(|row| <[i64; N]>::try_from(&row.values[..]).expect("as many fields").map(i128::from))
}

fn first<const N: usize>(draft: &Draft, key: Key) -> [i128; N] {
    all(draft, key).next().expect("a row of this kind")
}

mod tests {
    use super::*;
    use crate::dice::Dice;
    use crate::inner::rounded;
    use std::collections::BTreeMap;

    /// How often each place is at a half: above zero beside an even number and an odd one, and below zero.
    fn met() -> BTreeMap<&'static str, [usize; 4]> {
        let mut met = BTreeMap::new();
        for step in 0..18 * 200 {
            let draft = rounded(step, &mut Dice::new(1, 6, step));
            let mut roundings = Roundings::default();
            roundings.solids(&draft);
            roundings.gases(&draft);
            roundings.walls(&draft);
            for (place, n, d) in roundings.0 {
                let four: &mut [usize; 4] = met.entry(place).or_default();
                four[2 * usize::from(n < 0) + (n / d % 2).unsigned_abs() as usize] += usize::from(n.rem_euclid(d) * 2 == d);
            }
        }
        met
    }

    #[test]
    fn every_place_is_met_at_a_half_of_every_kind() {
        let mut met = met();
        // The dividend of formula 33 is even, and its divisor 10. Of the product with the fourth root `inner` looks at all that there are.
        assert_eq!((met.remove("formula 33"), met.remove("fourth root")), (Some([0; 4]), Some([0; 4])));
        assert_eq!(met.len(), 17, "{met:?}");
        for (place, four) in &met {
            let below = matches!(*place, "q2" | "q3" | "q5" | "q8" | "x1" | "x5" | "x10" | "dry heat" | "vapour heat");
            assert!(four[..if below { 4 } else { 2 }].iter().all(|&count| count > 5), "{place}: {met:?}");
        }
    }
}
