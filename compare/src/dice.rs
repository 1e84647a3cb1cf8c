//! Chance that can be had again: the same seed throws the same numbers.

/// A generator of the splitmix kind, which needs one addition and a few shifts for 64 bits.
pub struct Dice {
    state: u64,
}

const STEP: u64 = 0x9e37_79b9_7f4a_7c15;

fn mix(mut x: u64) -> u64 {
    x = (x ^ (x >> 30)).wrapping_mul(0xbf58_476d_1ce4_e5b9);
    x = (x ^ (x >> 27)).wrapping_mul(0x94d0_49bb_1331_11eb);
    x ^ (x >> 31)
}

impl Dice {
    /// Dice for one purpose under a seed: a sheet is then made without those before it.
    pub fn new(seed: u64, purpose: u64, step: u64) -> Dice {
        let state = mix(seed ^ STEP) ^ mix(purpose.wrapping_mul(STEP)) ^ mix(step.wrapping_add(STEP).wrapping_mul(3));
        Dice { state: mix(state) }
    }

    /// 64 bits, each of which is as often 0 as 1.
    pub fn bits(&mut self) -> u64 {
        self.state = self.state.wrapping_add(STEP);
        mix(self.state)
    }

    /// 0 up to but without `n`, which is not 0.
    pub fn below(&mut self, n: usize) -> usize {
        (self.bits() % n as u64) as usize
    }

    /// `least` up to and with `greatest`.
    pub fn between(&mut self, least: i64, greatest: i64) -> i64 {
        least + (self.bits() % (greatest - least + 1) as u64) as i64
    }

    /// True once in `n` throws.
    pub fn once_in(&mut self, n: usize) -> bool {
        self.below(n) == 0
    }

    pub fn pick<T: Copy>(&mut self, from: &[T]) -> T {
        from[self.below(from.len())]
    }

    pub fn shuffle<T>(&mut self, all: &mut [T]) {
        for last in (1..all.len()).rev() {
            all.swap(last, self.below(last + 1));
        }
    }

    /// A value inside the limits that lies at one of them, or near one, or is small, or lies anywhere.
    pub fn wild(&mut self, (least, greatest): (i64, i64)) -> i64 {
        let near = 3.min(greatest - least);
        match self.below(8) {
            0 => least,
            1 => greatest,
            2 => least + self.between(0, near),
            3 => greatest - self.between(0, near),
            4 => self.between(-30, 30).max(least).min(greatest),
            5 => least + (self.between(0, greatest - least) >> self.below(24)),
            _ => self.between(least, greatest),
        }
    }
}
