//! The library's square root and fourth root, called by themselves (compare/roots).

use std::time::Instant;

#[path = "second/src/whole.rs"]
#[allow(dead_code)]
mod whole;

extern "C" {
    #[link_name = "roots::floor_root"]
    fn floor_root(n: u64) -> u64;
    #[link_name = "surface::fourth_root"]
    fn fourth_root(rise: u64) -> u64;
    // an array goes by its place, and so does the answer
    #[link_name = "roots::several::floor_roots"]
    fn floor_roots(roots: *mut [u64; SIDE], numbers: *const [u64; SIDE], pairs: u32);
    #[link_name = "surface::fourth_roots"]
    fn fourth_roots(roots: *mut [u64; SIDE], rises: *const [u64; SIDE]);
}

/// How many are worked side by side, and the most pairs of bits that they may have there.
const SIDE: usize = 8;
const PAIRS_MOST: u32 = 31;

/// The greatest difference of temperatures at a wall, in tenths of a degree, and what the two roots are taken of.
const RISE_MOST: u64 = 3_200;
const FIRST: u64 = 1_000_000_000_000_000;
const SECOND: u64 = 100_000_000;

/// How many roots of each length are tried, and how many rounds the fastest is taken of.
const SPREAD: u64 = 1 << 18;
const ROUNDS: usize = 300;

fn library(n: u64) -> u64 {
    unsafe { floor_root(n) }
}

fn library_fourth(rise: u64) -> u64 {
    unsafe { fourth_root(rise) }
}

fn library_side(numbers: &[u64; SIDE], pairs: u32) -> [u64; SIDE] {
    let mut roots = [0; SIDE];
    unsafe { floor_roots(&mut roots, numbers, pairs) };
    roots
}

fn library_fourths(rises: &[u64; SIDE]) -> [u64; SIDE] {
    let mut roots = [0; SIDE];
    unsafe { fourth_roots(&mut roots, rises) };
    roots
}

fn second_fourth(rise: u64) -> u64 {
    whole::root(whole::root(rise * FIRST) * SECOND)
}

/// The independent program's root serves numbers below 2^63.
fn held(n: u64) {
    let r = library(n);
    let (wide, next) = (u128::from(r), u128::from(r) + 1);
    assert!(wide * wide <= u128::from(n) && u128::from(n) < next * next, "the root of {n} is not {r}");
    assert!(n >= 1 << 63 || r == whole::root(n), "the root of {n} is {r} here and {} there", whole::root(n));
}

/// Numbers that go side by side, until there are eight of them.
#[derive(Default)]
struct Side {
    numbers: Vec<u64>,
    count: u64,
}

impl Side {
    /// With as few pairs as they can be called with, and with as many.
    fn held(&mut self, n: u64) {
        if n >> (2 * PAIRS_MOST) != 0 {
            return;
        }
        self.numbers.push(n);
        let Ok(numbers) = <[u64; SIDE]>::try_from(self.numbers.as_slice()) else { return };
        self.numbers.clear();
        let greatest = numbers.iter().max().map_or(0, |n| (65 - n.leading_zeros()) / 2);
        for pairs in [greatest.max(16), PAIRS_MOST] {
            assert_eq!(library_side(&numbers, pairs), numbers.map(library), "the roots of {numbers:?} with {pairs} pairs");
        }
        self.count += SIDE as u64;
    }
}

fn check() {
    let mut count: u64 = 1 << 20;
    let mut side = Side::default();
    (0..count).for_each(|n| {
        held(n);
        side.held(n);
    });
    for bits in 1..=32 {
        let (least, greatest) = (1 << (bits - 1), (1 << bits) - 1);
        let step = (greatest - least) / SPREAD + 1;
        for k in (least..=greatest).step_by(step as usize).chain([greatest]) {
            for n in [k * k - 1, k * k, k * k + 2 * k] {
                held(n);
                side.held(n);
            }
            count += 3;
        }
    }
    for rise in 0..=RISE_MOST {
        let first = rise * FIRST;
        held(first);
        held(library(first) * SECOND);
        assert_eq!(library_fourth(rise), second_fourth(rise), "the fourth root of {rise}");
        count += 2;
        // in each place, beside others
        for place in 0..SIDE as u64 {
            let rises = std::array::from_fn(|at| (rise + 401 * (at as u64 + SIDE as u64 - place)) % (RISE_MOST + 1));
            assert_eq!(library_fourths(&rises), rises.map(second_fourth), "the fourth roots of {rises:?}");
        }
    }
    println!("roots: {count} roots and {} fourth roots, no difference", RISE_MOST + 1);
    println!("roots: {} side by side, and every fourth root in each of {SIDE} places, no difference", side.count);
}

/// The nanoseconds of a reading's share, on rises in no order.
fn time_side(what: &str, rises: &[u64]) {
    let mut fastest = f64::INFINITY;
    for _ in 0..ROUNDS {
        let start = Instant::now();
        let groups = rises.chunks_exact(SIDE).map(|group| library_fourths(group.try_into().expect("eight")));
        let sum = groups.fold(0u64, |sum, roots| sum.wrapping_add(roots.iter().sum()));
        fastest = fastest.min(start.elapsed().as_nanos() as f64 / rises.len() as f64);
        std::hint::black_box(sum);
    }
    println!("roots: {what}: {fastest:.1} ns");
}

/// The nanoseconds of one call, on numbers in no order.
fn time(what: &str, numbers: &[u64], root: fn(u64) -> u64) {
    let mut fastest = f64::INFINITY;
    for _ in 0..ROUNDS {
        let start = Instant::now();
        let sum = numbers.iter().fold(0u64, |sum, &n| sum.wrapping_add(root(n)));
        fastest = fastest.min(start.elapsed().as_nanos() as f64 / numbers.len() as f64);
        std::hint::black_box(sum);
    }
    println!("roots: {what}: {fastest:.1} ns");
}

fn main() {
    if std::env::args().nth(1).as_deref() != Some("time") {
        return check();
    }
    // every rise from 0.1 to 60.0 °C, as most walls have them, in an order that no processor foretells
    let rises: Vec<u64> = (0..6_000u64).map(|i| 1 + i * i * 7_919 % 104_729 % 600).collect();
    let radicands: Vec<u64> = rises.iter().map(|rise| rise * FIRST).collect();
    time("one root, the library", &radicands, library);
    time("one root, the independent program", &radicands, whole::root);
    time("the two of a reading, the library", &rises, library_fourth);
    time_side("the two of a reading, the library, eight readings side by side", &rises);
    time("the two of a reading, the independent program", &rises, second_fourth);
}
