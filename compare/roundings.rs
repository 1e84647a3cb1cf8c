
// Other ways to round, each of which compare/bites puts in the place of `nearest` wherever that is used, and a root for slips.txt.

/// To the nearest, and from a half to what is said of the whole number below it.
fn halved(n: i64, d: i64, half: fn(below: i64) -> i64) -> i64 {
    let (below, rest) = (n.div_euclid(d), n.rem_euclid(d));
    if rest == d - rest {
        half(below)
    } else {
        below + i64::from(rest > d - rest)
    }
}

/// Halves away from zero.
pub fn away(n: i64, d: i64) -> i64 {
    halved(n, d, |below| below + i64::from(below >= 0))
}

/// Halves towards zero.
pub fn short(n: i64, d: i64) -> i64 {
    halved(n, d, |below| below + i64::from(below < 0))
}

/// Halves upwards.
pub fn up(n: i64, d: i64) -> i64 {
    halved(n, d, |below| below + 1)
}

/// Halves downwards.
pub fn down(n: i64, d: i64) -> i64 {
    halved(n, d, |below| below)
}

/// Halves to the odd neighbour.
pub fn odd(n: i64, d: i64) -> i64 {
    halved(n, d, |below| below + i64::from(below % 2 == 0))
}

/// Everything towards zero.
pub fn cut(n: i64, d: i64) -> i64 {
    n / d
}

/// The greatest whole number whose square is not above `n`, for roots of greater numbers than the documents take.
pub fn wide_root(n: u128) -> u128 {
    (0..60).rev().fold(0, |root, bit| if (root + (1 << bit)) * (root + (1 << bit)) <= n { root + (1 << bit) } else { root })
}
