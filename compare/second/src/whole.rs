//! Arithmetic on whole numbers: division to the nearest, and the root cut down.

/// `n` over a positive `d`, to the nearest whole number, halves to the even one.
#[inline(always)]
pub fn nearest(n: i64, d: i64) -> i64 {
    let (whole, rest) = (n / d, n % d);
    // beside an odd number a half counts as more than one
    let odd = whole & 1;
    whole + i64::from(rest + odd > d - rest) - i64::from(odd - rest > d + rest)
}

/// The greatest whole number whose square is not above `n`, which is below 2^63.
///
/// The root of the uppermost bits is widened four times, each time to twice as many bits: `2^k r + n / (2^k r)` halved is
/// Newton's step, with the powers of two taken out. The result is right or one too great, which the last line settles.
pub fn root(n: u64) -> u64 {
    if n == 0 {
        return 0;
    }
    let shift = n.leading_zeros() & !1;
    let m = n << shift;
    let mut r = 1 + (m >> 62);
    r = (r << 1) + (m >> 59) / r;
    r = (r << 3) + (m >> 53) / r;
    r = (r << 7) + (m >> 41) / r;
    r = (r << 15) + (m >> 17) / r;
    r >>= shift / 2;
    r - u64::from(r * r > n)
}

#[cfg(test)]
mod tests {
    use super::{nearest, root};

    #[test]
    fn halves_go_to_the_even_digit() {
        for (n, due) in [(5, 0), (15, 2), (25, 2), (35, 4), (-5, 0), (-15, -2), (-25, -2), (-35, -4)] {
            assert_eq!(nearest(n, 10), due, "{n} over 10");
            assert_eq!(nearest(n / 5, 2), due, "{n} over 10");
        }
        for (n, due) in [(4, 0), (6, 1), (14, 1), (16, 2), (24, 2), (26, 3), (10, 1), (20, 2), (0, 0)] {
            assert_eq!((nearest(n, 10), nearest(-n, 10)), (due, -due), "{n} over 10");
        }
        for (n, d, due) in [(1, 3, 0), (2, 3, 1), (-2, 3, -1), (-1, 3, 0), (0, 7, 0), (5, 1, 5), (i64::MAX, 1, i64::MAX)] {
            assert_eq!(nearest(n, d), due, "{n} over {d}");
        }
    }

    #[test]
    fn roots_are_cut_down() {
        let mut k: u64 = 1;
        while k < 3_037_000_499 {
            assert_eq!(root(k * k - 1), k - 1);
            assert_eq!(root(k * k), k);
            assert_eq!(root(k * k + 1), if k == 0 { 1 } else { k });
            k += 1 + k / 1000;
        }
        assert_eq!((root(0), root(1), root(2), root(3), root(4)), (0, 1, 1, 1, 2));
    }
}
