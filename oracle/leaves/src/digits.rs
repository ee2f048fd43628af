//! The root by its digits alone, without the estimate that stands before them.
use crate::exports::hookyellow_half_root;

/// x is finite and above 0.
pub fn is_positive(x: f64) -> bool {
    x > 0.0 && x.is_finite()
}

/// A positive float from 2^-1022 on as d * 4^j, where d has 53 or 54 binary digits.
pub fn parts(x: f64) -> (u64, i32) {
    let exponent = (x.to_bits() >> 52) as i32 - 1075;
    let digits = x.to_bits() % (1 << 52) + (1 << 52);
    (digits << (exponent & 1), exponent >> 1)
}

/// The root of a positive float, by its digits; of a subnormal by that of x * 4^54.
pub fn sqrt(x: f64) -> f64 {
    let moved = if x < f64::MIN_POSITIVE { 54 } else { 0 };
    let (d, j) = parts(x * 4f64.powi(moved));
    hookyellow_half_root(d) as f64 * 2f64.powi(j - 26 - moved)
}

/// √d * 2^26, rounded to the nearest whole number, by Rust's whole root; 0 from 2^54 on.
pub fn rusts_half_root(d: u64) -> u64 {
    if d >> 54 == 0 {
        ((u128::from(d) << 54).isqrt() as u64).div_ceil(2)
    } else {
        0
    }
}
