//! The millimetres of a float by the inequality that says what the nearest whole number is, with no
//! quotient: 128 bits hold every product in it.

/// Where an exact half goes.
#[derive(Clone, Copy, PartialEq)]
pub enum Halves {
    AwayFromZero,
    ToEven,
    /// toward zero for what is below it
    Up,
}

/// x is a number below 2^53 in size.
pub fn is_under(x: f64) -> bool {
    x.abs() < 9007199254740992.0
}

/// x as n / 2^s, where x is below 2^53 in size, so that s is at least 0.
fn fraction(x: f64) -> (i128, u32) {
    let bits = x.to_bits();
    let field = (bits >> 52 & 0x7ff) as u32;
    let low = (bits & ((1 << 52) - 1)) as i128;
    let (size, s) = match field {
        0 => (low, 1074),
        _ => (low + (1 << 52), 1075 - field),
    };
    (if bits >> 63 == 1 { -size } else { size }, s)
}

/// n / 2^s and k are at most a half apart, and where they are a half apart k is the one picked.
fn holds(n: i128, s: u32, k: i128, halves: Halves) -> bool {
    let one = 1i128 << s;
    let gap = n - k * one;
    if 2 * gap.abs() != one {
        return 2 * gap.abs() < one;
    }
    match halves {
        Halves::AwayFromZero => (gap < 0) == (n > 0),
        Halves::ToEven => k % 2 == 0,
        Halves::Up => gap < 0,
    }
}

/// 1,000 x to the nearest whole number; 0 where x is 2^53 or more in size, or no number. Of the
/// whole numbers beside the float product exactly one has to be the nearest.
pub fn nearest(x: f64, halves: Halves) -> i64 {
    if !is_under(x) {
        return 0;
    }
    let (n, s) = fraction(x);
    // 2,000 n is below 2^64 in size, and so 1,000 x below a half
    if s >= 64 {
        return 0;
    }
    let guess = (x * 1000.0).trunc() as i128;
    let reach = 2 + guess.abs() / (1 << 52);
    let mut found = (guess - reach..=guess + reach).filter(|&k| holds(1000 * n, s, k, halves));
    let k = found.next().expect("no whole number is the nearest");
    assert!(found.next().is_none(), "two whole numbers are the nearest");
    k as i64
}
