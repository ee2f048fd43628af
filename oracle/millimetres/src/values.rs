//! The floats that are compared: a fixed list, and a stream that a seed determines.
use crate::random::Random;

const SIGN: u64 = 1 << 63;
/// The bits of 2^53.
const LIMIT: u64 = 0x4340_0000_0000_0000;
/// The bits of 2^20.
const FAR: u64 = 0x4130_0000_0000_0000;

/// Zeros, the ends of the subnormal numbers, halves, 2^-11, 2^20 and 2^53 with their neighbours,
/// infinities and NaNs, each with both signs.
pub fn specials() -> Vec<f64> {
    let mut bits = vec![0, 1, 2, (1 << 52) - 1, 1 << 52, (1 << 52) + 1];
    bits.extend([0x7ff0 << 48, 0x7ff8 << 48, SIGN - 1, (0x7ff0 << 48) - 1]);
    let powers = [-12, -11, -10, -4, -3, 0, 20, 21, 49, 52, 53, 54, 63].map(|n| 2f64.powi(n));
    for x in powers.into_iter().chain([0.0005, 0.0015, 0.1875, 0.3125]) {
        let b = x.to_bits();
        bits.extend([b - 2, b - 1, b, b + 1, b + 2]);
    }
    bits.iter()
        .flat_map(|&b| [f64::from_bits(b), f64::from_bits(b | SIGN)])
        .collect()
}

impl Random {
    /// A number below n, small ones as often as large ones.
    fn any_size(&mut self, n: u64) -> u64 {
        let shift = self.bits() % 64;
        (self.bits() >> shift) % n
    }

    /// An exact half of a millimetre: an odd multiple of 62.5 mm, as far as 2^49 metres.
    fn half(&mut self) -> f64 {
        let odd = 2 * self.any_size(1 << 52) + 1;
        odd as f64 / 16.0
    }

    /// The float nearest to a half of a millimetre in decimal digits, within 2^21 metres.
    fn decimal_half(&mut self) -> f64 {
        let odd = 2 * self.any_size(1 << 31) + 1;
        odd as f64 / 2000.0
    }

    /// A float below 2^53 in size, with either sign: any pattern, of a coordinate's size, an exact
    /// half, beside one, a half in decimal digits, beside 2^20, subnormal, or a large one.
    pub fn value(&mut self) -> f64 {
        let size = match self.bits() % 8 {
            0 => self.bits() % LIMIT,
            1 => (1000 + self.bits() % 43) << 52 | self.bits() >> 12,
            2 => self.half().to_bits(),
            3 => {
                let away = 1 + self.bits() % 2;
                match self.bits() % 2 {
                    0 => self.half().to_bits() - away,
                    _ => self.half().to_bits() + away,
                }
            }
            4 => self.decimal_half().to_bits(),
            5 => FAR - (1 << 20) + self.bits() % (1 << 21),
            6 => self.any_size(1 << 52),
            _ => (1043 + self.bits() % 33) << 52 | self.bits() >> 12,
        };
        f64::from_bits(size | self.bits() & SIGN)
    }
}
