//! The values that are compared: a fixed list of special ones, and a stream that a seed determines.
use crate::random::Random;

const SIGN: u64 = 1 << 63;
const TOP: u64 = 0x7ff0_0000_0000_0000;

/// A direction of a plane: dx and dy.
pub type Direction = (f64, f64);

/// Each special value with both signs: zeros, infinities, NaNs, the ends of the subnormal and the
/// normal numbers, and powers of two with their neighbours.
pub fn specials() -> Vec<f64> {
    let mut bits = vec![0, 1, 2, (1 << 52) - 1, (1 << 52) + 1, TOP - 1, TOP];
    bits.extend([TOP + 1, TOP | 1 << 51, TOP | 1 << 51 | 1, SIGN - 1]);
    for x in [
        0.25,
        0.5,
        1.0,
        1.5,
        2.0,
        3.0,
        1048576.0,
        4294967296.0,
        f64::MIN_POSITIVE,
    ] {
        bits.extend(neighbours(x));
    }
    for power in [-537, -52, -40, 51, 52, 53, 62, 63, 64, 65, 512, 1023] {
        bits.extend(neighbours(2f64.powi(power)));
    }
    bits.sort_unstable();
    bits.dedup();
    bits.iter()
        .flat_map(|&b| [f64::from_bits(b), f64::from_bits(b | SIGN)])
        .collect()
}

fn neighbours(x: f64) -> [u64; 5] {
    let b = x.to_bits();
    [b - 2, b - 1, b, b + 1, b + 2]
}

/// Directions whose coordinates are special and finite.
pub fn special_directions() -> Vec<Direction> {
    let least = f64::from_bits(1);
    let sizes = [
        0.0,
        least,
        f64::MIN_POSITIVE,
        0.5,
        1.0,
        1.0 + f64::EPSILON,
        3.0,
        1e10,
        f64::MAX,
    ];
    let both: Vec<f64> = sizes.iter().flat_map(|&x| [x, -x]).collect();
    both.iter()
        .flat_map(|&x| both.iter().map(move |&y| (x, y)))
        .collect()
}

impl Random {
    pub fn below(&mut self, n: u64) -> u64 {
        (self.bits() >> 16) % n
    }

    fn signed(&mut self, x: f64) -> f64 {
        f64::from_bits(x.to_bits() ^ (self.bits() & SIGN))
    }

    /// x, or a float that is at most `reach` floats away.
    fn beside(&mut self, x: f64, reach: u64) -> f64 {
        let moved = x.to_bits().wrapping_add(self.below(2 * reach + 1));
        f64::from_bits(moved.wrapping_sub(reach))
    }

    /// A finite float of ordinary size, from 2^-20 to 2^21.
    pub fn ordinary(&mut self) -> f64 {
        let fraction = self.bits() >> 12;
        let exponent = 1003 + self.below(41);
        let x = f64::from_bits(exponent << 52 | fraction);
        self.signed(x)
    }

    fn subnormal(&mut self) -> f64 {
        let shift = 12 + self.below(52);
        f64::from_bits(self.bits() >> shift)
    }

    fn power_of_two(&mut self) -> f64 {
        let exponent = self.below(2047);
        let place = self.below(52);
        f64::from_bits(if exponent == 0 {
            1 << place
        } else {
            exponent << 52
        })
    }

    /// A square that is exact, or that is rounded: beside it lie the roots that are hard to round.
    fn square(&mut self) -> f64 {
        let root = match self.below(2) {
            0 => self.below(1 << 26) as f64,
            _ => self.ordinary(),
        };
        let root = root * 2f64.powi(self.below(400) as i32 - 200);
        root * root
    }

    /// Any float: uniform bits, ordinary, subnormal, beside a power of two, around where halves
    /// and integers end, beside a small integer or half, beside a square, or special.
    pub fn value(&mut self, special: &[f64]) -> f64 {
        let x = match self.below(8) {
            0 => f64::from_bits(self.bits()),
            1 => self.ordinary(),
            2 => self.subnormal(),
            3 => {
                let x = self.power_of_two();
                self.beside(x, 3)
            }
            4 => {
                let power = [52, 53, 63, 64][self.below(4) as usize];
                self.beside(2f64.powi(power), 64)
            }
            5 => {
                let x = self.below(1 << 21) as f64 / 2.0;
                self.beside(x, 1)
            }
            6 => {
                let x = self.square();
                self.beside(x, 1)
            }
            _ => special[self.below(special.len() as u64) as usize],
        };
        self.signed(x)
    }

    /// Two floats, often equal, opposite or neighbours.
    pub fn pair(&mut self, special: &[f64]) -> (f64, f64) {
        let a = self.value(special);
        let b = match self.below(8) {
            0 => a,
            1 => -a,
            2 => self.beside(a, 2),
            _ => self.value(special),
        };
        (a, b)
    }

    pub fn ordinary_direction(&mut self) -> Direction {
        (self.ordinary(), self.ordinary())
    }

    /// A direction: ordinary, or of any two floats, of small integers, or along an axis.
    pub fn direction(&mut self, special: &[f64]) -> Direction {
        match self.below(8) {
            0 => (self.value(special), self.value(special)),
            1 => {
                let (x, y) = (self.below(17) as f64, self.below(17) as f64);
                (self.signed(x), self.signed(y))
            }
            2 => (self.signed(0.0), self.ordinary()),
            3 => (self.ordinary(), self.signed(0.0)),
            _ => self.ordinary_direction(),
        }
    }

    /// d turned by a small angle, from 2^-10 to 2^-45 in size.
    pub fn turned(&mut self, d: Direction) -> Direction {
        let t = 2f64.powi(-10 - self.below(36) as i32);
        let t = self.signed(t);
        (d.0 - d.1 * t, d.1 + d.0 * t)
    }
}
