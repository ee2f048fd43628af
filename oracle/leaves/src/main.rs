//! Compares the proved leaves, by the static library of `test_arith_exports`, with Rust's own f64:
//! sqrt, the same by its digits alone, abs, min, max, clamp, is_finite, is_sign_negative, the order
//! of distances by total_cmp, floor and ceil as usize, the 64 bits of a float, and the angle order
//! and its sort with atan2. The digits are also compared with the whole root of u128.
//!
//! `cargo run --offline --release -p leaves -- [COUNT] [SEED]` compares every special value, each
//! with each where a leaf takes two, then COUNT values in all (points, for the sort). Results are
//! compared by their bits, each NaN counting as 7ff8000000000000. Passed over are:
//! - the sign bit of a NaN;
//! - by digits, the root of what is not finite and above 0;
//! - directions that are not finite, or whose angles are less than 2^-39 apart and which are not
//!   the same: atan2 may order exact angles closer than 2^-40 otherwise.
//! Of minimum and maximum the sign of a zero is left open: zeros of two signs are counted apart.
//!
//! Last it measures both roots against the machine's. The exit status is 1 on a difference.
mod angles;
mod digits;
mod exports;
mod random;
mod values;

use angles::{compare_angles, compare_refused_sort, compare_sorts, MOST};
use digits::{is_positive, parts, rusts_half_root};
use exports::*;
use random::Random;
use std::hint::black_box;
use std::time::Instant;
use values::{special_directions, specials, Direction};

/// The bits of x, a NaN's as 7ff8000000000000.
fn word(x: f64) -> u64 {
    if x.is_nan() {
        0x7ff8_0000_0000_0000
    } else {
        x.to_bits()
    }
}

/// What came of one leaf.
struct Tally {
    name: &'static str,
    compared: u64,
    passed_over: u64,
    zeros: u64,
    differ: u64,
    first: String,
}

impl Tally {
    fn new(name: &'static str) -> Self {
        Tally {
            name,
            compared: 0,
            passed_over: 0,
            zeros: 0,
            differ: 0,
            first: String::new(),
        }
    }

    /// Compares two results of the same inputs; none of Rust's passes the inputs over.
    fn compare(&mut self, ours: u64, rusts: Option<u64>, inputs: &[u64]) {
        let Some(rusts) = rusts else {
            self.passed_over += 1;
            return;
        };
        self.compared += 1;
        if ours != rusts {
            self.differ += 1;
            if self.first.is_empty() {
                let inputs: Vec<String> = inputs.iter().map(|n| format!("{n:016x}")).collect();
                self.first = format!("{}: {ours:016x}, not {rusts:016x}", inputs.join(" "));
            }
        }
    }

    /// The same, but zeros of two signs are counted apart.
    fn compare_but_zeros(&mut self, ours: u64, rusts: u64, inputs: &[u64]) {
        if ours != rusts && (ours | rusts) << 1 == 0 {
            self.zeros += 1;
        } else {
            self.compare(ours, Some(rusts), inputs);
        }
    }

    fn print(&self) {
        println!(
            "{:<16} {:>10} compared {:>9} passed over {:>8} zeros apart {:>4} differ",
            self.name, self.compared, self.passed_over, self.zeros, self.differ
        );
        if self.differ > 0 {
            println!("  first: {}", self.first);
        }
    }
}

/// Where the values come from, and how many are compared.
struct Run {
    count: u64,
    special: Vec<f64>,
    random: Random,
}

impl Run {
    /// A leaf of one float.
    fn one(
        &mut self,
        name: &'static str,
        ours: impl Fn(f64) -> u64,
        rusts: impl Fn(f64) -> Option<u64>,
    ) -> Tally {
        let mut tally = Tally::new(name);
        for &x in &self.special {
            tally.compare(ours(x), rusts(x), &[x.to_bits()]);
        }
        while tally.compared < self.count {
            let x = self.random.value(&self.special);
            tally.compare(ours(x), rusts(x), &[x.to_bits()]);
        }
        tally
    }

    /// The whole number that the digits give, of numbers of every size.
    fn half_roots(&mut self) -> Tally {
        let mut tally = Tally::new("half root");
        let ends = [0, 1 << 52, 1 << 53, 1 << 54];
        let special = ends.map(|d: u64| [d.wrapping_sub(1), d, d + 1]);
        for d in special.into_iter().flatten() {
            tally.compare(hookyellow_half_root(d), Some(rusts_half_root(d)), &[d]);
        }
        while tally.compared < self.count {
            let d = self.random.bits() >> self.random.below(64);
            tally.compare(hookyellow_half_root(d), Some(rusts_half_root(d)), &[d]);
        }
        tally
    }

    /// A leaf of two floats; `compare` records the results of one pair.
    fn two(&mut self, name: &'static str, compare: impl Fn(&mut Tally, f64, f64)) -> Tally {
        let mut tally = Tally::new(name);
        for &a in &self.special {
            for &b in &self.special {
                compare(&mut tally, a, b);
            }
        }
        while tally.compared < self.count {
            let (a, b) = self.random.pair(&self.special);
            compare(&mut tally, a, b);
        }
        tally
    }

    fn angles(&mut self) -> Tally {
        let mut tally = Tally::new("angle order");
        let special = special_directions();
        for &d in &special {
            for &e in &special {
                compare_angles(&mut tally, d, e);
            }
        }
        while tally.compared < self.count {
            let d = self.random.direction(&self.special);
            let e = match self.random.below(4) {
                0 => self.random.turned(d),
                _ => self.random.direction(&self.special),
            };
            compare_angles(&mut tally, d, e);
        }
        tally
    }

    fn sorts(&mut self) -> Tally {
        let mut tally = Tally::new("sort");
        for lengths in [
            (193, 193, 193),
            (3, 2, 3),
            (2, 3, 2),
            (3, 3, 2),
            (2, 2, 3),
            (0, 1, 0),
        ] {
            compare_refused_sort(&mut tally, lengths);
        }
        compare_sorts(&mut tally, &special_directions());
        while tally.compared < self.count {
            let length = self.random.below(MOST as u64 + 1) as usize;
            let points = self.points(length);
            compare_sorts(&mut tally, &points);
        }
        tally
    }

    /// Random points, some of them repeated; in every other list all are ordinary.
    fn points(&mut self, length: usize) -> Vec<Direction> {
        let ordinary = self.random.below(2) == 0;
        let mut points: Vec<Direction> = Vec::with_capacity(length);
        for i in 0..length {
            let point = if i > 0 && self.random.below(8) == 0 {
                points[self.random.below(i as u64) as usize]
            } else if ordinary {
                self.random.ordinary_direction()
            } else {
                self.random.direction(&self.special)
            };
            points.push(point);
        }
        points
    }
}

fn compare_min(tally: &mut Tally, a: f64, b: f64) {
    let inputs = [a.to_bits(), b.to_bits()];
    tally.compare_but_zeros(word(hookyellow_min(a, b)), word(a.min(b)), &inputs);
}

fn compare_max(tally: &mut Tally, a: f64, b: f64) {
    let inputs = [a.to_bits(), b.to_bits()];
    tally.compare_but_zeros(word(hookyellow_max(a, b)), word(a.max(b)), &inputs);
}

/// The order of the distances |a| and |b|, any NaN above infinity.
fn compare_distances(tally: &mut Tally, a: f64, b: f64) {
    let (a, b) = (a.abs(), b.abs());
    let rusts = f64::from_bits(word(a))
        .total_cmp(&f64::from_bits(word(b)))
        .is_lt();
    let ours = hookyellow_nearer(a, b);
    tally.compare(ours as u64, Some(rusts as u64), &[a.to_bits(), b.to_bits()]);
}

fn compare_all(run: &mut Run) -> Vec<Tally> {
    vec![
        run.one(
            "sqrt",
            |x| word(hookyellow_sqrt(x)),
            |x| Some(word(x.sqrt())),
        ),
        run.one(
            "sqrt by digits",
            |x| digits::sqrt(x.abs()).to_bits(),
            |x| is_positive(x.abs()).then(|| x.abs().sqrt().to_bits()),
        ),
        run.half_roots(),
        run.one("abs", |x| word(hookyellow_abs(x)), |x| Some(word(x.abs()))),
        run.two("min", compare_min),
        run.two("max", compare_max),
        run.one(
            "clamp",
            |x| word(hookyellow_clamp(x)),
            |x| Some(word(x.clamp(0.0, 1.0))),
        ),
        run.one(
            "is_finite",
            |x| hookyellow_is_finite(x) as u64,
            |x| Some(x.is_finite() as u64),
        ),
        run.one(
            "is_sign_negative",
            |x| hookyellow_is_sign_negative(x) as u64,
            |x| (!x.is_nan()).then(|| x.is_sign_negative() as u64),
        ),
        run.two("distances", compare_distances),
        run.one(
            "floor as usize",
            |x| hookyellow_floor_usize(x) as u64,
            |x| Some(x.floor() as usize as u64),
        ),
        run.one(
            "ceil as usize",
            |x| hookyellow_ceil_usize(x) as u64,
            |x| Some(x.ceil() as usize as u64),
        ),
        run.one("bits", |x| hookyellow_bits(x.to_bits()), |x| Some(word(x))),
        run.angles(),
        run.sorts(),
    ]
}

/// How many values one run of a root takes.
const BATCH: usize = 1000;

/// Nanoseconds for one root, in a run over these values.
fn nanoseconds<T: Copy, R>(values: &[T], root: impl Fn(T) -> R) -> f64 {
    let start = Instant::now();
    for &x in values {
        black_box(root(x));
    }
    start.elapsed().as_nanos() as f64 / values.len() as f64
}

fn median(mut times: Vec<f64>) -> f64 {
    times.sort_by(f64::total_cmp);
    times[times.len() / 2]
}

/// The roots of the same million values, in short alternating runs.
fn print_root_ratios(random: &mut Random) {
    let values: Vec<f64> = (0..1_000_000).map(|_| random.ordinary().abs()).collect();
    let mut times = [Vec::new(), Vec::new(), Vec::new()];
    for batch in values.chunks(BATCH) {
        let whole: Vec<u64> = batch.iter().map(|&x| parts(x).0).collect();
        times[0].push(nanoseconds(batch, |x| hookyellow_sqrt(x)));
        times[1].push(nanoseconds(&whole, |d| hookyellow_half_root(d)));
        times[2].push(nanoseconds(batch, f64::sqrt));
    }
    let [ours, digits, machines] = times.map(median);
    println!("root {ours:.2} ns, by digits {digits:.2} ns, the machine's {machines:.2} ns");
    let (ours, digits) = (ours / machines, digits / machines);
    println!("root ratio {ours:.2}, by digits {digits:.2}");
}

fn number(argument: Option<String>, other: u64) -> u64 {
    argument.map_or(other, |text| {
        text.parse().expect("usage: leaves [COUNT] [SEED]")
    })
}

fn main() {
    let mut arguments = std::env::args().skip(1);
    let count = number(arguments.next(), 10_000_000);
    let seed = number(arguments.next(), 1);
    let mut run = Run {
        count,
        special: specials(),
        random: Random::new(seed),
    };
    let tallies = compare_all(&mut run);
    tallies.iter().for_each(Tally::print);
    print_root_ratios(&mut run.random);
    let differ: u64 = tallies.iter().map(|tally| tally.differ).sum();
    let compared: u64 = tallies.iter().map(|tally| tally.compared).sum();
    println!("{} same, {differ} differ", compared - differ);
    std::process::exit((differ > 0) as i32);
}
