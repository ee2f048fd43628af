//! Compares the proved millimetres, by the static library of `test_arith_exports`, with the whole
//! number that an inequality in 128-bit whole numbers picks.
//!
//! `cargo run --offline --release -p millimetres -- [COUNT] [SEED]` compares COUNT floats for each
//! of the two roundings. It also counts the floats at which three wrong roundings give another
//! number than the proved function: the other choice for halves, halves up (toward zero below it),
//! and the float product with 1,000, which is rounded, and then rounded again. The exit status is 1
//! on a difference, and where one of the wrong roundings is not seen.
mod exact;
#[path = "../../leaves/src/random.rs"]
mod random;
mod values;

use exact::{nearest, Halves};
use random::Random;

unsafe extern "C" {
    safe fn hookyellow_millimetres(x: f64, even: bool) -> i64;
}

/// What came of one rounding.
struct Tally {
    name: &'static str,
    halves: Halves,
    compared: u64,
    differ: u64,
    first: String,
    /// the floats at which a wrong rounding differs: the other choice, halves up, the product
    wrong: [u64; 3],
}

impl Tally {
    fn new(name: &'static str, halves: Halves) -> Self {
        Tally {
            name,
            halves,
            compared: 0,
            differ: 0,
            first: String::new(),
            wrong: [0; 3],
        }
    }

    fn compare(&mut self, x: f64) {
        let ours = hookyellow_millimetres(x, self.halves == Halves::ToEven);
        let exact = nearest(x, self.halves);
        self.compared += 1;
        if ours != exact {
            self.differ += 1;
            if self.first.is_empty() {
                self.first = format!("{:016x} ({x:e}): {ours}, not {exact}", x.to_bits());
            }
        }
        let other = match self.halves {
            Halves::AwayFromZero => Halves::ToEven,
            _ => Halves::AwayFromZero,
        };
        let wrong = [
            nearest(x, other),
            nearest(x, Halves::Up),
            product(x, self.halves),
        ];
        for (count, number) in self.wrong.iter_mut().zip(wrong) {
            *count += (ours != number) as u64;
        }
    }

    fn print(&self) {
        println!(
            "{:<15} {:>10} compared {:>4} differ; seen: the other choice {}, halves up {}, product {}",
            self.name, self.compared, self.differ, self.wrong[0], self.wrong[1], self.wrong[2]
        );
        if self.differ > 0 {
            println!("  first: {}", self.first);
        }
    }
}

/// The float product, rounded, and then that to the nearest whole number.
fn product(x: f64, halves: Halves) -> i64 {
    if !exact::is_under(x) {
        return 0;
    }
    match halves {
        Halves::ToEven => (x * 1000.0).round_ties_even() as i64,
        _ => (x * 1000.0).round() as i64,
    }
}

fn number(argument: Option<String>, other: u64) -> u64 {
    argument.map_or(other, |text| {
        text.parse().expect("usage: millimetres [COUNT] [SEED]")
    })
}

fn main() {
    let mut arguments = std::env::args().skip(1);
    let count = number(arguments.next(), 10_000_000);
    let seed = number(arguments.next(), 1);
    let mut tallies = [
        Tally::new("away from zero", Halves::AwayFromZero),
        Tally::new("to even", Halves::ToEven),
    ];
    let special = values::specials();
    let mut random = Random::new(seed);
    for i in 0..count {
        let x = match special.get(i as usize) {
            Some(&x) => x,
            None => random.value(),
        };
        tallies.iter_mut().for_each(|tally| tally.compare(x));
    }
    tallies.iter().for_each(Tally::print);
    let differ: u64 = tallies.iter().map(|tally| tally.differ).sum();
    let compared: u64 = tallies.iter().map(|tally| tally.compared).sum();
    println!("{} same, {differ} differ", compared - differ);
    let unseen = tallies.iter().any(|tally| tally.wrong.contains(&0));
    if unseen {
        println!("a wrong rounding was not seen");
    }
    std::process::exit((differ > 0 || unseen) as i32);
}
