//! The reference job around FLURSYS's own files, as build.rs found and built it, with the requests of document 02 that are
//! served here.
pub extern crate flursys;
pub extern crate refair;

mod editions;

pub use editions::{first_edition, job_without_zones, read_case, second_edition};
use refair::gen::{self, two::pair02, Pair};
/// Inputs of the writer and the converter, by their seeds.
pub use refair::gen::two::{convert_input, write_input};
use refair::ref02::{self, Landed};
/// The writer and the converter: the length of the file that they put to the front of the output,
/// or the refusal.
pub use refair::ref02::{convert, write_case, Parts};
pub use refair::tools02::{Convert, Write};
use refair::{JobOut, Lens, Order, Stats};

/// Of the requests of document 02, Q-1 to this one are served. oracle/fuzz/run and oracle/replay/make.py read it here.
pub const LANDED: u32 = 6;

/// The reference job.
pub fn job(case: &[u8], requests: &[u8], lens: Lens, order: Order, stats: &mut Stats) -> JobOut {
    ref02::job(case, requests, lens, order, Landed::until(LANDED), stats)
}

/// How many words a request of this code uses; none where there is no such code.
pub fn used_words(code: u64) -> Option<usize> {
    ref02::used_words(code, Landed::until(LANDED))
}

/// The codes, rising.
pub fn codes() -> Vec<u64> {
    (1..=20).filter(|&code| used_words(code).is_some()).collect()
}

/// The code that asks the same among all cells: 9 to 12 for 1 to 4, 14 for 13; any other is its
/// own.
pub fn among_all(code: u64) -> u64 {
    match code {
        1..=4 => code + 8,
        13 => 14,
        _ => code,
    }
}

/// The code that asks the same by the bins: 1 to 4 for 9 to 12, 13 for 14; any other is its own.
pub fn by_bins(code: u64) -> u64 {
    match code {
        9..=12 => code - 8,
        14 => 13,
        _ => code,
    }
}

/// A pair of the reference's own generators: of the one for document 01 or of the one for 02, in turn.
pub fn pair(seed: u64) -> Pair {
    if seed % 2 == 0 { gen::pair(seed) } else { pair02(seed, Landed::until(LANDED)) }
}
