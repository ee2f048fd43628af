//! Libraries that take edition 2 files otherwise: zones above 255, other offsets, sums in 32 bits, the
//! parts of the other edition.
use crate::pairs::Mode;
use crate::tests::first_difference_in;
use hookyellow::raw::hookyellow_job;
use std::slice::{from_raw_parts, from_raw_parts_mut};

/// Another way to take a file: what is read in its place, or the refusal.
trait Reader {
    fn read(case: &[u8], result: u64) -> Result<Vec<u8>, u64>;
}

/// The job over the file as a reader takes it; `result` is that of the right library.
unsafe extern "C" fn taken<R: Reader>(
    a: *const u8, an: usize, b: *const u8, bn: usize, c: *mut u32, cn: usize,
    d: *mut f64, dn: usize, e: *mut u8, en: usize, g: *mut u64, gn: usize,
) -> u64 {
    let case = from_raw_parts(a, an).to_vec();
    let (marks, answers) = (from_raw_parts_mut(e, en).to_vec(), from_raw_parts_mut(g, gn).to_vec());
    let result = hookyellow_job(a, an, b, bn, c, cn, d, dn, e, en, g, gn);
    from_raw_parts_mut(e, en).copy_from_slice(&marks);
    from_raw_parts_mut(g, gn).copy_from_slice(&answers);
    match R::read(&case, result) {
        Ok(case) => hookyellow_job(case.as_ptr(), case.len(), b, bn, c, cn, d, dn, e, en, g, gn),
        Err(refusal) => refusal,
    }
}

fn word(case: &[u8], from_end: usize) -> u32 {
    case.len().checked_sub(from_end).map_or(0, |at| u32::from_le_bytes(case[at..at + 4].try_into().unwrap()))
}

fn put(case: &[u8], from_end: usize, x: u32) -> Vec<u8> {
    let mut case = case.to_vec();
    let at = case.len() - from_end;
    case[at..at + 4].copy_from_slice(&x.to_le_bytes());
    case
}

/// Is it a file of edition 2 whose parts are right?
fn is_second(case: &[u8], result: u64) -> bool {
    result != 1 && [102, 103].contains(&word(case, 32))
}

/// The zones of such a file changed.
fn rezoned(case: &[u8], zone: impl Fn(u32) -> u32) -> Vec<u8> {
    let cells = word(case, 20) as usize;
    (0..cells).fold(case.to_vec(), |case, i| {
        let at = 36 + 4 * (cells - i);
        put(&case, at, zone(word(&case, at)))
    })
}

fn any_above(case: &[u8], limit: u32) -> bool {
    (0..word(case, 20) as usize).any(|i| word(case, 36 + 4 * (i + 1)) > limit)
}

macro_rules! readers {
    ($($name:ident |$case:ident, $result:ident| $read:expr;)*) => {
        $(struct $name;
        impl Reader for $name {
            fn read($case: &[u8], $result: u64) -> Result<Vec<u8>, u64> {
                $read
            }
        })*
    };
}

readers! {
    AnyZone |case, result| Ok(if is_second(case, result) { rezoned(case, |zone| zone & 255) } else { case.to_vec() });
    Under255 |case, result| {
        if is_second(case, result) && result == 0 && any_above(case, 254) { Err(45) } else { Ok(case.to_vec()) }
    };
    Before3 |case, result| if is_second(case, result) && any_above(case, 255) { Err(45) } else { Ok(case.to_vec()) };
    After5 |case, result| Ok(if result == 45 { rezoned(case, |zone| zone.min(255)) } else { case.to_vec() });
    AnyOffset |case, result| {
        let second = result == 1 && case.len() >= 36 && [102, 103].contains(&word(case, 32));
        let offset = (case.len() as u32).wrapping_sub(36).wrapping_sub(word(case, 20).wrapping_mul(4));
        Ok(if second { put(case, 36, offset) } else { case.to_vec() })
    };
    SumsIn32Bits |case, result| {
        let second = result == 1 && case.len() >= 36 && [102, 103].contains(&word(case, 32));
        if !second {
            return Ok(case.to_vec());
        }
        let masked = |case: &[u8], at, most: u32| put(case, at, word(case, at) & most);
        let counts = [(28, 29), (24, 30), (20, 27)];
        Ok(counts.iter().fold(case.to_vec(), |case, (at, bits)| masked(&case, *at, (1 << bits) - 1)))
    };
    PartsOfTheFirst |case, result| {
        let second = result == 1 && case.len() >= 32 && [102, 103].contains(&word(case, 32));
        Ok(if second { put(case, 32, word(case, 32) - 100) } else { case.to_vec() })
    };
    PartsOfTheSecond |case, result| {
        let first = result == 1 && case.len() >= 32 && [2, 3].contains(&word(case, 32));
        Ok(if first { put(case, 32, word(case, 32) + 100) } else { case.to_vec() })
    };
    WordsFrom100 |case, result| {
        let other = result == 1 && case.len() >= 32 && [100, 101, 104].contains(&word(case, 32));
        Ok(if other { put(case, 32, 102) } else { case.to_vec() })
    };
}

/// A wrong reader is seen by what the job is refused.
fn seen<R: Reader>(words: &str) {
    let why = first_difference_in(Mode::Zones, taken::<R>).2;
    assert!(why.contains(words), "{why}");
}

#[test]
fn zones_above_255() {
    seen::<AnyZone>("the job is refused 45, ours gives");
    seen::<Under255>("ours gives refusal 45");
    seen::<Before3>("the job is refused 3, ours gives 45");
    seen::<After5>("the job is refused 45, ours gives");
}

#[test]
fn trailers_of_edition_2() {
    seen::<AnyOffset>("the job is refused 1, ours gives");
    seen::<SumsIn32Bits>("the job is refused 1, ours gives");
    seen::<PartsOfTheFirst>("the job is refused 1, ours gives");
    seen::<PartsOfTheSecond>("the job is refused 1, ours gives");
    seen::<WordsFrom100>("the job is refused 1, ours gives");
}
