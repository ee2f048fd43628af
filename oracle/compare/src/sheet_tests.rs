//! A library whose sheets follow another rule must be seen: the sheets of the right library are made anew from its lines.
use crate::tests::first_difference;
use hookyellow::raw::hookyellow_job;
use reference::refair::ref02;
use std::slice::{from_raw_parts, from_raw_parts_mut};

/// A rule for sheets; without its own methods it is document 02's.
trait Rule {
    fn millimetres(x: f64) -> i64 {
        ref02::millimetres(x, false)
    }
    fn drops(list: &[[i64; 2]], next: [i64; 2]) -> bool {
        list.last() == Some(&next)
    }
}

/// The words of a sheet of a line.
fn sheet<R: Rule>(line: &[u64]) -> Vec<u64> {
    let mut list: Vec<[i64; 2]> = Vec::new();
    for p in line[1..].chunks_exact(3) {
        let next = [0, 1].map(|k| R::millimetres(f64::from_bits(p[k])));
        if !R::drops(&list, next) {
            list.push(next);
        }
    }
    std::iter::once(list.len() as u64).chain(list.iter().flatten().map(|x| *x as u64)).collect()
}

/// The points of the line with the arguments of a sheet, as the words of code 3, or of 11 for code
/// 14.
fn line_of(case: &[u8], request: &[u8], words: usize, floats: usize, marks: usize) -> Vec<u64> {
    let mut request = request.to_vec();
    request[0] = if request[0] == 14 { 11 } else { 3 };
    let (mut words, mut floats, mut marks, mut answers) = (vec![0; words], vec![0.0; floats], vec![0; marks], vec![0; 200_000]);
    let result = unsafe {
        hookyellow_job(
            case.as_ptr(), case.len(), request.as_ptr(), request.len(), words.as_mut_ptr(), words.len(),
            floats.as_mut_ptr(), floats.len(), marks.as_mut_ptr(), marks.len(), answers.as_mut_ptr(), answers.len(),
        )
    };
    assert_eq!((result, answers[0]), (0, 0), "the line of an answered sheet");
    answers[2..2 + answers[1] as usize].to_vec()
}

/// The job with the sheets of a code by a rule. One of another length has its count alone.
unsafe extern "C" fn ruled<R: Rule, const CODE: u64>(
    a: *const u8, an: usize, b: *const u8, bn: usize, c: *mut u32, cn: usize,
    d: *mut f64, dn: usize, e: *mut u8, en: usize, g: *mut u64, gn: usize,
) -> u64 {
    let result = hookyellow_job(a, an, b, bn, c, cn, d, dn, e, en, g, gn);
    let (case, requests, answers) = (from_raw_parts(a, an), from_raw_parts(b, bn), from_raw_parts_mut(g, gn));
    let mut at = 0;
    for request in requests.chunks_exact(128).filter(|_| result == 0) {
        let n = answers[at + 1] as usize;
        if request[..8] == CODE.to_le_bytes() && n > 0 {
            let words = sheet::<R>(&line_of(case, request, cn, dn, en));
            let kept = if words.len() == n { n } else { 1 };
            answers[at + 2..at + 2 + kept].copy_from_slice(&words[..kept]);
        }
        at += 2 + n;
    }
    result
}

/// A wrong rule is seen, in sheets by the bins and among all cells.
fn seen<R: Rule>() {
    let why = first_difference(ruled::<R, 13>).2;
    assert!(why.contains("(code 13, from word"), "{why}");
    let why = first_difference(ruled::<R, 14>).2;
    assert!(why.contains("(code 14, from word"), "{why}");
}

struct ProductInFloats;
impl Rule for ProductInFloats {
    fn millimetres(x: f64) -> i64 {
        (x * 1000.0).round() as i64
    }
}

struct HalvesToEven;
impl Rule for HalvesToEven {
    fn millimetres(x: f64) -> i64 {
        ref02::millimetres(x, true)
    }
}

/// Halves upward on both sides of zero.
struct HalvesUp;
impl Rule for HalvesUp {
    fn millimetres(x: f64) -> i64 {
        ref02::millimetres(x, false) + i64::from((x * 16.0) % 2.0 == -1.0)
    }
}

struct HalvesTowardZero;
impl Rule for HalvesTowardZero {
    fn millimetres(x: f64) -> i64 {
        ref02::millimetres(x, false) - i64::from((x * 16.0) % 2.0 == 1.0) + i64::from((x * 16.0) % 2.0 == -1.0)
    }
}

struct TowardZero;
impl Rule for TowardZero {
    fn millimetres(x: f64) -> i64 {
        (x * 1000.0) as i64
    }
}

struct NothingDropped;
impl Rule for NothingDropped {
    fn drops(_: &[[i64; 2]], _: [i64; 2]) -> bool {
        false
    }
}

/// Every point that is listed already is dropped, not only the one just before.
struct EachOnce;
impl Rule for EachOnce {
    fn drops(list: &[[i64; 2]], next: [i64; 2]) -> bool {
        list.contains(&next)
    }
}

/// A point with the x of the one before is dropped.
struct SameX;
impl Rule for SameX {
    fn drops(list: &[[i64; 2]], next: [i64; 2]) -> bool {
        list.last().is_some_and(|last| last[0] == next[0])
    }
}

#[test]
fn another_rounding() {
    seen::<ProductInFloats>();
    seen::<HalvesToEven>();
    seen::<HalvesUp>();
    seen::<HalvesTowardZero>();
    seen::<TowardZero>();
}

#[test]
fn other_points_dropped() {
    seen::<NothingDropped>();
    seen::<EachOnce>();
    seen::<SameX>();
}
