//! A library that is wrong in one place must be seen, and the pair that shows it made as small as the steps allow.
use crate::buffers::{Area, Library};
use crate::judge::{judge, Verdict};
use crate::pairs::{made, Mode, Pair};
use crate::report::{smaller, Report};
use crate::shrink::{in_first_edition, without_cells, without_requests, zero_arguments, zero_fields, zero_zones, LENGTHS};
use hookyellow::raw::hookyellow_job;
use reference::read_case;
use std::slice::{from_raw_parts, from_raw_parts_mut};

/// What the right library gave.
struct Given<'a> {
    result: u64,
    cells: usize,
    requests: &'a [u8],
    marks: &'a mut [u8],
    answers: &'a mut [u64],
}

/// A fault: changes what was given, and gives the result.
trait Fault {
    /// places behind the answers that it may write
    const BEYOND: usize = 0;
    fn change(g: Given) -> u64;
}

unsafe extern "C" fn wrong<F: Fault>(
    a: *const u8, an: usize, b: *const u8, bn: usize, c: *mut u32, cn: usize,
    d: *mut f64, dn: usize, e: *mut u8, en: usize, g: *mut u64, gn: usize,
) -> u64 {
    let result = hookyellow_job(a, an, b, bn, c, cn, d, dn, e, en, g, gn);
    let cells = read_case(from_raw_parts(a, an)).map_or(0, |c| c.zones.len());
    let (marks, answers) = (from_raw_parts_mut(e, en), from_raw_parts_mut(g, gn + F::BEYOND));
    F::change(Given { result, cells, requests: from_raw_parts(b, bn), marks, answers })
}

/// The start of each answer, and where they end.
fn starts(g: &Given) -> Vec<usize> {
    let mut list = vec![0];
    for _ in 0..g.requests.len() / 128 {
        let at = list[list.len() - 1];
        list.push(at + 2 + g.answers[at + 1] as usize);
    }
    list
}

/// The last bit of the last word of the first answer of code N.
struct Bit<const N: u64>;
impl<const N: u64> Fault for Bit<N> {
    fn change(g: Given) -> u64 {
        if g.result == 0 {
            let list = starts(&g);
            let is_it = |i: &usize| g.requests[128 * i..128 * i + 8] == N.to_le_bytes() && list[i + 1] > list[*i] + 2;
            if let Some(i) = (0..list.len() - 1).find(is_it) {
                g.answers[list[i + 1] - 1] ^= 1;
            }
        }
        g.result
    }
}

struct Refusal;
impl Fault for Refusal {
    fn change(g: Given) -> u64 {
        if g.result == 5 { 6 } else { g.result }
    }
}

struct AnswerRefusal;
impl Fault for AnswerRefusal {
    fn change(g: Given) -> u64 {
        if g.result == 0 {
            let list = starts(&g);
            if let Some(at) = list[..list.len() - 1].iter().find(|at| g.answers[**at] == 35) {
                g.answers[*at] = 34;
            }
        }
        g.result
    }
}

struct WordAfterLast;
impl Fault for WordAfterLast {
    fn change(g: Given) -> u64 {
        if g.result == 0 && *starts(&g).last().unwrap() < g.answers.len() {
            *g.answers.last_mut().unwrap() = 1;
        }
        g.result
    }
}

struct WordBehindBuffer;
impl Fault for WordBehindBuffer {
    const BEYOND: usize = 1;
    fn change(g: Given) -> u64 {
        if g.result == 0 {
            *g.answers.last_mut().unwrap() = 0;
        }
        g.result
    }
}

struct Mark;
impl Fault for Mark {
    fn change(g: Given) -> u64 {
        if g.result == 0 {
            g.marks[g.cells - 1] ^= 1;
        }
        g.result
    }
}

struct MarkBehindCells;
impl Fault for MarkBehindCells {
    fn change(g: Given) -> u64 {
        if g.result == 0 && g.marks.len() > g.cells {
            g.marks[g.cells] ^= 1;
        }
        g.result
    }
}

struct RefusedMark;
impl Fault for RefusedMark {
    fn change(g: Given) -> u64 {
        if g.result == 13 {
            g.marks[0] ^= 1;
        }
        g.result
    }
}

struct RefusedAnswer;
impl Fault for RefusedAnswer {
    fn change(g: Given) -> u64 {
        if g.result == 1 && !g.answers.is_empty() {
            g.answers[0] ^= 1;
        }
        g.result
    }
}

fn differs(p: &Pair, seed: u64, area: &mut Area) -> bool {
    matches!(judge(p, seed, area).verdict, Verdict::Differ(_))
}

/// The first pair of all kinds in which a library differs.
pub fn first_difference(library: Library) -> (u64, Pair, String) {
    first_difference_in(Mode::Mixed, library)
}

/// The first pair of a mode in which a library differs.
pub fn first_difference_in(mode: Mode, library: Library) -> (u64, Pair, String) {
    let mut area = Area::of(library);
    for seed in 1..5_000 {
        let pair = made(seed, mode);
        if let Verdict::Differ(why) = judge(&pair, seed, &mut area).verdict {
            assert!(!differs(&pair, seed, &mut Area::of(hookyellow_job)), "seed {seed} differs without the fault");
            return (seed, pair, why);
        }
    }
    panic!("5,000 pairs do not show the fault");
}

/// Nothing that shrinking takes away can be taken from the pair.
fn least(p: &Pair, differs: &mut dyn FnMut(&Pair) -> bool) {
    let cells = read_case(&p.case).map_or(0, |c| c.zones.len());
    for i in 0..p.requests.len() / 128 {
        assert!(!without_requests(p, i..i + 1).is_some_and(|q| differs(&q)), "without request {i} it differs too");
    }
    for i in 0..p.requests.len() / 8 {
        assert!(!zero_arguments(p, i..i + 1).is_some_and(|q| differs(&q)), "with a zero for request word {i} it differs too");
    }
    for i in 0..cells {
        assert!(!without_cells(p, i..i + 1).is_some_and(|q| differs(&q)), "without cell {i} it differs too");
    }
    for i in 0..4 * cells {
        assert!(!zero_fields(p, i..i + 1).is_some_and(|q| differs(&q)), "with a zero for field {i} it differs too");
    }
    for i in 0..cells {
        assert!(!zero_zones(p, i..i + 1).is_some_and(|q| differs(&q)), "with zone 0 for cell {i} it differs too");
    }
    assert!(!in_first_edition(p).is_some_and(|q| differs(&q)), "in edition 1 it differs too");
    for (i, length) in LENGTHS.iter().enumerate() {
        let mut q = p.clone();
        if *length(&mut q.lens) > 0 {
            *length(&mut q.lens) -= 1;
            assert!(!differs(&q), "with a shorter buffer {i} it differs too");
        }
    }
}

/// A fault is seen, said in these words, and its pair made as small as it goes.
fn seen<F: Fault>(words: &[&str]) -> Pair {
    let (seed, pair, why) = first_difference(wrong::<F>);
    let mut area = Area::of(wrong::<F>);
    let (small, outcome) = smaller(&pair, seed, &mut area);
    let Verdict::Differ(small_why) = outcome.verdict else { panic!("the smaller pair does not differ") };
    for word in words {
        assert!(why.contains(word), "{why}");
        assert!(small_why.contains(word), "{small_why}");
    }
    assert!(small.case.len() <= pair.case.len() && small.requests.len() <= pair.requests.len());
    least(&small, &mut |p| differs(p, seed, &mut area));
    small
}

fn bit_seen<const N: u64>() {
    let small = seen::<Bit<N>>(&[&format!("(code {N}, from word"), "): word "]);
    assert_eq!((small.requests.len(), small.code(0)), (128, N));
}

#[test]
fn a_bit_of_each_code() {
    bit_seen::<1>();
    bit_seen::<2>();
    bit_seen::<3>();
    bit_seen::<4>();
    bit_seen::<5>();
    bit_seen::<6>();
    bit_seen::<7>();
    bit_seen::<8>();
    bit_seen::<9>();
    bit_seen::<10>();
    bit_seen::<11>();
    bit_seen::<12>();
    bit_seen::<13>();
    bit_seen::<14>();
}

#[test]
fn refusals() {
    seen::<Refusal>(&["the job is refused 5, ours gives 6"]);
    let small = seen::<AnswerRefusal>(&["refusal 35, ours 34"]);
    assert_eq!(small.requests.len(), 128);
}

#[test]
fn the_rest_of_the_answers() {
    seen::<WordAfterLast>(&["after the last answer: 0000000000000000, ours 0000000000000001"]);
    seen::<WordBehindBuffer>(&["place 0 after the answers"]);
}

#[test]
fn marks() {
    seen::<Mark>(&["the mark of cell"]);
    seen::<MarkBehindCells>(&["of the marks, behind the"]);
}

#[test]
fn a_refused_job_that_writes() {
    seen::<RefusedMark>(&["refused 13, and byte 0 of the marks was written"]);
    seen::<RefusedAnswer>(&["refused 1, and word 0 of the answers was written"]);
}

#[test]
fn what_is_written_differs_again() {
    let dir = std::env::temp_dir().join(format!("compare.test.{}", std::process::id()));
    let (seed, pair, _) = first_difference(wrong::<Bit<5>>);
    let mut area = Area::of(wrong::<Bit<5>>);
    let mut report = Report { dir: dir.clone(), mode: Mode::Mixed, left: 1 };
    for name in [seed, seed + 1] {
        let outcome = judge(&pair, seed, &mut area);
        report.differ(&pair, name, &outcome, &mut area).unwrap();
    }
    assert!(!dir.join((seed + 1).to_string()).exists(), "no more than `left` are written");
    let folder = dir.join(seed.to_string());
    let text = |name: &str| std::fs::read_to_string(folder.join(name)).unwrap();
    assert_eq!(std::fs::read(folder.join("whole/case.bin")).unwrap(), pair.case);
    let case = std::fs::read(folder.join("case.bin")).unwrap();
    let requests = std::fs::read(folder.join("requests.bin")).unwrap();
    let again = Pair { case, requests, ..pair };
    let Verdict::Differ(why) = judge(&again, seed, &mut area).verdict else { panic!("what was written does not differ") };
    assert!(text("README").contains(&why));
    assert_ne!(text("ours.txt"), text("theirs.txt"));
    std::fs::remove_dir_all(dir).unwrap();
}
