//! The laws that hold the two editions together, marks of a line's last step, what the pairs with
//! zones show, and how such a pair is made smaller.
use crate::editions::{lines, Editions, First};
use crate::pairs::{made, Mode, Pair};
use crate::shrink::{in_first_edition, without_cells, zero_fields, zero_zones};
use crate::tests::first_difference_in;
use crate::zone_tests::{alone, words};
use hookyellow::raw::hookyellow_job;
use hookyellow::{Case, Cell, Dimension, Direction, LineOptions, Request, Vector};
use reference::refair::{Answer, JobOut, Lens, Order, Stats};
use reference::{by_bins, first_edition, job, read_case, second_edition};
use std::slice::{from_raw_parts, from_raw_parts_mut};

/// The cells that a request reads, without the step that ends its line at a border.
fn read_before(case: &[u8], first: &[u8], mut request: Vec<u64>, lens: [usize; 3]) -> Vec<u8> {
    if [3, 11, 13, 14].contains(&request[0]) {
        request[0] = if by_bins(request[0]) == request[0] { 3 } else { 11 };
        let points = alone(case, &request, lens).0[0];
        if alone(first, &request, lens).0[0] > points {
            request[6] = points - 1;
        }
        if request[6] == 0 {
            return vec![0; lens[2]];
        }
    }
    alone(case, &request, lens).1
}

/// The job in which that step has no marks, where no answer is refused.
unsafe extern "C" fn last_step_unmarked(
    a: *const u8, an: usize, b: *const u8, bn: usize, c: *mut u32, cn: usize,
    d: *mut f64, dn: usize, e: *mut u8, en: usize, g: *mut u64, gn: usize,
) -> u64 {
    let result = hookyellow_job(a, an, b, bn, c, cn, d, dn, e, en, g, gn);
    let (case, answers, marks) = (from_raw_parts(a, an), from_raw_parts(g, gn), from_raw_parts_mut(e, en));
    let (0, Some(first)) = (result, first_edition(case)) else { return result };
    let (mut at, mut read) = (0, vec![0; read_case(case).map_or(0, |read| read.zones.len())]);
    for request in from_raw_parts(b, bn).chunks_exact(128).map(words) {
        if answers[at] != 0 {
            return result;
        }
        let cells = read_before(case, &first, request, [cn, dn, en]);
        read.iter_mut().zip(cells).for_each(|(mark, read)| *mark |= read);
        at += 2 + answers[at + 1] as usize;
    }
    marks[..read.len()].copy_from_slice(&read);
    result
}

#[test]
fn a_last_step_without_marks() {
    let why = first_difference_in(Mode::Zones, last_step_unmarked).2;
    assert!(why.contains("the mark of cell"), "{why}");
}

fn due(p: &Pair) -> JobOut {
    job(&p.case, &p.requests, p.lens, Order::Rust, &mut Stats::default())
}

/// A line along y = 0.5 through 01's Pair with zones, by both locators.
fn zoned_pair(zones: [u32; 2]) -> Pair {
    let case = Case::builder(Dimension::Two)
        .points([[0., 0., 0.], [1., 0., 0.], [2., 0., 0.], [0., 1., 0.], [1., 1., 0.], [2., 1., 0.]])
        .cells([Cell::Polygon(vec![0, 1, 4, 3]), Cell::Polygon(vec![1, 2, 5, 4])])
        .velocities([[1., 0., 0.], [3., 0., 0.]])
        .pressures([0., 0.])
        .build()
        .unwrap();
    let (seed, direction) = (Vector::new(0.25, 0.5, 0.0), Direction::Forward);
    let options =
        LineOptions { step_size: 0.25, max_steps: 10, max_length: 9.0, stagnation_speed: 0.0, all_cells: true };
    let list = [Request::Streamline { seed, direction, options }, Request::Locate { point: seed, all_cells: true }];
    let requests = list.iter().flat_map(Request::to_bytes).collect();
    Pair { case: second_edition(case.as_bytes(), &zones), requests, lens: Lens::default(), sort: String::new() }
}

#[test]
fn what_is_due_goes_with_edition_1() {
    let (one, two) = (zoned_pair([7, 7]), zoned_pair([0, 1]));
    let none = Editions::default();
    assert_eq!(First::of(&one).unwrap().agrees(&due(&one)), Ok(Editions { one_zone: 1, ..none }));
    assert_eq!(First::of(&two).unwrap().agrees(&due(&two)), Ok(Editions { several: 1, lines: 1, cut: 1, ..none }));
    assert!(First::of(&one).unwrap().agrees(&due(&two)).is_err());
    assert!(First::of(&zoned_pair([0, 256])).is_none());
    assert!(First::of(&in_first_edition(&two).unwrap()).is_none());
}

#[test]
fn what_zones_may_not_change() {
    let two = zoned_pair([0, 1]);
    let JobOut::Done { answers, marks } = due(&two) else { panic!("served") };
    let agrees = |answers: &[Answer], marks: &[bool]| {
        First::of(&two).unwrap().agrees(&JobOut::Done { answers: answers.to_vec(), marks: marks.to_vec() })
    };
    let changed = |i: usize, words: &[u64]| {
        let mut list = answers.clone();
        list[i].words = words.to_vec();
        agrees(&list, &marks).unwrap_err()
    };
    assert!(agrees(&answers, &marks).is_ok());
    let line = &answers[0].words;
    let other = [&line[..4], &[1], &line[5..]].concat();
    assert!(changed(0, &other).ends_with("a line is no beginning of the one without zones"));
    assert!(changed(1, &[1, 2]).ends_with("request 1: the zones change what is no line"));
    let mut refused = answers.clone();
    refused[0] = Answer { refusal: 35, words: Vec::new() };
    assert!(agrees(&refused, &marks).unwrap_err().ends_with("request 0: refused 0 without zones, 35 with them"));
    refused[0].refusal = 44;
    assert!(agrees(&refused, &marks).is_ok());
    assert!(First::of(&two).unwrap().agrees(&JobOut::Refused(8)).is_err());
}

/// In every code of a line some end at a border and some do not; both editions' refusals come.
#[test]
fn zones_show_in_every_code() {
    let (mut ended, mut refused, mut editions) = ([[0; 2]; 15], [0; 46], Editions::default());
    for seed in 1..=400 {
        let pair = made(seed, Mode::Zones);
        let out = due(&pair);
        let Some(first) = First::of(&pair) else {
            if let JobOut::Refused(k) = out {
                refused[k as usize] += 1;
            }
            continue;
        };
        editions.add(&first.agrees(&out).unwrap());
        let without = due(&in_first_edition(&pair).unwrap());
        let (JobOut::Done { answers: a, .. }, JobOut::Done { answers: b, .. }) = (without, out) else { continue };
        for (i, (a, b)) in a.iter().zip(&b).enumerate() {
            let code = pair.code(i);
            if a.refusal == 0 && b.refusal == 0 && [3, 4, 13].contains(&by_bins(code)) {
                let longer = |(a, b): (&&[u64], &&[u64])| a.len() > b.len();
                let cut = lines(code, &a.words).iter().zip(&lines(code, &b.words)).any(longer);
                ended[code as usize][cut as usize] += 1;
            }
        }
    }
    assert!([3, 4, 11, 12, 13, 14].iter().all(|&code: &usize| ended[code].iter().all(|&n| n >= 10)), "{ended:?}");
    assert!([1, 3, 45].iter().all(|&k: &usize| refused[k] >= 5), "{refused:?}");
    assert!(editions.one_zone > 40 && editions.several > 100 && editions.cut > 200, "{editions:?}");
}

/// Zones go with their cells, and edition 1 comes only where it is asked for.
#[test]
fn smaller_pairs_keep_their_zones() {
    let pair = zoned_pair([3, 9]);
    let zones = |p: Option<Pair>| read_case(&p.unwrap().case).ok().unwrap().zones;
    assert_eq!(zones(without_cells(&pair, 0..1)), [9]);
    assert_eq!(zones(zero_fields(&pair, 0..1)), [3, 9]);
    assert_eq!(zones(zero_zones(&pair, 1..2)), [3, 0]);
    assert!(zero_zones(&zoned_pair([3, 0]), 1..2).is_none());
    let first = in_first_edition(&pair).unwrap();
    assert_eq!(read_case(&first.case).ok().unwrap().edition, 1);
    assert!(in_first_edition(&first).is_none() && zero_zones(&first, 0..1).is_none());
}
