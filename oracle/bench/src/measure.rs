//! Times one row: medians of rounds in which the sides run in turn.
use crate::files::{Desk, FileRow};
use crate::ours::{bytes, Ours};
use crate::rows::{by_the_bins, witnesses, Request, Row, Work};
use crate::theirs::{build, field, Call, Output, Ready, Theirs};
use reference::by_bins;
use reference::flursys::workbench::results::ResultDataset;
use std::hint::black_box;

/// Microseconds that all rounds of a row may take, and that one run of a row may take before the row asks for less.
const ROW: f64 = 1_500_000.0;
const RUN: f64 = 150_000.0;
/// A row asks for no fewer units than this.
const LEAST: usize = 4;
/// Microseconds that a file is made or copied again and again in one round, and the rounds.
const FILES: f64 = 200.0;
const FILE_ROUNDS: usize = 1001;

pub struct Measured {
    pub ours: f64,
    pub theirs: f64,
    /// Ours by the bins, of a row among all cells.
    pub bins: Option<f64>,
    /// Ours on the edition 1 case of the same contents, of a row with zones.
    pub first: Option<f64>,
    /// Fewer units were run than the row says, and the times multiplied.
    pub scaled: bool,
    /// Half of our rounds lie more than a quarter of the median apart.
    pub uneven: bool,
}

/// Of one file: the shortest times, since a file takes microseconds, and what is above them is another program's doing.
pub struct MeasuredFile {
    pub bytes: usize,
    pub ours: f64,
    pub copy: f64,
}

/// Which part of a row is run: `units` of it, `repeats` times in one job.
struct Plan {
    units: usize,
    repeats: usize,
    build: f64,
}

#[repr(C)]
struct Time {
    seconds: i64,
    nanoseconds: i64,
}

extern "C" {
    fn clock_gettime(clock: i32, time: *mut Time) -> i32;
}

/// Microseconds that this thread has had a core (CLOCK_THREAD_CPUTIME_ID on Linux): other programs do not count.
fn now() -> f64 {
    let mut time = Time { seconds: 0, nanoseconds: 0 };
    assert_eq!(unsafe { clock_gettime(3, &mut time) }, 0);
    time.seconds as f64 * 1e6 + time.nanoseconds as f64 * 1e-3
}

fn clock<T>(run: impl FnOnce() -> T) -> (f64, T) {
    let start = now();
    let result = black_box(run());
    (now() - start, result)
}

fn median(times: &mut [f64]) -> f64 {
    times.sort_by(f64::total_cmp);
    times[times.len() / 2]
}

/// Wider than a quarter of the median between the quartiles; `times` are sorted.
fn uneven(times: &[f64]) -> bool {
    let n = times.len();
    times[n - 1 - n / 4] - times[n / 4] > 0.25 * times[n / 2].abs()
}

fn rounds(once: f64) -> usize {
    ((ROW / once) as usize).clamp(5, 101) | 1
}

/// The words of an answer whose lines have all their steps.
fn whole_answer(request: &Request) -> Option<usize> {
    let line = |steps: u64| 4 + 3 * steps as usize;
    match by_bins(request[0]) {
        3 => Some(2 + line(request[6])),
        4 => Some(3 + request[7] as usize * line(request[10])),
        _ => None,
    }
}

/// Ours and the Rust's answers to a list, bit for bit; an error names the first answer that differs.
fn same_answers(ours: &mut Ours, theirs: &Theirs, list: &[Request]) -> Result<(), String> {
    ours.fit(list);
    let mut at = 0;
    for (i, request) in list.iter().enumerate() {
        let wanted = theirs.serve(&Call::of(request)).answer(request, theirs);
        let given = ours.answers.get(at..at + wanted.len()).unwrap_or(&ours.answers[at..]);
        if given != wanted {
            let word = given.iter().zip(&wanted).take_while(|(a, b)| a == b).count();
            return Err(format!("the answers to request {i} (code {}) differ at word {word}", request[0]));
        }
        if wanted.len() != whole_answer(request).unwrap_or(wanted.len()) {
            return Err("a line ends before its last step".into());
        }
        at += wanted.len();
    }
    if at == ours.answers.len() { Ok(()) } else { Err("there are more answer words than the Rust's".into()) }
}

pub fn measure(row: &Row) -> Result<Measured, String> {
    let theirs = Theirs::new(&row.shape.case());
    let mut ours = Ours::new(row.case());
    let mut first = row.has_zones().then(|| Ours::new(row.shape.case()));
    let result = match row.work {
        Work::Build => measure_build(row, &mut ours, &mut first, &theirs, false),
        Work::BuildField => measure_build(row, &mut ours, &mut first, &theirs, true),
        Work::Requests { list, whole, .. } => measure_requests(&mut ours, &mut first, &theirs, list, whole),
    };
    result.map_err(|why| format!("{}: {why}", row.key()))
}

fn time_build(ready: &Ready, with_field: bool) -> f64 {
    let (lists, velocities) = (ready.lists(), ready.velocities());
    if !with_field {
        return clock(|| build(lists)).0;
    }
    clock(|| {
        let data = ResultDataset::stub(build(lists), velocities);
        (field(&data), data)
    })
    .0
}

fn measure_build(
    row: &Row,
    ours: &mut Ours,
    first: &mut Option<Ours>,
    theirs: &Theirs,
    with_field: bool,
) -> Result<Measured, String> {
    same_answers(ours, theirs, &witnesses(row.shape))?;
    let once = clock(|| ours.job(&[])).0 + time_build(&theirs.ready, with_field);
    let (mut a, mut b, mut c) = (Vec::new(), Vec::new(), Vec::new());
    for _ in 0..rounds(once) {
        a.push(clock(|| ours.job(&[])).0);
        b.push(time_build(&theirs.ready, with_field));
        c.extend(first.as_mut().map(|first| clock(|| first.job(&[])).0));
    }
    let ours = median(&mut a);
    let first = first.is_some().then(|| median(&mut c));
    Ok(Measured { ours, theirs: median(&mut b), bins: None, first, scaled: false, uneven: uneven(&a) })
}

fn plan(ours: &mut Ours, list: fn(usize) -> Vec<Request>, whole: usize) -> Plan {
    let build = median(&mut [0; 5].map(|_| clock(|| ours.job(&[])).0));
    let mut units = whole.min(LEAST);
    loop {
        let request = list(units);
        ours.fit(&request);
        let requests = bytes(&request);
        let time = (median(&mut [0; 3].map(|_| clock(|| ours.job(&requests)).0)) - build).max(1.0);
        if units < whole && 2.0 * time < RUN {
            units *= 2;
            continue;
        }
        let repeats = ((4.0 * build / time) as usize).clamp(1, (4096 / request.len()).min(64));
        return Plan { units, repeats, build };
    }
}

/// A job less one without requests.
fn time_less_build(ours: &mut Ours, requests: &[u8]) -> f64 {
    let empty = clock(|| ours.job(&[])).0;
    clock(|| ours.job(requests)).0 - empty
}

fn time_calls(theirs: &Theirs, calls: &[Call], repeats: usize) -> f64 {
    let mut kept: Vec<Output> = Vec::with_capacity(calls.len() * repeats);
    clock(|| {
        for _ in 0..repeats {
            kept.extend(calls.iter().map(|call| theirs.serve(call)));
        }
    })
    .0
}

fn measure_requests(
    ours: &mut Ours,
    first: &mut Option<Ours>,
    theirs: &Theirs,
    list: fn(usize) -> Vec<Request>,
    whole: usize,
) -> Result<Measured, String> {
    let Plan { units, repeats, build } = plan(ours, list, whole);
    let request = list(units);
    same_answers(ours, theirs, &request)?;
    let calls: Vec<Call> = request.iter().map(Call::of).collect();
    let repeated = request.repeat(repeats);
    ours.fit(&repeated);
    first.iter_mut().for_each(|first| first.fit(&repeated));
    let requests = bytes(&repeated);
    let beside = by_the_bins(&repeated).map(|list| bytes(&list));
    let once = build + clock(|| ours.job(&requests)).0 + time_calls(theirs, &calls, repeats);
    let (mut a, mut b, mut c, mut d) = (Vec::new(), Vec::new(), Vec::new(), Vec::new());
    for _ in 0..rounds(once) {
        let empty = clock(|| ours.job(&[])).0;
        a.push(clock(|| ours.job(&requests)).0 - empty);
        b.push(time_calls(theirs, &calls, repeats));
        c.extend(beside.as_ref().map(|requests| clock(|| ours.job(requests)).0 - empty));
        d.extend(first.as_mut().map(|first| time_less_build(first, &requests)));
    }
    let factor = whole as f64 / units as f64 / repeats as f64;
    let bins = beside.map(|_| median(&mut c) * factor);
    let first = first.is_some().then(|| median(&mut d) * factor);
    let (ours, theirs) = (median(&mut a) * factor, median(&mut b) * factor);
    Ok(Measured { ours, theirs, bins, first, scaled: units < whole, uneven: uneven(&a) })
}

fn time_files(repeats: usize, mut run: impl FnMut()) -> f64 {
    clock(|| (0..repeats).for_each(|_| run())).0 / repeats as f64
}

/// A file made and copied in turn, each as often in a round as fills its time.
pub fn measure_file(row: &FileRow) -> Result<MeasuredFile, String> {
    let mut desk = Desk::new(row)?;
    let repeats = |once: f64| ((FILES / once.max(0.01)) as usize).clamp(1, 100_000);
    let (makes, copies) = (repeats(time_files(8, || desk.make())), repeats(time_files(8, || desk.copy())));
    let (mut ours, mut copy) = (f64::INFINITY, f64::INFINITY);
    for _ in 0..FILE_ROUNDS {
        ours = ours.min(time_files(makes, || desk.make()));
        copy = copy.min(time_files(copies, || desk.copy()));
    }
    Ok(MeasuredFile { bytes: desk.bytes(), ours, copy })
}
