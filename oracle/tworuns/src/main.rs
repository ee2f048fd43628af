//! tworuns FIRST COUNT: the two-run test of the built code. Each generated pair (of the reference's generators) is run twice. The
//! second run finds other values at cells which the first did not mark, after a refused job at any cells, and other garbage in the work
//! area, but the same mesh and zones; result, answers and marks must be alike, word for word. As a measure, one marked cell at a time is changed too: how often that shows.
//! The last line is 'N alike, M differ'; the exit status is 1 where M > 0.
//!
//! tworuns --self-test FIRST COUNT: a read cell counts as not marked; passes if that is found in most pairs that have one.
mod fields;
mod job;

use fields::Fields;
use job::{End, Job};
use reference::{by_bins, pair};
use reference::refair::gen::Rng;
use std::process::ExitCode;

/// How many marked cells of a pair are changed for the measure.
const TRIED: usize = 2;

#[derive(Default)]
struct Tally {
    alike: u64,
    differ: u64,
    refused: u64,
    sheets: u64,
    among_all: u64,
    edition_2: u64,
    changed: u64,
    shown: u64,
    tried: u64,
}

/// The cells whose values may change: those without a mark, or all after a refused job.
fn free_cells(end: &End, fields: &Fields) -> Vec<usize> {
    (0..fields.cells).filter(|&i| end.result != 0 || end.marks[i] == 0).collect()
}

/// The cells that the marks name.
fn read_cells(end: &End, fields: &Fields) -> Vec<usize> {
    (0..fields.cells).filter(|&i| end.result == 0 && end.marks[i] == 1).collect()
}

/// All of the cells, one of them or about half.
fn some(mut cells: Vec<usize>, r: &mut Rng) -> Vec<usize> {
    match r.below(4) {
        0 => cells.retain(|_| r.one_in(2)),
        1 if !cells.is_empty() => cells = vec![cells[r.below(cells.len())]],
        _ => {}
    }
    cells
}

/// Runs a job on the case with other values at some cells, over other garbage.
fn again(job: &Job, fields: Option<&Fields>, cells: &[usize], r: &mut Rng) -> End {
    let mut case = job.case.clone();
    if let Some(fields) = fields {
        for &cell in cells {
            fields.change(&mut case, cell, r);
        }
    }
    job.run(&case, r.next())
}

/// Holds a second run to the first, and counts.
fn hold(seed: u64, first: &End, second: &End, t: &mut Tally) {
    match first.difference(second) {
        None => t.alike += 1,
        Some(what) => {
            t.differ += 1;
            if t.differ <= 20 {
                println!("pair {seed}: {what}");
            }
        }
    }
}

fn two_runs(seed: u64, t: &mut Tally) {
    let r = &mut Rng::new(seed ^ 0x7470_6f77_7275_6e73);
    let job = Job::of(pair(seed));
    let fields = Fields::of(&job.case);
    let first = job.run(&job.case, r.next());
    t.refused += u64::from(first.result != 0);
    t.sheets += u64::from(first.result == 0 && job.asks(|code| by_bins(code) == 13));
    t.among_all += u64::from(first.result == 0 && job.asks(|code| by_bins(code) != code));
    t.edition_2 += u64::from(first.result == 0 && fields.as_ref().is_some_and(|f| f.edition == 2));
    let free = fields.as_ref().map_or(Vec::new(), |f| some(free_cells(&first, f), r));
    t.changed += u64::from(!free.is_empty());
    hold(seed, &first, &again(&job, fields.as_ref(), &free, r), t);
    let mut read = fields.as_ref().map_or(Vec::new(), |f| read_cells(&first, f));
    r.shuffle(&mut read);
    for &cell in read.iter().take(TRIED) {
        t.tried += 1;
        t.shown += u64::from(first.difference(&again(&job, fields.as_ref(), &[cell], r)).is_some());
    }
}

/// As two_runs, with one read cell among those that may change. Pairs in which no cell is read are passed over.
fn without_a_mark(seed: u64, t: &mut Tally) {
    let r = &mut Rng::new(seed ^ 0x7470_6f77_7275_6e73);
    let job = Job::of(pair(seed));
    let Some(fields) = Fields::of(&job.case) else { return };
    let mut first = job.run(&job.case, r.next());
    let read = read_cells(&first, &fields);
    if read.is_empty() {
        return;
    }
    let cell = read[r.below(read.len())];
    first.marks[cell] = 0;
    let free = free_cells(&first, &fields);
    let mut second = again(&job, Some(&fields), &free, r);
    second.marks[cell] = 0;
    hold(seed, &first, &second, t);
}

fn main() -> ExitCode {
    let mut words: Vec<String> = std::env::args().skip(1).collect();
    let self_test = words.first().is_some_and(|w| w == "--self-test");
    if self_test {
        words.remove(0);
    }
    let numbers: Vec<u64> = words.iter().filter_map(|w| w.parse().ok()).collect();
    let [first, count] = numbers[..] else {
        eprintln!("usage: tworuns [--self-test] FIRST COUNT");
        return ExitCode::from(2);
    };
    let mut t = Tally::default();
    for seed in first..first + count {
        if self_test {
            without_a_mark(seed, &mut t);
        } else {
            two_runs(seed, &mut t);
        }
    }
    if !self_test {
        println!("{} pairs with other values in the second run; {} refused jobs", t.changed, t.refused);
        println!(
            "{} served jobs with a sheet, {} with a request among all cells, {} on a case of edition 2",
            t.sheets, t.among_all, t.edition_2
        );
        println!("{} of {} changes at one marked cell show in the answers or marks", t.shown, t.tried);
    }
    println!("{} alike, {} differ", t.alike, t.differ);
    let passed = if self_test { t.differ > t.alike } else { t.differ == 0 };
    ExitCode::from(u8::from(!passed))
}
