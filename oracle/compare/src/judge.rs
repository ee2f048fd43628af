//! Compares what the library gave with what the reference gave: the result, every word of the
//! answer buffer by its bits and every byte of the marks buffer. Each NaN of the Rust counts as
//! 7ff8000000000000; the sign of a zero minimum or maximum of code 6 is not compared. The laws of
//! located.rs must hold of codes 1 and 9, and where the angles leave no choice their cells must be
//! FLURSYS's own (locators.rs), and an edition 2 file must go with edition 1 (editions.rs).
use crate::buffers::Area;
use crate::editions::{Editions, First};
use crate::located::{Located, Positions};
use crate::locators::held;
use crate::names::{name_of, value_of};
use crate::pairs::Pair;
use reference::job;
use reference::refair::{Answer, JobOut, Order, Stats};
use std::panic::{catch_unwind, AssertUnwindSafe};
use std::time::{Duration, Instant};

/// How much was compared.
#[derive(Default, Clone, Copy)]
pub struct Counts {
    pub words: u64,
    pub marks: u64,
    /// words where the sign of a zero was passed over
    pub signs: u64,
    /// points that were asked for by both locators
    pub located: Located,
    /// what the points of codes 1 and 9 are
    pub positions: Positions,
    /// cells that are FLURSYS's own
    pub cells: u64,
    /// files of edition 2
    pub editions: Editions,
}

pub enum Verdict {
    Same,
    /// the reference sees angles closer than 2^-40; true where the library is as the Rust all the same, false where it is
    /// as the reference under 01's angle order alone
    Near(bool),
    Differ(String),
}

/// One pair, run and compared.
pub struct Outcome {
    pub verdict: Verdict,
    /// what the library is held to; none where the reference itself fails
    pub want: Option<JobOut>,
    pub got: u64,
    pub counts: Counts,
    pub ours: Duration,
    pub theirs: Duration,
}

/// Runs a pair by both and compares.
pub fn judge(p: &Pair, seed: u64, area: &mut Area) -> Outcome {
    let clock = Instant::now();
    let mut stats = Stats::default();
    let ran = catch_unwind(AssertUnwindSafe(|| {
        (job(&p.case, &p.requests, p.lens, Order::Rust, &mut stats), First::of(p))
    }));
    let theirs = clock.elapsed();
    // before the pair itself, whose buffers are shown where it differs
    let held = ran.as_ref().ok().and_then(|ran| ran.1.as_ref()).map_or(Ok(()), |first| first.held(seed, area));
    let clock = Instant::now();
    let got = area.run(p, seed);
    let ours = clock.elapsed();
    let mut counts = Counts::default();
    let (verdict, want) = match ran {
        Err(e) => {
            let text = e.downcast_ref::<String>().cloned().or(e.downcast_ref::<&str>().map(|s| s.to_string()));
            (Verdict::Differ(format!("the reference itself fails: {}", text.unwrap_or_default())), None)
        }
        Ok((want, first)) => {
            let (mut verdict, want) = compare(p, want, stats.near > 0, got, area, &mut counts);
            let found = held.and_then(|()| first.map_or(Ok(Editions::default()), |first| first.agrees(&want)));
            match (&verdict, found) {
                (Verdict::Same, Err(why)) => verdict = Verdict::Differ(why),
                (Verdict::Same, Ok(found)) => counts.editions = found,
                _ => {}
            }
            (verdict, Some(want))
        }
    };
    Outcome { verdict, want, got, counts, ours, theirs }
}

/// The verdict, and what the library is held to.
fn compare(p: &Pair, want: JobOut, near: bool, got: u64, area: &Area, counts: &mut Counts) -> (Verdict, JobOut) {
    let Err(why) = equal(p, &want, got, area, counts).and_then(|()| equal_cells(p, got, area, counts)) else {
        return (if near { Verdict::Near(true) } else { Verdict::Same }, want);
    };
    let by_01 = job(&p.case, &p.requests, p.lens, Order::Doc01, &mut Stats::default());
    match (near, equal(p, &by_01, got, area, counts)) {
        (true, Ok(())) => (Verdict::Near(false), by_01),
        (true, Err(why)) => (Verdict::Differ(format!("near, and not by 01's angle order either: {why}")), by_01),
        (false, Ok(())) => (Verdict::Differ(why + "; ours is as under 01's angle order"), want),
        (false, Err(_)) => (Verdict::Differ(why), want),
    }
}

pub fn equal(p: &Pair, want: &JobOut, got: u64, area: &Area, counts: &mut Counts) -> Result<(), String> {
    area.intact(p)?;
    match want {
        JobOut::Refused(k) => equal_refusal(*k, got, area),
        JobOut::Done { .. } if got != 0 => Err(format!("the job is served, ours gives refusal {got}")),
        JobOut::Done { answers, marks } => {
            equal_answers(p, answers, area.answers(), counts)?;
            equal_marks(marks, area)?;
            counts.located.add(&Located::of(p, area.answers())?);
            counts.positions.add(&Positions::of(p, area.answers())?);
            counts.words += area.answers().len() as u64;
            counts.marks += marks.len() as u64;
            Ok(())
        }
    }
}

/// The cells of codes 1 and 9 are FLURSYS's.
fn equal_cells(p: &Pair, got: u64, area: &Area, counts: &mut Counts) -> Result<(), String> {
    if got == 0 {
        counts.cells += held(p, area.answers())?;
    }
    Ok(())
}

/// A refused job leaves answers and marks as they were.
fn equal_refusal(k: u32, got: u64, area: &Area) -> Result<(), String> {
    if k as u64 != got {
        return Err(format!("the job is refused {k}, ours gives {got}"));
    }
    let (answers, held) = (area.answers(), area.answers_before());
    if let Some(i) = (0..answers.len()).find(|&i| answers[i] != held[i]) {
        return Err(format!("refused {k}, and word {i} of the answers was written: {:016x}, ours {:016x}", held[i], answers[i]));
    }
    let (marks, held) = (area.marks(), area.marks_before());
    if let Some(i) = (0..marks.len()).find(|&i| marks[i] != held[i]) {
        return Err(format!("refused {k}, and byte {i} of the marks was written: {:02x}, ours {:02x}", held[i], marks[i]));
    }
    Ok(())
}

fn equal_answers(p: &Pair, want: &[Answer], got: &[u64], counts: &mut Counts) -> Result<(), String> {
    let mut at = 0;
    for (i, w) in want.iter().enumerate() {
        let code = p.code(i);
        equal_answer(code, w, &got[at..], counts).map_err(|e| format!("answer of request {i} (code {code}, from word {at}): {e}"))?;
        at += 2 + w.words.len();
    }
    match (at..got.len()).find(|&i| got[i] != 0) {
        Some(i) => Err(format!("word {i}, after the last answer: 0000000000000000, ours {:016x}", got[i])),
        None => Ok(()),
    }
}

fn equal_answer(code: u64, want: &Answer, got: &[u64], counts: &mut Counts) -> Result<(), String> {
    let n = want.words.len();
    if got[0] != want.refusal as u64 {
        return Err(format!("refusal {}, ours {} ({:016x}, {:016x})", want.refusal, got[0], want.refusal, got[0]));
    }
    if got[1] != n as u64 {
        return Err(format!("{n} words, ours {} ({n:016x}, {:016x})", got[1], got[1]));
    }
    let got = &got[2..2 + n];
    if got == want.words {
        return Ok(());
    }
    for (k, (w, g)) in want.words.iter().zip(got).enumerate() {
        if code == 6 && (k == 2 || k == 3) && w << 1 == 0 && g << 1 == 0 && w != g {
            counts.signs += 1;
        } else if w != g {
            let more = want.words[k..].iter().zip(&got[k..]).filter(|(w, g)| w != g).count() - 1;
            let (x, y) = (value_of(code, *w), value_of(code, *g));
            let name = name_of(code, &want.words, k);
            return Err(format!("word {k} ({name}): {w:016x} ({x}), ours {g:016x} ({y}); {more} later words differ"));
        }
    }
    Ok(())
}

/// Bytes behind the last cell keep what they held.
fn equal_marks(read: &[bool], area: &Area) -> Result<(), String> {
    let (marks, held) = (area.marks(), area.marks_before());
    if let Some(i) = (0..read.len()).find(|&i| marks[i] != read[i] as u8) {
        return Err(format!("the mark of cell {i}: {:02x}, ours {:02x}", read[i] as u8, marks[i]));
    }
    match (read.len()..marks.len()).find(|&i| marks[i] != held[i]) {
        Some(i) => Err(format!("byte {i} of the marks, behind the {} cells: {:02x}, ours {:02x}", read.len(), held[i], marks[i])),
        None => Ok(()),
    }
}
