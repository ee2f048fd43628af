//! What came of a run, and its summary.
use crate::file_judge::Files;
use crate::files::faults_made;
use crate::judge::{Counts, Outcome, Verdict};
use crate::located::Positions;
use crate::pairs::Mode;
use crate::tally::Tally;
use std::time::{Duration, Instant};

const PROGRESS: Duration = Duration::from_secs(5);

/// What came of the run so far.
pub struct Run {
    pub tally: Tally,
    counts: Counts,
    pub files: Files,
    pub same: u64,
    pub differ: u64,
    near: u64,
    near_by_01: u64,
    ours: Duration,
    theirs: Duration,
    /// ours, the reference, seed
    slowest: (Duration, Duration, u64),
    start: Instant,
    told: Instant,
}

impl Run {
    pub fn new() -> Self {
        let (none, now) = (Duration::ZERO, Instant::now());
        Self {
            tally: Tally::default(),
            counts: Counts::default(),
            files: Files::default(),
            same: 0,
            differ: 0,
            near: 0,
            near_by_01: 0,
            ours: none,
            theirs: none,
            slowest: (none, none, 0),
            start: now,
            told: now,
        }
    }

    /// A pair, and whether the files that go with it are the same.
    pub fn add(&mut self, seed: u64, o: &Outcome, files: bool) {
        self.counts.words += o.counts.words;
        self.counts.marks += o.counts.marks;
        self.counts.signs += o.counts.signs;
        self.counts.located.add(&o.counts.located);
        self.counts.positions.add(&o.counts.positions);
        self.counts.cells += o.counts.cells;
        self.counts.editions.add(&o.counts.editions);
        self.ours += o.ours;
        self.theirs += o.theirs;
        self.slowest = self.slowest.max((o.ours, o.theirs, seed));
        match o.verdict {
            _ if !files => self.differ += 1,
            Verdict::Same => self.same += 1,
            Verdict::Near(as_rust) => {
                self.near += 1;
                self.near_by_01 += !as_rust as u64;
            }
            Verdict::Differ(_) => self.differ += 1,
        }
    }

    fn line(&self) -> String {
        format!("{} same, {} differ, {} near", self.same, self.differ, self.near)
    }

    fn rate(&self) -> f64 {
        (self.same + self.differ + self.near) as f64 / self.start.elapsed().as_secs_f64()
    }

    pub fn progress(&mut self, done: u64, count: u64) {
        if self.told.elapsed() >= PROGRESS {
            self.told = Instant::now();
            eprintln!("{done} of {count}: {}; {:.0} pairs a second", self.line(), self.rate());
        }
    }

    pub fn summary(&self, mode: Mode, count: u64) {
        if mode == Mode::Files {
            println!("{}\nfaults of parts made here: {}", self.files.cases(), faults_made());
            println!("{:.0} s, {:.0} seeds a second", self.start.elapsed().as_secs_f64(), self.rate());
        } else {
            self.pairs(count);
        }
        if [Mode::Files, Mode::Mixed].contains(&mode) {
            println!("{}", self.files.inputs());
        }
        println!("{}", self.line());
    }

    fn pairs(&self, count: u64) {
        print!("{}", self.tally.summary());
        println!(
            "{} answer words and {} marks compared, {} signs of zero minima or maxima passed over",
            self.counts.words, self.counts.marks, self.counts.signs
        );
        println!("{}", self.counts.located.line());
        let Positions { none, edge, inside } = self.counts.positions;
        println!("positions of codes 1 and 9: {none} none, {edge} edge, {inside} inside");
        println!("{} of these answers have the cell of FLURSYS's own locator", self.counts.cells);
        println!("{}", self.counts.editions.line());
        println!("near pairs: {} as the Rust, {} by 01's angle order alone", self.near - self.near_by_01, self.near_by_01);
        let per = |t: Duration| t.as_secs_f64() * 1e6 / count.max(1) as f64;
        println!(
            "{:.0} s, {:.0} pairs a second; per pair ours {:.0} us, the reference with its checks {:.0} us",
            self.start.elapsed().as_secs_f64(), self.rate(), per(self.ours), per(self.theirs)
        );
        let (x, y, seed) = self.slowest;
        println!("slowest for ours: seed {seed}, {:.1} ms, the reference {:.1} ms", x.as_secs_f64() * 1e3, y.as_secs_f64() * 1e3);
        print!("{}", self.tally.table());
    }
}
