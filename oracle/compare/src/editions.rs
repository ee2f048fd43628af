//! What edition 2 changes and what it leaves. The room of an edition 2 file is written as edition 1
//! too and answered by the reference without zones, which for codes 1 to 8 is the unchanged Rust.
//! Where all zones are equal, both editions must give the same refusal, words and marks, on the
//! reference and on the library. Where they are not, each line is a beginning of the one that runs
//! on, no other cells are marked, and every other answer is the same.
use crate::buffers::Area;
use crate::judge::{equal, Counts};
use crate::pairs::Pair;
use reference::refair::{Answer, JobOut, Lens, Order, Stats};
use reference::{by_bins, first_edition, job_without_zones, read_case};

/// What came of the files of edition 2 that can be read.
#[derive(Default, Clone, Copy, Debug, PartialEq)]
pub struct Editions {
    pub one_zone: u64,
    pub several: u64,
    /// lines in files of several zones, those of rakes counted singly
    pub lines: u64,
    /// those that end earlier than they do without zones
    pub cut: u64,
}

impl Editions {
    pub fn add(&mut self, other: &Self) {
        self.one_zone += other.one_zone;
        self.several += other.several;
        self.lines += other.lines;
        self.cut += other.cut;
    }

    pub fn line(&self) -> String {
        format!(
            "edition 2: {} files of one zone, answered as edition 1 by both sides; {} of several zones, in which {} \
             of {} lines end earlier than without zones and all others are the same",
            self.one_zone, self.several, self.cut, self.lines
        )
    }
}

/// The pair with its room in edition 1, and what the reference without zones gives for it.
pub struct First {
    pair: Pair,
    out: JobOut,
    one_zone: bool,
}

impl First {
    /// None for a file of edition 1, one that cannot be read, and angles closer than 2^-40.
    pub fn of(p: &Pair) -> Option<Self> {
        let pair = Pair { case: first_edition(&p.case)?, ..p.clone() };
        let zones = read_case(&p.case).ok()?.zones;
        let one_zone = zones.windows(2).all(|z| z[0] == z[1]);
        // a line that runs on may not fit where the one that ends does
        let enough = one_zone || p.lens.answers < (p.requests.len() / 64) as u64;
        let lens = if enough { p.lens } else { Lens { answers: 1 << 40, ..p.lens } };
        let mut stats = Stats::default();
        let out = job_without_zones(&pair.case, &pair.requests, lens, Order::Rust, &mut stats);
        (stats.near == 0).then_some(Self { pair, out, one_zone })
    }

    /// The library on the edition 1 file, where it is held to the same answers.
    pub fn held(&self, seed: u64, area: &mut Area) -> Result<(), String> {
        if !self.one_zone {
            return Ok(());
        }
        let got = area.run(&self.pair, seed);
        equal(&self.pair, &self.out, got, area, &mut Counts::default()).map_err(|why| format!("as edition 1: {why}"))
    }

    /// What is due in edition 2, held to edition 1.
    pub fn agrees(&self, due: &JobOut) -> Result<Editions, String> {
        if self.one_zone {
            return match self.out == *due {
                true => Ok(Editions { one_zone: 1, ..Editions::default() }),
                false => Err("with one zone edition 2 is due another answer than edition 1".into()),
            };
        }
        let mut found = Editions { several: 1, ..Editions::default() };
        let (first, second) = match (&self.out, due) {
            (JobOut::Done { answers: a, marks: m }, JobOut::Done { answers: b, marks: n }) => ((a, m), (b, n)),
            (first, second) if first == second => return Ok(found),
            _ => return Err("the zones decide whether the job is refused".into()),
        };
        for (i, (a, b)) in first.0.iter().zip(second.0).enumerate() {
            found.answer(self.pair.code(i), a, b).map_err(|why| format!("answer of request {i}: {why}"))?;
        }
        match (0..first.1.len()).find(|&cell| second.1[cell] && !first.1[cell]) {
            Some(cell) => Err(format!("cell {cell} is read with zones alone")),
            None => Ok(found),
        }
    }
}

impl Editions {
    /// One answer without zones and with them.
    fn answer(&mut self, code: u64, first: &Answer, second: &Answer) -> Result<(), String> {
        if second.refusal == 44 {
            return Ok(());
        }
        if second.refusal != first.refusal {
            return Err(format!("refused {} without zones, {} with them", first.refusal, second.refusal));
        }
        if ![3, 4, 13].contains(&by_bins(code)) || first.refusal != 0 {
            return if first == second { Ok(()) } else { Err("the zones change what is no line".into()) };
        }
        let (first, second) = (lines(code, &first.words), lines(code, &second.words));
        if first.len() != second.len() {
            return Err("another number of lines".into());
        }
        for (whole, line) in first.iter().zip(&second) {
            if !whole.starts_with(line) {
                return Err("a line is no beginning of the one without zones".into());
            }
            self.lines += 1;
            self.cut += (line.len() < whole.len()) as u64;
        }
        Ok(())
    }
}

/// The points of each line in an answer, without the counts.
pub fn lines(code: u64, words: &[u64]) -> Vec<&[u64]> {
    if by_bins(code) != 4 {
        return vec![&words[1..]];
    }
    let mut left = &words[1..];
    (0..words[0])
        .map(|_| {
            let (line, rest) = left[1..].split_at(3 * left[0] as usize);
            left = rest;
            line
        })
        .collect()
}
