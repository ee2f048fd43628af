//! What came of the pairs: how often each code and each refusal came, over which fields and arguments.
use crate::border::{INDEXES, INDEXES_MADE, PLACES, PLACES_MADE};
use crate::edges::{EDGES, EDGES_MADE};
use crate::lines::{POINTS, POINTS_MADE};
use crate::pairs::Pair;
use crate::planes::{PLANES, PLANES_MADE};
use crate::sheets::{SEEDS, SEEDS_MADE};
use crate::zone_faults::{FAULTS, FAULTS_MADE};
use crate::zone_rooms::{CUTTINGS, CUTTINGS_MADE};
use crate::zones;
use reference::refair::{Answer, Case, JobOut};
use reference::{by_bins, codes, read_case, used_words};
use std::collections::BTreeMap;
use std::fmt::Write;
use std::sync::atomic::{AtomicU64, Ordering::Relaxed};

const NAN: u64 = 0x7ff8_0000_0000_0000;
/// The refusals of a job; 18 has no case (docs/DIFFERENCES.md).
fn job_refusals() -> impl Iterator<Item = u32> {
    (1..=19).chain([45])
}
const REFUSALS: std::ops::RangeInclusive<u32> = 30..=44;
/// By the second word of codes 1 and 9.
const POSITIONS: [&str; 3] = ["nowhere", "edge", "inside"];
const FIELDS: [&str; 6] = ["NaN", "infinite", "subnormal", "huge", "read it", "argument"];

#[derive(Default)]
pub struct Tally {
    jobs: BTreeMap<u32, u64>,
    requests: BTreeMap<(u64, u32), u64>,
    /// by code: requests on a case with such a field, and with such an argument
    fields: BTreeMap<u64, [u64; 6]>,
    kinds: BTreeMap<(u64, &'static str), u64>,
    sorts: BTreeMap<String, u64>,
    limits: BTreeMap<(String, u32), u64>,
    sheets: BTreeMap<&'static str, u64>,
    /// served jobs with a sheet, and with a request among all cells
    with_sheet: u64,
    among_all: u64,
    nans: u64,
}

/// Is it a NaN, infinite, subnormal or beyond 1e150 in size?
fn oddness(x: f64) -> [bool; 4] {
    [x.is_nan(), x.is_infinite(), x.is_subnormal(), x.is_finite() && x.abs() > 1e150]
}

fn fields_of(case: &Case, cell: usize) -> [f64; 4] {
    let v = case.velocity[cell];
    [v.x, v.y, v.z, case.pressure[cell]]
}

fn kind_of(code: u64, w: &[u64]) -> &'static str {
    match by_bins(code) {
        1 => POSITIONS[w[1] as usize],
        2 if w[0] == 0 => "nowhere",
        2 => "located",
        3 | 13 => match w[0] {
            1 => "one point",
            2..=50 => "to 50 points",
            51..=65_536 => "to 65,536 points",
            _ => "all 65,537 points",
        },
        4 if w[0] == 64 => "of 64 lines",
        4 => "of fewer lines",
        5 if w[0] == 0 => "no polygon",
        5 => "polygons",
        6 if w[10] == 0 => "no flux",
        6 if w[12] << 1 == 0 => "one-way flux",
        6 => "flux both ways",
        7 => "integrals",
        _ if w[0] == u64::MAX => "none",
        _ => "found",
    }
}

impl Tally {
    pub fn count(&mut self, p: &Pair, out: &JobOut) {
        let refusal = if let JobOut::Refused(k) = out { *k } else { 0 };
        let sort = p.sort.split(' ').take(2).collect::<Vec<_>>().join(" ");
        let edited = p.sort.contains("fault") || p.sort.contains("edge");
        if !edited && (p.sort.starts_with("limit ") || sort == "2D long") {
            *self.limits.entry((p.sort.trim_start_matches("limit ").to_string(), refusal)).or_default() += 1;
        }
        *self.sorts.entry(sort).or_default() += 1;
        *self.jobs.entry(refusal).or_default() += 1;
        let JobOut::Done { answers, marks } = out else { return };
        let case = read_case(&p.case).ok().expect("a served case is readable").case;
        let (mut held, mut read) = ([false; 4], false);
        for cell in 0..marks.len() {
            for x in fields_of(&case, cell) {
                let odd = oddness(x);
                held = std::array::from_fn(|k| held[k] || odd[k]);
                read |= marks[cell] && !x.is_finite();
            }
        }
        for (i, a) in answers.iter().enumerate() {
            self.count_answer(p, i, a, held, read);
            let after_line = i > 0 && [(3, 13), (11, 14)].contains(&(p.code(i - 1), p.code(i)));
            if after_line && (1..16).all(|k| p.word(i, k) == p.word(i - 1, k)) {
                self.count_sheet(&answers[i - 1], a);
            }
        }
        self.with_sheet += (0..answers.len()).any(|i| by_bins(p.code(i)) == 13) as u64;
        self.among_all += (0..answers.len()).any(|i| by_bins(p.code(i)) != p.code(i)) as u64;
    }

    fn count_answer(&mut self, p: &Pair, i: usize, a: &Answer, held: [bool; 4], read: bool) {
        let code = p.code(i);
        let code = if used_words(code).is_some() { code } else { 0 };
        *self.requests.entry((code, a.refusal)).or_default() += 1;
        let argument = (1..used_words(code).unwrap_or(1)).any(|k| oddness(f64::from_bits(p.word(i, k))) != [false; 4] && p.word(i, k) > 65_537);
        let had = self.fields.entry(code).or_default();
        for (n, yes) in had.iter_mut().zip([held[0], held[1], held[2], held[3], read, argument]) {
            *n += yes as u64;
        }
        self.nans += a.words.iter().filter(|w| **w == NAN).count() as u64;
        if a.refusal == 0 {
            *self.kinds.entry((code, kind_of(code, &a.words))).or_default() += 1;
        }
    }

    /// A sheet after the line with the same arguments.
    fn count_sheet(&mut self, line: &Answer, sheet: &Answer) {
        if line.refusal != 0 || sheet.refusal != 0 {
            return;
        }
        let flat = || line.words[1..].chunks_exact(3).flat_map(|p| [f64::from_bits(p[0]), f64::from_bits(p[1])]);
        let size = |w: &u64| (*w as i64).unsigned_abs();
        let found = [
            ("sheets after their line", 1),
            ("points of these lines", line.words[0]),
            ("points dropped", line.words[0] - sheet.words[0]),
            ("coordinates on a half", flat().filter(|x| (x * 16.0) % 2.0 == 1.0 || (x * 16.0) % 2.0 == -1.0).count() as u64),
            ("subnormal coordinates", flat().filter(|x| x.is_subnormal()).count() as u64),
            ("negative numbers", sheet.words[1..].iter().filter(|w| (**w as i64) < 0).count() as u64),
            ("numbers from 2^29 on", sheet.words[1..].iter().filter(|w| size(w) >> 29 > 0).count() as u64),
        ];
        for (name, n) in found {
            *self.sheets.entry(name).or_default() += n;
        }
    }

    /// What was made and what came of it, before the table.
    pub fn summary(&self) -> String {
        let pairs = |names: &[&str], made: &[AtomicU64]| {
            names.iter().zip(made).map(|(s, n)| format!("{s} {}", n.load(Relaxed))).collect::<Vec<_>>().join(", ")
        };
        let limits: Vec<String> = self.limits.iter().map(|((s, k), n)| format!("{s}: {n} gave {k}")).collect();
        format!(
            "cases: {}\nlimits: {}\npoints made here: {}\nplanes made here: {}\nseeds of sheets made here: {}\n\
             points by the border made here: {}\nrooms by the border: {}\npoints by edges made here: {}\n\
             rooms cut into zones here: {}\nseeds by zones made here: {}\nfaults of edition 2 made here: {}\n\
             {} served jobs with a request among all cells\n{} served jobs with a sheet; {}\nanswers: {}; {} words are NaN\n",
            self.sorts.iter().map(|(s, n)| format!("{s} {n}")).collect::<Vec<_>>().join(", "),
            limits.join(", "),
            pairs(&POINTS, &POINTS_MADE),
            pairs(&PLANES, &PLANES_MADE),
            pairs(&SEEDS, &SEEDS_MADE),
            pairs(&PLACES, &PLACES_MADE),
            pairs(&INDEXES, &INDEXES_MADE),
            pairs(&EDGES, &EDGES_MADE),
            pairs(&CUTTINGS, &CUTTINGS_MADE),
            pairs(&zones::SEEDS, &zones::SEEDS_MADE),
            pairs(&FAULTS, &FAULTS_MADE),
            self.among_all,
            self.with_sheet,
            self.sheets.iter().map(|(s, n)| format!("{s} {n}")).collect::<Vec<_>>().join(", "),
            self.kinds.iter().map(|((code, s), n)| format!("{code} {s}: {n}")).collect::<Vec<_>>().join(", "),
            self.nans
        )
    }

    fn of(&self, code: u64, refusal: u32) -> u64 {
        self.requests.get(&(code, refusal)).copied().unwrap_or(0)
    }

    fn refused(&self, refusal: u32) -> u64 {
        self.of(0, refusal) + codes().iter().map(|&code| self.of(code, refusal)).sum::<u64>()
    }

    /// How often each code and each refusal came.
    pub fn table(&self) -> String {
        let mut s = String::from("jobs by refusal (0: served)\n");
        for k in std::iter::once(0).chain(job_refusals()) {
            write!(s, "  {k}: {}", self.jobs.get(&k).copied().unwrap_or(0)).expect("a string takes it");
        }
        s += "\nrequests of served jobs, by code and refusal (0: answered)\n code       0";
        for k in REFUSALS {
            write!(s, "{k:>7}").expect("a string takes it");
        }
        for code in std::iter::once(0).chain(codes()) {
            let name = if code == 0 { "else".into() } else { code.to_string() };
            write!(s, "\n {name:>4}{:>8}", self.of(code, 0)).expect("a string takes it");
            for k in REFUSALS {
                write!(s, "{:>7}", self.of(code, k)).expect("a string takes it");
            }
        }
        s + "\n" + &self.field_table() + &self.missing()
    }

    fn field_table(&self) -> String {
        let mut s = String::from("of these, on a case with such a field; whose job read one that is not finite; with such an argument\n code");
        for name in FIELDS {
            write!(s, "{name:>11}").expect("a string takes it");
        }
        for code in codes() {
            write!(s, "\n {code:>4}").expect("a string takes it");
            for n in self.fields.get(&code).unwrap_or(&[0; 6]) {
                write!(s, "{n:>11}").expect("a string takes it");
            }
        }
        s + "\n"
    }

    fn missing(&self) -> String {
        let list = |it: Vec<String>| if it.is_empty() { "none".to_string() } else { it.join(" ") };
        let jobs = job_refusals().filter(|k| !self.jobs.contains_key(k)).map(|k| k.to_string()).collect();
        let codes = codes().into_iter().filter(|&c| self.of(c, 0) == 0).map(|c| c.to_string()).collect();
        let requests = REFUSALS.filter(|&k| self.refused(k) == 0).map(|k| k.to_string()).collect();
        let positions = [1, 9].into_iter().flat_map(|code| POSITIONS.map(|s| (code, s)));
        let positions = positions.filter(|key| !self.kinds.contains_key(key));
        let positions = positions.map(|(code, s)| format!("{code} {s}")).collect();
        format!(
            "never came: refusals of jobs {}, answered codes {}, refusals of requests {}, positions {}\n",
            list(jobs), list(codes), list(requests), list(positions)
        )
    }
}
