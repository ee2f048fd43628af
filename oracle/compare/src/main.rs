//! Runs generated pairs (case, requests) by the proved code and by the reference job around FLURSYS's own code in one
//! process, and compares the result, every word of the answer buffer by its bits and every byte of the marks buffer.
//!
//!     tools/staticlib capi && (cd oracle && cargo run --offline --release -p compare -- FIRST COUNT)
//!
//! runs the pairs of the seeds from FIRST on, COUNT of them (REFERENCE names the folder of the
//! reference job, see reference/build.rs). --lines, --planes, --sheets, --border and --edges make
//! rooms that are nearly all accepted, --zones edition 2 files, a sixth of them with a fault; --all
//! adds damaged files, lengths beside every limit and the pairs of the reference's own generators.
//! Without them three sixteenths are lines, as many planes, an eighth each sheets, border and zones,
//! a sixteenth edges and the rest all, and one in 300 has the greatest counts. In every mode but
//! --zones an eighth of the files are put into edition 2, with --files half. --dir DIR says where
//! pairs that differ are written (target/compare.differ), each in a folder of its seed: made smaller,
//! and whole/ as it was. --write writes every pair and runs neither side.
//!
//! --files runs the writer and the converter: two inputs of each for a seed, result and output of
//! both sides compared byte by byte, and the case of a pair through the library alone
//! (file_judge.rs). Without a mode each seed has one input of each beside its pair.
//!
//! An edition 2 file whose cells are all of one zone must be answered as the edition 1 file of the
//! same contents is, by both sides; editions.rs has this and what holds of several zones.
//!
//! Where a point is asked for by its bin and then among all cells (codes 1 and 9), the second cell
//! must be the first or a lower one; how often each comes is printed, and how many points are on an
//! edge, inside and nowhere. Their cells are also held to FLURSYS's own locator.
//!
//! A pair in which the reference sees angles closer than 2^-40 counts as near; where the library is not as the Rust there,
//! it is held to the reference under 01's angle order. The last line is 'N same, M differ, K near'; the exit status is 0
//! only where M is 0.
mod border;
mod buffers;
mod damage;
mod edges;
mod editions;
mod fields;
mod file_buffers;
mod file_judge;
mod file_report;
mod files;
mod judge;
mod limits;
mod lines;
mod located;
mod locators;
mod meshes;
mod names;
mod pairs;
mod planes;
mod report;
mod room;
mod run;
mod sheets;
mod shrink;
mod tally;
#[cfg(test)]
mod border_tests;
#[cfg(test)]
mod converter_tests;
#[cfg(test)]
mod edge_tests;
#[cfg(test)]
mod edition_tests;
#[cfg(test)]
mod file_tests;
#[cfg(test)]
mod sheet_tests;
#[cfg(test)]
mod tests;
#[cfg(test)]
mod writer_tests;
#[cfg(test)]
mod zone_tests;
mod vectors;
mod zone_faults;
mod zone_rooms;
mod zones;

use buffers::Area;
use file_buffers::{Desk, Library};
use file_judge::{judge_case, judge_input};
use files::{one_each, two_each};
use judge::judge;
use pairs::{made, Mode, Pair};
use report::{put_pair, watch, Report, SEED};
use run::Run;
use std::path::PathBuf;
use std::process::ExitCode;
use std::sync::atomic::Ordering::Relaxed;

const USAGE: &str =
    "usage: compare FIRST COUNT [--lines|--planes|--sheets|--border|--edges|--zones|--files|--all] [--dir DIR] [--write]";
/// So many pairs that differ are written and made smaller; later ones are named only.
const WRITTEN: u32 = 20;

struct Options {
    first: u64,
    count: u64,
    mode: Mode,
    dir: PathBuf,
    write: bool,
}

impl Options {
    fn read() -> Option<Self> {
        let dir = PathBuf::from(concat!(env!("CARGO_MANIFEST_DIR"), "/../target/compare.differ"));
        let mut o = Self { first: 0, count: 0, mode: Mode::Mixed, dir, write: false };
        let mut numbers = Vec::new();
        let mut args = std::env::args().skip(1);
        while let Some(a) = args.next() {
            match a.as_str() {
                "--lines" => o.mode = Mode::Lines,
                "--planes" => o.mode = Mode::Planes,
                "--sheets" => o.mode = Mode::Sheets,
                "--border" => o.mode = Mode::Border,
                "--edges" => o.mode = Mode::Edges,
                "--zones" => o.mode = Mode::Zones,
                "--files" => o.mode = Mode::Files,
                "--all" => o.mode = Mode::All,
                "--write" => o.write = true,
                "--dir" => o.dir = args.next()?.into(),
                _ => numbers.push(a.parse().ok()?),
            }
        }
        [o.first, o.count] = numbers.try_into().ok()?;
        o.first.checked_add(o.count)?;
        Some(o)
    }
}

/// Both sides, and what came of them.
struct Both {
    area: Area,
    desk: Desk,
    report: Report,
    run: Run,
    mode: Mode,
}

impl Both {
    fn seed(&mut self, seed: u64) -> std::io::Result<()> {
        SEED.store(seed, Relaxed);
        let pair = made(seed, self.mode);
        let files = self.files(&pair, seed)?;
        if self.mode == Mode::Files {
            self.run.same += files as u64;
            self.run.differ += !files as u64;
            return Ok(());
        }
        let outcome = judge(&pair, seed, &mut self.area);
        self.run.add(seed, &outcome, files);
        if let Some(want) = &outcome.want {
            self.run.tally.count(&pair, want);
        }
        self.report.differ(&pair, seed, &outcome, &mut self.area)
    }

    /// The inputs of the writer and the converter, and with --files the case; true where all are
    /// the same.
    fn files(&mut self, pair: &Pair, seed: u64) -> std::io::Result<bool> {
        let mut same = true;
        let inputs = match self.mode {
            Mode::Files => two_each(&pair.case, seed),
            Mode::Mixed => one_each(&pair.case, seed),
            _ => return Ok(true),
        };
        for input in &inputs {
            match judge_input(input, seed, &mut self.desk) {
                Ok(files) => self.run.files.add(&files),
                Err(why) => {
                    same = false;
                    self.report.input(input, seed, &why, &mut self.desk)?;
                }
            }
        }
        if self.mode == Mode::Files {
            match judge_case(pair, seed, &mut self.desk, &mut self.area) {
                Ok(files) => self.run.files.add(&files),
                Err(why) => {
                    same = false;
                    self.report.case(pair, seed, &why)?;
                }
            }
        }
        Ok(same)
    }
}

fn compare(o: &Options) -> std::io::Result<bool> {
    watch();
    let area = Area::of(hookyellow::raw::hookyellow_job);
    let report = Report { dir: o.dir.clone(), mode: o.mode, left: WRITTEN };
    let mut both = Both { area, desk: Desk::of(Library::linked()), report, run: Run::new(), mode: o.mode };
    for seed in o.first..o.first + o.count {
        both.seed(seed)?;
        both.run.progress(seed + 1 - o.first, o.count);
    }
    both.run.summary(o.mode, o.count);
    Ok(both.run.differ == 0)
}

fn write_all(o: &Options) -> std::io::Result<bool> {
    for seed in o.first..o.first + o.count {
        put_pair(&o.dir.join(seed.to_string()), &made(seed, o.mode))?;
    }
    println!("{} pairs written to {}", o.count, o.dir.display());
    Ok(true)
}

fn main() -> ExitCode {
    let Some(o) = Options::read() else {
        eprintln!("{USAGE}");
        return ExitCode::from(2);
    };
    match if o.write { write_all(&o) } else { compare(&o) } {
        Ok(true) => ExitCode::SUCCESS,
        Ok(false) => ExitCode::FAILURE,
        Err(e) => {
            eprintln!("{}: {e}", o.dir.display());
            ExitCode::from(2)
        }
    }
}
