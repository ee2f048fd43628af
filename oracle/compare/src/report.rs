//! Where a pair that differs is written, and the words in which a job that dies is named.
use crate::buffers::Area;
use crate::judge::{judge, Outcome, Verdict};
use crate::pairs::{Mode, Pair};
use crate::shrink::shrink;
use reference::refair::print;
use std::path::{Path, PathBuf};
use std::sync::atomic::{AtomicBool, AtomicU64, Ordering::Relaxed};

extern "C" {
    // of the C library: to name the seed in which a job dies or does not end
    fn signal(number: i32, handler: extern "C" fn(i32)) -> usize;
    fn write(file: i32, bytes: *const u8, length: usize) -> isize;
    fn _exit(status: i32) -> !;
}

/// The seed that runs.
pub static SEED: AtomicU64 = AtomicU64::new(0);
static QUIET: AtomicBool = AtomicBool::new(false);

extern "C" fn died(number: i32) {
    let mut text = *b"died or did not end (signal   ) in seed                     \n";
    let digits = |text: &mut [u8], mut x: u64| {
        for d in text.iter_mut().rev() {
            *d = b'0' + (x % 10) as u8;
            x /= 10;
            if x == 0 {
                break;
            }
        }
    };
    digits(&mut text[28..30], number as u64);
    digits(&mut text[40..60], SEED.load(Relaxed));
    unsafe {
        write(1, text.as_ptr(), text.len());
        _exit(3)
    }
}

/// From here on a signal or a panic names its seed.
pub fn watch() {
    // illegal instruction, trap, abort, bus error, arithmetic error, segment, alarm
    for number in [4, 5, 6, 7, 8, 11, 14] {
        unsafe { signal(number, died) };
    }
    std::panic::set_hook(Box::new(|p| {
        if !QUIET.load(Relaxed) {
            println!("panic in seed {}: {p}", SEED.load(Relaxed));
        }
    }));
}

pub struct Report {
    pub dir: PathBuf,
    pub mode: Mode,
    /// how many pairs may still be written and made smaller
    pub left: u32,
}

impl Report {
    /// Names a difference; may it be written?
    pub fn named(&mut self, seed: u64, sort: &str, why: &str) -> bool {
        println!("seed {seed}{} ({sort}): {why}", self.mode.name());
        let written = self.left > 0;
        self.left -= written as u32;
        written
    }

    /// Names a pair that differs, writes it, makes it smaller and writes that. The outcome is the last of the area.
    pub fn differ(&mut self, pair: &Pair, seed: u64, outcome: &Outcome, area: &mut Area) -> std::io::Result<()> {
        let Verdict::Differ(why) = &outcome.verdict else { return Ok(()) };
        if !self.named(seed, &pair.sort, why) {
            return Ok(());
        }
        let folder = self.dir.join(seed.to_string());
        put_outcome(&folder.join("whole"), pair, outcome, area)?;
        let (small, outcome) = smaller(pair, seed, area);
        let why = match &outcome.verdict {
            Verdict::Differ(why) => why.clone(),
            _ => format!("{why}; run again it does not differ, so what the job before it left matters"),
        };
        println!("  made smaller, {} case and {} request bytes: {why}", small.case.len(), small.requests.len());
        put_outcome(&folder, &small, &outcome, area)?;
        put(&folder, "README", self.readme(pair, &small, seed, &why))?;
        println!("  written to {}", folder.display());
        Ok(())
    }

    fn readme(&self, whole: &Pair, small: &Pair, seed: u64, why: &str) -> String {
        let l = small.lens;
        format!(
            "A pair that differs: seed {seed}{mode}, made as: {sort}\n\n{why}\n\ncase.bin and requests.bin were made smaller from \
             whole/ ({a} and {b} bytes to {c} and {d}).\nLent: {args}\nours.txt is what the library gave, theirs.txt what it is held \
             to.\n\nThe reference alone: refjob2 --until {landed} case.bin requests.bin {args} --nolimit\nBoth again, from the \
             seed: cargo run --offline --release -p compare -- {seed} 1{mode}\n",
            mode = self.mode.name(),
            sort = whole.sort,
            a = whole.case.len(),
            b = whole.requests.len(),
            c = small.case.len(),
            d = small.requests.len(),
            landed = reference::LANDED,
            args = format!("--words {} --floats {} --marks {} --answers {}", l.words, l.floats, l.marks, l.answers),
        )
    }
}

/// The smallest pair found that differs still in the same way, and its outcome, the last that ran in the area.
pub fn smaller(pair: &Pair, seed: u64, area: &mut Area) -> (Pair, Outcome) {
    quietly(|| {
        let way = way_of(&judge(pair, seed, area));
        let small = shrink(pair, &mut |p| way.is_some() && way_of(&judge(p, seed, area)) == way);
        let outcome = judge(&small, seed, area);
        (small, outcome)
    })
}

/// Where panics of the reference are not told.
pub fn quietly<T>(run: impl FnOnce() -> T) -> T {
    QUIET.store(true, Relaxed);
    let result = run();
    QUIET.store(false, Relaxed);
    result
}

/// How a pair differs.
fn way_of(o: &Outcome) -> Option<String> {
    let Verdict::Differ(why) = &o.verdict else { return None };
    Some(way(why))
}

/// The words of a difference before its first number.
pub fn way(why: &str) -> String {
    why.chars().take_while(|c| !c.is_ascii_digit()).collect()
}

pub fn put(folder: &Path, name: &str, bytes: impl AsRef<[u8]>) -> std::io::Result<()> {
    std::fs::write(folder.join(name), bytes)
}

/// A pair with what both gave.
fn put_outcome(folder: &Path, p: &Pair, outcome: &Outcome, area: &Area) -> std::io::Result<()> {
    put_pair(folder, p)?;
    put(folder, "ours.txt", area.shown(p, outcome.got))?;
    put(folder, "theirs.txt", outcome.want.as_ref().map_or("the reference fails\n".into(), print))
}

/// Case, requests and the lengths of the buffers.
pub fn put_pair(folder: &Path, p: &Pair) -> std::io::Result<()> {
    std::fs::create_dir_all(folder)?;
    put(folder, "case.bin", &p.case)?;
    put(folder, "requests.bin", &p.requests)?;
    let l = p.lens;
    put(folder, "args.txt", format!("--words {} --floats {} --marks {} --answers {} --nolimit\n", l.words, l.floats, l.marks, l.answers))
}
