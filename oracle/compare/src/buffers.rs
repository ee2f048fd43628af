//! The lent buffers of a job: each lies between guard words, at changing alignments. Marks and answers hold random
//! numbers before a job; the work area holds random numbers, ones, zeros or what the job before it left.
use crate::pairs::Pair;
use reference::read_case;
use reference::refair::gen::Rng;

extern "C" {
    // of the C library: a job that does not end is ended by a signal
    fn alarm(seconds: u32) -> u32;
}

/// hookyellow_job, or in the tests a wrong one.
pub type Library =
    unsafe extern "C" fn(*const u8, usize, *const u8, usize, *mut u32, usize, *mut f64, usize, *mut u8, usize, *mut u64, usize) -> u64;

const GUARD: usize = 256;
/// How long a job may take, in seconds.
const LONGEST: u32 = 120;

/// Makes a call that is ended by a signal where it does not end.
pub fn timed<T>(call: impl FnOnce() -> T) -> T {
    unsafe { alarm(LONGEST) };
    let result = call();
    unsafe { alarm(0) };
    result
}

/// What a lent buffer holds before a job.
pub enum Held<'a, T> {
    /// what the job before it left
    Left,
    All(T),
    /// the list, again and again
    List(&'a [T]),
}

/// A buffer with guard words before and after what is lent.
pub struct Lent<T> {
    name: &'static str,
    all: Vec<T>,
    guard: T,
    from: usize,
    len: usize,
}

impl<T: Copy + PartialEq> Lent<T> {
    pub fn new(name: &'static str, guard: T) -> Self {
        Self { name, all: Vec::new(), guard, from: 0, len: 0 }
    }

    pub fn lend(&mut self, from: usize, len: usize, held: Held<T>) -> (*mut T, usize) {
        (self.from, self.len) = (GUARD + from, len);
        let end = self.from + len;
        if self.all.len() < end + GUARD {
            self.all.resize(end + GUARD, self.guard);
        }
        self.all[..self.from].fill(self.guard);
        self.all[end..end + GUARD].fill(self.guard);
        let inner = &mut self.all[self.from..end];
        match held {
            Held::Left => {}
            Held::All(x) => inner.fill(x),
            Held::List(h) => inner.chunks_mut(h.len().max(1)).for_each(|part| part.copy_from_slice(&h[..part.len()])),
        }
        // of the whole buffer, so that a write beyond what is lent meets a guard
        (self.all[self.from..].as_mut_ptr(), len)
    }

    pub fn lent(&self) -> &[T] {
        &self.all[self.from..self.from + self.len]
    }

    pub fn intact(&self) -> Result<(), String> {
        let end = self.from + self.len;
        if let Some(i) = self.all[..self.from].iter().position(|g| *g != self.guard) {
            return Err(format!("place {} before {} was written", self.from - i, self.name));
        }
        match self.all[end..end + GUARD].iter().position(|g| *g != self.guard) {
            Some(i) => Err(format!("place {i} after {} (of {}) was written", self.name, self.len)),
            None => Ok(()),
        }
    }
}

pub struct Area {
    library: Library,
    case: Lent<u8>,
    requests: Lent<u8>,
    words: Lent<u32>,
    floats: Lent<u64>,
    marks: Lent<u8>,
    answers: Lent<u64>,
    pattern: Vec<u64>,
    marks_held: usize,
    answers_held: usize,
}

fn bytes_of(p: &[u64]) -> &[u8] {
    unsafe { p.align_to::<u8>().1 }
}

impl Area {
    pub fn of(library: Library) -> Self {
        let r = &mut Rng::new(7);
        Self {
            library,
            case: Lent::new("the case", 0xa5),
            requests: Lent::new("the requests", 0x5a),
            words: Lent::new("the work words", 0xc0ff_ee11),
            floats: Lent::new("the work floats", 0x7ff4_c0ff_ee22_0001),
            marks: Lent::new("the marks", 0xe7),
            answers: Lent::new("the answers", 0xfeed_face_cafe_f00d),
            pattern: (0..1 << 18).map(|_| r.next()).collect(),
            marks_held: 0,
            answers_held: 0,
        }
    }

    /// Runs the library on a pair; the seed decides what the buffers hold and where they lie.
    pub fn run(&mut self, j: &Pair, seed: u64) -> u64 {
        let r = &mut Rng::new(!seed);
        let at = |r: &mut Rng| r.below(4096);
        let p = &self.pattern;
        (self.marks_held, self.answers_held) = (at(r), at(r));
        let l = j.lens;
        let (w, f) = match r.below(16) {
            0..=8 => (Held::List(unsafe { &p.align_to::<u32>().1[at(r)..] }), Held::List(&p[at(r)..])),
            9..=12 => (Held::Left, Held::Left),
            13 => (Held::All(u32::MAX), Held::All(u64::MAX)),
            _ => (Held::All(0), Held::All(0)),
        };
        let (a, an) = self.case.lend(at(r) % 8, j.case.len(), Held::List(&j.case));
        let (b, bn) = self.requests.lend(at(r) % 8, j.requests.len(), Held::List(&j.requests));
        let (c, cn) = self.words.lend(at(r) % 8, l.words as usize, w);
        let (d, dn) = self.floats.lend(at(r) % 8, l.floats as usize, f);
        let (e, en) = self.marks.lend(at(r) % 8, l.marks as usize, Held::List(&bytes_of(p)[self.marks_held..]));
        let (g, gn) = self.answers.lend(at(r) % 8, l.answers as usize, Held::List(&p[self.answers_held..]));
        timed(|| unsafe { (self.library)(a, an, b, bn, c, cn, d.cast(), dn, e, en, g, gn) })
    }

    pub fn answers(&self) -> &[u64] {
        self.answers.lent()
    }
    pub fn marks(&self) -> &[u8] {
        self.marks.lent()
    }
    /// What the answers held before the job.
    pub fn answers_before(&self) -> &[u64] {
        &self.pattern[self.answers_held..][..self.answers.len]
    }
    pub fn marks_before(&self) -> &[u8] {
        &bytes_of(&self.pattern)[self.marks_held..][..self.marks.len]
    }

    /// The guards stand, and neither the case nor the requests were written.
    pub fn intact(&self, j: &Pair) -> Result<(), String> {
        self.answers.intact()?;
        self.marks.intact()?;
        self.words.intact()?;
        self.floats.intact()?;
        self.case.intact()?;
        self.requests.intact()?;
        if self.case.lent() != j.case || self.requests.lent() != j.requests {
            return Err("the case or the requests were written".into());
        }
        Ok(())
    }

    /// What the library gave, in the form of airjob, as far as it can be read.
    pub fn shown(&self, j: &Pair, got: u64) -> String {
        if got != 0 {
            return format!("refused {got}\n");
        }
        let (a, mut at) = (self.answers.lent(), 0);
        let mut s = String::new();
        for _ in 0..j.requests.len() / 128 {
            let head = |i: usize| a.get(at + i).copied().unwrap_or(0);
            s += &format!("{} {}", head(0), head(1));
            let n = (head(1) as usize).min(a.len().saturating_sub(at + 2));
            for w in a.get(at + 2..at + 2 + n).unwrap_or(&[]) {
                s += &format!(" {w:016x}");
            }
            at = at.saturating_add(2 + n);
            s.push('\n');
        }
        s += "read";
        let c = read_case(&j.case).map_or(0, |c| c.zones.len());
        for (i, m) in self.marks.lent().iter().take(c).enumerate() {
            match m {
                0 => {}
                1 => s += &format!(" {i}"),
                m => s += &format!(" {i}={m}"),
            }
        }
        s + "\n"
    }
}
