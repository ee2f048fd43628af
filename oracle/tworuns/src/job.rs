//! A job of the static library, and how it ends.
use hookyellow::raw::hookyellow_job;
use reference::refair::gen::Pair;
use reference::refair::Lens;

pub struct Job {
    pub case: Vec<u8>,
    requests: Vec<u8>,
    lens: Lens,
}

/// All that a job leaves.
pub struct End {
    pub result: u64,
    pub marks: Vec<u8>,
    answers: Vec<u64>,
}

/// Bits that follow from a seed.
struct Garbage(u64);
impl Iterator for Garbage {
    type Item = u64;
    fn next(&mut self) -> Option<u64> {
        self.0 = self.0.wrapping_mul(6_364_136_223_846_793_005).wrapping_add(1_442_695_040_888_963_407);
        Some(self.0 ^ self.0 >> 29)
    }
}

impl Job {
    pub fn of(pair: Pair) -> Job {
        Job { case: pair.case, requests: pair.req, lens: pair.lens }
    }

    /// Is there a request of such a code?
    pub fn asks(&self, code: impl Fn(u64) -> bool) -> bool {
        let first = |request: &[u8]| u64::from_le_bytes(request[..8].try_into().expect("eight bytes"));
        self.requests.chunks_exact(128).any(|request| code(first(request)))
    }

    /// Runs the job on a case. The work area holds garbage of the seed; marks and answers hold the same in every run.
    pub fn run(&self, case: &[u8], garbage: u64) -> End {
        let mut words: Vec<u32> = Garbage(garbage).map(|g| g as u32).take(self.lens.words as usize).collect();
        let mut floats: Vec<f64> = Garbage(!garbage).map(f64::from_bits).take(self.lens.floats as usize).collect();
        let mut marks = vec![0xa5; self.lens.marks as usize];
        let mut answers = vec![0x5a5a_a5a5_1234_8765; self.lens.answers as usize];
        let result = unsafe {
            hookyellow_job(
                case.as_ptr(),
                case.len(),
                self.requests.as_ptr(),
                self.requests.len(),
                words.as_mut_ptr(),
                words.len(),
                floats.as_mut_ptr(),
                floats.len(),
                marks.as_mut_ptr(),
                marks.len(),
                answers.as_mut_ptr(),
                answers.len(),
            )
        };
        End { result, marks, answers }
    }
}

impl End {
    /// What differs first, if anything.
    pub fn difference(&self, other: &End) -> Option<String> {
        if self.result != other.result {
            return Some(format!("results {} and {}", self.result, other.result));
        }
        if let Some(i) = (0..self.answers.len()).find(|&i| self.answers[i] != other.answers[i]) {
            return Some(format!("answer word {i} is {:016x} and {:016x}", self.answers[i], other.answers[i]));
        }
        let i = (0..self.marks.len()).find(|&i| self.marks[i] != other.marks[i])?;
        Some(format!("byte {i} of the marks is {} and {}", self.marks[i], other.marks[i]))
    }
}
