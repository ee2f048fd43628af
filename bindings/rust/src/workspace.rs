//! The buffers that are lent to a job.
use crate::{raw, Case, Refusal};

/// How many answer words a job is lent at first.
const FIRST_ANSWERS: usize = 8_192;

/// The least lengths of the buffers of a job on a case.
#[derive(Clone, Copy, Debug, PartialEq, Eq)]
pub struct Needs {
    /// u32 words of the work area.
    pub words: usize,
    /// Floats of the work area.
    pub floats: usize,
    /// Marks, one for each cell.
    pub marks: usize,
}

/// How much a case needs, or why it is refused (1, 2, 3 or 45).
pub fn needs(case: &Case) -> Result<Needs, Refusal> {
    let bytes = case.as_bytes();
    let mut needs = [0_usize; 3];
    // SAFETY: both pointers come with the lengths of what they point to, which is borrowed during the call and does not overlap.
    let number = unsafe { raw::hookyellow_needs(bytes.as_ptr(), bytes.len(), needs.as_mut_ptr(), needs.len()) };
    accepted(number)?;
    let [words, floats, marks] = needs;
    Ok(Needs { words, floats, marks })
}

/// 0 is no refusal.
pub(crate) fn accepted(number: u64) -> Result<(), Refusal> {
    match number {
        0 => Ok(()),
        number => Err(Refusal::from_number(number)),
    }
}

/// The buffers of a job: work area (words and floats), marks and answers. One workspace serves any number of jobs; the buffers
/// grow to what a case needs and stay so.
///
/// A job starts with at least 8,192 answer words and 2 for each request. Where an answer does not fit (44), [`job`](crate::job)
/// and the single requests take four times as many and run again, until all fit or the limit of [`Workspace::set_answer_limit`]
/// is reached; only then 44 is given. The marks are the same under 44 as when the answer fits.
#[derive(Clone, Debug)]
pub struct Workspace {
    pub(crate) words: Vec<u32>,
    pub(crate) floats: Vec<f64>,
    pub(crate) marks: Vec<u8>,
    pub(crate) answers: Vec<u64>,
    answer_limit: usize,
}

impl Default for Workspace {
    fn default() -> Self {
        Self::new()
    }
}

impl Workspace {
    /// The limit of a new workspace: 2^24 answer words, 128 MiB. Any single request fits (a rake has at most 12,583,169 words).
    pub const ANSWER_LIMIT: usize = 1 << 24;

    /// Empty buffers, which grow with the first job.
    pub fn new() -> Self {
        Self::from_buffers(Vec::new(), Vec::new(), Vec::new(), Vec::new())
    }

    /// Buffers of the lengths that a case needs.
    pub fn for_case(case: &Case) -> Result<Self, Refusal> {
        let mut workspace = Self::new();
        workspace.fit(case)?;
        Ok(workspace)
    }

    /// The caller's own buffers, whatever they hold.
    pub fn from_buffers(words: Vec<u32>, floats: Vec<f64>, marks: Vec<u8>, answers: Vec<u64>) -> Self {
        Self { words, floats, marks, answers, answer_limit: Self::ANSWER_LIMIT }
    }

    /// Sets how many words the answers may grow to. Answers that are longer already stay as long, and 2 words for each request
    /// are always lent.
    pub fn set_answer_limit(&mut self, words: usize) {
        self.answer_limit = words;
    }

    /// The marks that the last job left: byte i below the number of cells is 1 if an accepted job read cell i.
    pub fn marks(&self) -> &[u8] {
        &self.marks
    }

    /// The answer words that the last job left.
    pub fn answers(&self) -> &[u64] {
        &self.answers
    }

    /// Runs one job on request bytes, with the buffers as long as they are. A refused job changes neither marks nor answers.
    pub fn run(&mut self, case: &Case, requests: &[u8]) -> Result<(), Refusal> {
        accepted(call!(hookyellow_job, case, self, requests.as_ptr(), requests.len()))
    }

    /// Lengthens the work area and the marks to what a case needs.
    pub(crate) fn fit(&mut self, case: &Case) -> Result<Needs, Refusal> {
        let needs = needs(case)?;
        lengthen(&mut self.words, needs.words);
        lengthen(&mut self.floats, needs.floats);
        lengthen(&mut self.marks, needs.marks);
        Ok(needs)
    }

    /// Makes a call that serves a number of requests, again with more answer words while one does not fit; gives the cells read.
    pub(crate) fn serve(&mut self, case: &Case, requests: usize, call: impl Fn(&mut Self) -> u64) -> Result<Vec<usize>, Refusal> {
        let cells = self.fit(case)?.marks;
        lengthen(&mut self.answers, FIRST_ANSWERS.min(self.answer_limit).max(requests.saturating_mul(2)));
        loop {
            accepted(call(self))?;
            let fits = self.answer_words(requests).all(|(refusal, _)| refusal != 44);
            if fits || !self.lengthen_answers() {
                break;
            }
        }
        Ok((0..cells).filter(|&cell| self.marks[cell] == 1).collect())
    }

    /// Each request's refusal and words.
    pub(crate) fn answer_words(&self, requests: usize) -> impl Iterator<Item = (u64, &[u64])> {
        let mut left = &self.answers[..];
        (0..requests).map(move |_| take_answer(&mut left))
    }

    /// Whether there is room below the limit.
    fn lengthen_answers(&mut self) -> bool {
        let length = self.answers.len().saturating_mul(4).min(self.answer_limit);
        let longer = length > self.answers.len();
        lengthen(&mut self.answers, length);
        longer
    }
}

/// The refusal and the words of the next answer; (0, none) where they are not of the format.
fn take_answer<'a>(left: &mut &'a [u64]) -> (u64, &'a [u64]) {
    let whole = *left;
    let &[refusal, count, ref rest @ ..] = whole else { return (0, &[]) };
    let Some((words, rest)) = usize::try_from(count).ok().and_then(|count| rest.split_at_checked(count)) else {
        return (0, &[]);
    };
    *left = rest;
    (refusal, words)
}

fn lengthen<T: Clone + Default>(buffer: &mut Vec<T>, length: usize) {
    if buffer.len() < length {
        buffer.resize(length, T::default());
    }
}
