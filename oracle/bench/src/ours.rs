//! The proved code: the exported job on case bytes, with buffers that are lent once and used again.
use crate::rows::Request;
use hookyellow::raw::{hookyellow_job, hookyellow_needs};
use reference::by_bins;

pub struct Ours {
    case: Vec<u8>,
    words: Vec<u32>,
    floats: Vec<f64>,
    marks: Vec<u8>,
    pub answers: Vec<u64>,
}

pub fn bytes(list: &[Request]) -> Vec<u8> {
    list.iter().flatten().flat_map(|word| word.to_le_bytes()).collect()
}

/// At least as many answer words as a request can need, a section of at most `cells` hexahedra included.
fn bound(request: &Request, cells: usize) -> usize {
    let points = |steps: u64| 4 + 3 * steps as usize;
    2 + match by_bins(request[0]) {
        3 | 13 => points(request[6]),
        4 => 1 + request[7] as usize * points(request[10]),
        5 => 1 + cells * 45,
        _ => 13,
    }
}

impl Ours {
    pub fn new(case: Vec<u8>) -> Self {
        let mut needs = [0usize; 3];
        let refusal = unsafe { hookyellow_needs(case.as_ptr(), case.len(), needs.as_mut_ptr(), 3) };
        assert_eq!(refusal, 0, "the case is accepted");
        let [words, floats, marks] = needs;
        Self { case, words: vec![0; words], floats: vec![0.0; floats], marks: vec![0; marks], answers: Vec::new() }
    }

    /// A job on the whole answer buffer; an empty list, which builds the mesh alone, on none of it.
    pub fn job(&mut self, requests: &[u8]) {
        let room = if requests.is_empty() { 0 } else { self.answers.len() };
        let refusal = unsafe {
            hookyellow_job(
                self.case.as_ptr(),
                self.case.len(),
                requests.as_ptr(),
                requests.len(),
                self.words.as_mut_ptr(),
                self.words.len(),
                self.floats.as_mut_ptr(),
                self.floats.len(),
                self.marks.as_mut_ptr(),
                self.marks.len(),
                self.answers.as_mut_ptr(),
                room,
            )
        };
        assert_eq!(refusal, 0, "the job is accepted");
    }

    /// Runs the list and leaves its answers in a buffer with no word to spare.
    pub fn fit(&mut self, list: &[Request]) {
        let room = list.iter().map(|request| bound(request, self.marks.len())).sum();
        self.answers = vec![0; room];
        self.job(&bytes(list));
        let end = list.iter().fold(0, |at, _| at + 2 + self.answers[at + 1] as usize);
        self.answers.truncate(end);
    }
}
