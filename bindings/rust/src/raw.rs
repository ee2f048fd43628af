//! The functions of the static library as they are: include/hookyellow.h in Rust.

pub use crate::geometry::{SectionPlane, Vector};
pub use crate::request::LineOptions;
pub use crate::write::Counts;

/// What the writer and the converter give.
#[repr(C)]
#[derive(Clone, Copy, Debug, PartialEq, Eq)]
pub struct Written {
    /// 0, or the refusal.
    pub refusal: u64,
    /// The length of the file that was written, 0 under a refusal.
    pub length: usize,
}

extern "C" {
    /// Stores the least lengths of the words, the floats and the marks of a job on a case; 0. Or the refusal of the case (1, 2, 3
    /// or 45), or 21 for fewer than three places to store them in.
    pub fn hookyellow_needs(case: *const u8, case_length: usize, needs: *mut usize, needs_length: usize) -> u64;
    /// Builds the mesh of a case and serves the requests in order; 0, or the refusal. No buffer may overlap another.
    pub fn hookyellow_job(
        case: *const u8,
        case_length: usize,
        requests: *const u8,
        requests_length: usize,
        words: *mut u32,
        words_length: usize,
        floats: *mut f64,
        floats_length: usize,
        marks: *mut u8,
        marks_length: usize,
        answers: *mut u64,
        answers_length: usize,
    ) -> u64;
    /// A job of one request, code 1, with `all_cells` 9: the cell that a point locates in, and its
    /// position there.
    pub fn hookyellow_locate(
        case: *const u8,
        case_length: usize,
        point: Vector,
        all_cells: bool,
        words: *mut u32,
        words_length: usize,
        floats: *mut f64,
        floats_length: usize,
        marks: *mut u8,
        marks_length: usize,
        answers: *mut u64,
        answers_length: usize,
    ) -> u64;
    /// A job of one request, code 2, with `all_cells` 10: the velocity at a point.
    pub fn hookyellow_velocity(
        case: *const u8,
        case_length: usize,
        point: Vector,
        all_cells: bool,
        words: *mut u32,
        words_length: usize,
        floats: *mut f64,
        floats_length: usize,
        marks: *mut u8,
        marks_length: usize,
        answers: *mut u64,
        answers_length: usize,
    ) -> u64;
    /// A job of one request, code 3, with `all_cells` 11: the streamline from a seed.
    pub fn hookyellow_streamline(
        case: *const u8,
        case_length: usize,
        seed: Vector,
        backward: bool,
        options: LineOptions,
        words: *mut u32,
        words_length: usize,
        floats: *mut f64,
        floats_length: usize,
        marks: *mut u8,
        marks_length: usize,
        answers: *mut u64,
        answers_length: usize,
    ) -> u64;
    /// A job of one request, code 4, with `all_cells` 12: the streamlines from `count` seeds,
    /// spread from `start` to `end`.
    pub fn hookyellow_rake(
        case: *const u8,
        case_length: usize,
        start: Vector,
        end: Vector,
        count: usize,
        backward: bool,
        options: LineOptions,
        words: *mut u32,
        words_length: usize,
        floats: *mut f64,
        floats_length: usize,
        marks: *mut u8,
        marks_length: usize,
        answers: *mut u64,
        answers_length: usize,
    ) -> u64;
    /// A job of one request, code 5: the polygons that a plane cuts.
    pub fn hookyellow_section(
        case: *const u8,
        case_length: usize,
        plane: SectionPlane,
        words: *mut u32,
        words_length: usize,
        floats: *mut f64,
        floats_length: usize,
        marks: *mut u8,
        marks_length: usize,
        answers: *mut u64,
        answers_length: usize,
    ) -> u64;
    /// A job of one request, code 6: the statistics of a field over a section.
    pub fn hookyellow_statistics(
        case: *const u8,
        case_length: usize,
        plane: SectionPlane,
        field: u64,
        words: *mut u32,
        words_length: usize,
        floats: *mut f64,
        floats_length: usize,
        marks: *mut u8,
        marks_length: usize,
        answers: *mut u64,
        answers_length: usize,
    ) -> u64;
    /// A job of one request, code 7: the integrals over a section.
    pub fn hookyellow_integrals(
        case: *const u8,
        case_length: usize,
        plane: SectionPlane,
        words: *mut u32,
        words_length: usize,
        floats: *mut f64,
        floats_length: usize,
        marks: *mut u8,
        marks_length: usize,
        answers: *mut u64,
        answers_length: usize,
    ) -> u64;
    /// A job of one request, code 8: the sample at a point of a section.
    pub fn hookyellow_probe(
        case: *const u8,
        case_length: usize,
        plane: SectionPlane,
        point: Vector,
        words: *mut u32,
        words_length: usize,
        floats: *mut f64,
        floats_length: usize,
        marks: *mut u8,
        marks_length: usize,
        answers: *mut u64,
        answers_length: usize,
    ) -> u64;
    /// A job of one request, code 13, with `all_cells` 14: the streamline from a seed in whole
    /// millimetres.
    pub fn hookyellow_sheet(
        case: *const u8,
        case_length: usize,
        seed: Vector,
        backward: bool,
        options: LineOptions,
        words: *mut u32,
        words_length: usize,
        floats: *mut f64,
        floats_length: usize,
        marks: *mut u8,
        marks_length: usize,
        answers: *mut u64,
        answers_length: usize,
    ) -> u64;
    /// Writes a case file from its counts and parts, floats by their bits, to the front of `out`,
    /// which may overlap nothing else.
    pub fn hookyellow_write_case(
        counts: Counts,
        points: *const u64,
        points_length: usize,
        words: *const u32,
        words_length: usize,
        velocities: *const u64,
        velocities_length: usize,
        pressures: *const u64,
        pressures_length: usize,
        zones: *const u32,
        zones_length: usize,
        out: *mut u8,
        out_length: usize,
    ) -> Written;
    /// Writes a case file as one of the other edition, which is given, to the front of `out`, which
    /// may not overlap it.
    pub fn hookyellow_convert(case: *const u8, case_length: usize, edition: usize, out: *mut u8, out_length: usize) -> Written;
}
