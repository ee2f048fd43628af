//! Case files from their parts, and from one edition to the other.
use crate::raw::{self, Written};
use crate::workspace::accepted;
use crate::Refusal;

/// What a case file says of itself, laid out as include/hookyellow.h says.
#[repr(C)]
#[derive(Clone, Copy, Debug, PartialEq, Eq)]
pub struct Counts {
    /// 1, or 2 for a file with zones.
    pub edition: usize,
    /// 2 or 3.
    pub dimension: usize,
    /// P, the number of points.
    pub points: usize,
    /// W, the number of definition words.
    pub words: usize,
    /// C, the number of cells.
    pub cells: usize,
}

impl Counts {
    /// The length of the file in bytes: 24P+4W+32C+32, in edition 2 24P+4W+36C+36; `usize::MAX`
    /// where it is beyond that.
    pub fn file_length(&self) -> usize {
        let (cell, rest) = if self.edition == 2 { (36, 36) } else { (32, 32) };
        let parts = [self.points.saturating_mul(24), self.words.saturating_mul(4), self.cells.saturating_mul(cell)];
        parts.into_iter().fold(rest, usize::saturating_add)
    }
}

/// The parts of a case file, and what it says of itself. The two may disagree: the writer then
/// refuses them.
///
/// Floats are given by their bits ([`f64::to_bits`]), so that every NaN is written as it is.
#[derive(Clone, Copy, Debug, PartialEq, Eq)]
pub struct CaseParts<'a> {
    /// Edition, dimension and counts.
    pub counts: Counts,
    /// x, y and z of each point.
    pub points: &'a [u64],
    /// The definition words, one record for each cell (docs/FORMAT.md).
    pub words: &'a [u32],
    /// x, y and z of each cell's velocity.
    pub velocities: &'a [u64],
    /// The pressure of each cell.
    pub pressures: &'a [u64],
    /// The zone of each cell, in edition 1 too, where all are 0.
    pub zones: &'a [u32],
}

/// Writes a case file to the front of `out` and gives its length, which is [`Counts::file_length`].
/// Bytes of `out` after the file keep theirs; under a refusal all of them do.
///
/// The refusals, in this order: 1 (an edition other than 1 and 2, a dimension other than 2 and 3,
/// or a part that is not as long as its count says), 2, 3 and 45 for what a job would refuse with
/// these (45 in either edition), 46 (edition 1 with a zone that is not 0), 47 (too few bytes). The
/// mesh is not looked at: what a job refuses with 8 to 19 can be written.
///
/// ```
/// use hookyellow::{write_case, CaseParts, Counts, Refusal};
/// let [zero, one] = [0.0, 1.0].map(f64::to_bits);
/// let triangle = CaseParts {
///     counts: Counts { edition: 2, dimension: 2, points: 3, words: 5, cells: 1 },
///     points: &[zero, zero, zero, one, zero, zero, zero, one, zero],
///     words: &[0, 3, 0, 1, 2],
///     velocities: &[one, zero, zero],
///     pressures: &[zero],
///     zones: &[7],
/// };
/// let mut file = vec![0; triangle.counts.file_length()];
/// assert_eq!(write_case(&triangle, &mut file), Ok(3 * 24 + 5 * 4 + 36 + 36));
/// assert_eq!(write_case(&triangle, &mut file[1..]), Err(Refusal::Output));
/// ```
pub fn write_case(parts: &CaseParts, out: &mut [u8]) -> Result<usize, Refusal> {
    let CaseParts { counts, points, words, velocities, pressures, zones } = *parts;
    // SAFETY: each pointer comes with the length of the slice that it is of, which is borrowed
    // during the call. The output is borrowed mutably, so it overlaps none of the parts. Any
    // counts, lengths and contents may be given, and the library keeps no pointer.
    length(unsafe {
        raw::hookyellow_write_case(
            counts,
            points.as_ptr(),
            points.len(),
            words.as_ptr(),
            words.len(),
            velocities.as_ptr(),
            velocities.len(),
            pressures.as_ptr(),
            pressures.len(),
            zones.as_ptr(),
            zones.len(),
            out.as_mut_ptr(),
            out.len(),
        )
    })
}

/// Writes a case file of the other edition as one of this edition to the front of `out` and gives
/// its length: to edition 2 with zones 0, to edition 1 without its zones, all else kept. Bytes of
/// `out` after the file keep theirs; under a refusal all of them do.
///
/// The refusals, in this order: 1 (an edition other than 1 and 2, a file of that edition already,
/// or what a job refuses with 1), 2, 3 and 45 as of a job, 46 (to edition 1 with a zone that is not
/// 0), 47 (too few bytes). [`Case::in_edition`] makes the bytes too.
///
/// [`Case::in_edition`]: crate::Case::in_edition
pub fn convert(case: &[u8], edition: usize, out: &mut [u8]) -> Result<usize, Refusal> {
    // SAFETY: both pointers come with the lengths of what they point to, which is borrowed during
    // the call; the output is borrowed mutably, so it does not overlap the file. Any bytes and
    // lengths may be given.
    length(unsafe { raw::hookyellow_convert(case.as_ptr(), case.len(), edition, out.as_mut_ptr(), out.len()) })
}

fn length(written: Written) -> Result<usize, Refusal> {
    accepted(written.refusal).map(|()| written.length)
}
