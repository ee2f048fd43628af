//! The rows of the writer and the converter: a room's file is made, and copied by a plain loop of the
//! same language, into the same buffer.
use crate::rooms::Shape;
use hookyellow::{convert, write_case, CaseParts, Counts};
use reference::second_edition;

extern "C" {
    /// Copies bytes to the front of others, as far as both go (crates/test_arith_exports).
    fn hookyellow_copy(from: *const u8, from_length: usize, to: *mut u8, to_length: usize);
}

#[derive(Clone, Copy)]
pub enum Work {
    /// From the parts in memory; in edition 2 with one zone that is not 0.
    Write,
    /// From the file of the other edition, all zones 0.
    Convert,
}

pub struct FileRow {
    pub name: &'static str,
    pub shape: Shape,
    work: Work,
    /// Of the file that is made.
    edition: usize,
}

const QUADS: [Shape; 3] = [Shape::Quads(8), Shape::Quads(64), Shape::Quads(128)];
const HEXAHEDRA: [Shape; 3] =
    [Shape::Hexahedra(4, 4, 4), Shape::Hexahedra(16, 16, 16), Shape::Hexahedra(32, 32, 16)];

impl FileRow {
    pub fn key(&self) -> String {
        format!("{}-{}", self.name, self.shape.cells())
    }
}

pub fn all() -> Vec<FileRow> {
    let kinds = [
        ("write-quads-first", QUADS, Work::Write, 1),
        ("write-quads-second", QUADS, Work::Write, 2),
        ("write-hexahedra-first", HEXAHEDRA, Work::Write, 1),
        ("write-hexahedra-second", HEXAHEDRA, Work::Write, 2),
        ("convert-quads-first", QUADS, Work::Convert, 1),
        ("convert-quads-second", QUADS, Work::Convert, 2),
        ("convert-hexahedra-first", HEXAHEDRA, Work::Convert, 1),
        ("convert-hexahedra-second", HEXAHEDRA, Work::Convert, 2),
    ];
    let rows = |(name, shapes, work, edition): (_, [Shape; 3], _, _)| shapes.map(|shape| FileRow { name, shape, work, edition });
    kinds.into_iter().flat_map(rows).collect()
}

/// The contents of a room's file.
struct Parts {
    counts: Counts,
    points: Vec<u64>,
    words: Vec<u32>,
    velocities: Vec<u64>,
    pressures: Vec<u64>,
    zones: Vec<u32>,
}

fn numbers32(bytes: &[u8]) -> Vec<u32> {
    bytes.chunks_exact(4).map(|b| u32::from_le_bytes(b.try_into().expect("four bytes"))).collect()
}

fn numbers64(bytes: &[u8]) -> Vec<u64> {
    bytes.chunks_exact(8).map(|b| u64::from_le_bytes(b.try_into().expect("eight bytes"))).collect()
}

impl Parts {
    /// Of a file of edition 1.
    fn of(file: &[u8], edition: usize, zone: u32) -> Self {
        let (parts, trailer) = file.split_at(file.len() - 32);
        let [dimension, p, w, c] = [0, 1, 2, 3].map(|i| numbers32(trailer)[i] as usize);
        let (points, rest) = parts.split_at(24 * p);
        let (words, fields) = rest.split_at(4 * w);
        let (velocities, pressures) = fields.split_at(24 * c);
        Self {
            counts: Counts { edition, dimension, points: p, words: w, cells: c },
            points: numbers64(points),
            words: numbers32(words),
            velocities: numbers64(velocities),
            pressures: numbers64(pressures),
            zones: vec![zone; c],
        }
    }

    fn lent(&self) -> CaseParts<'_> {
        CaseParts {
            counts: self.counts,
            points: &self.points,
            words: &self.words,
            velocities: &self.velocities,
            pressures: &self.pressures,
            zones: &self.zones,
        }
    }
}

/// All that a row takes, ready before the clock starts.
pub struct Desk {
    work: Work,
    parts: Parts,
    /// The file that is converted.
    from: Vec<u8>,
    /// The file that is made.
    file: Vec<u8>,
    out: Vec<u8>,
}

impl Desk {
    /// Both sides were run once, and leave the file that is due.
    pub fn new(row: &FileRow) -> Result<Self, String> {
        let first = row.shape.case();
        let zone = if matches!(row.work, Work::Write) && row.edition == 2 { 7 } else { 0 };
        let second = second_edition(&first, &vec![zone; row.shape.cells()]);
        let parts = Parts::of(&first, row.edition, zone);
        let (file, from) = if row.edition == 2 { (second, first) } else { (first, second) };
        let mut desk = Self { work: row.work, parts, from, out: vec![0; file.len()], file };
        desk.make();
        if desk.out != desk.file {
            return Err(format!("{}: another file than is due", row.key()));
        }
        desk.out.fill(0);
        desk.copy();
        if desk.out == desk.file { Ok(desk) } else { Err(format!("{}: the copy differs", row.key())) }
    }

    pub fn bytes(&self) -> usize {
        self.file.len()
    }

    pub fn make(&mut self) {
        let made = match self.work {
            Work::Write => write_case(&self.parts.lent(), &mut self.out),
            Work::Convert => convert(&self.from, self.parts.counts.edition, &mut self.out),
        };
        assert_eq!(made, Ok(self.file.len()), "the file is made");
    }

    pub fn copy(&mut self) {
        // SAFETY: each pointer comes with the length of the vector that it is of, and they do not
        // overlap.
        unsafe { hookyellow_copy(self.file.as_ptr(), self.file.len(), self.out.as_mut_ptr(), self.out.len()) }
    }
}
