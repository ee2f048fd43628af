//! Rooms that the tests share.
#![allow(dead_code)]
use hookyellow::{Case, CaseBuilder, CaseParts, Cell, Dimension, LineOptions, SectionPlane, Vector};

/// The codes of the requests.
pub const CODES: [u64; 14] = [1, 2, 3, 4, 5, 6, 7, 8, 9, 10, 11, 12, 13, 14];

pub const X: Vector = Vector::new(1.0, 0.0, 0.0);
pub const Y: Vector = Vector::new(0.0, 1.0, 0.0);

pub fn at(x: f64, y: f64, z: f64) -> Vector {
    Vector::new(x, y, z)
}

fn pair_builder() -> CaseBuilder {
    Case::builder(Dimension::Two)
        .points([[0., 0., 0.], [1., 0., 0.], [2., 0., 0.], [0., 1., 0.], [1., 1., 0.], [2., 1., 0.]])
        .cells([Cell::Polygon(vec![0, 1, 4, 3]), Cell::Polygon(vec![1, 2, 5, 4])])
        .velocities([[1., 0., 0.], [3., 0., 0.]])
        .pressures([0., 0.])
}

/// 01's room Pair.
pub fn pair() -> Case {
    pair_builder().build().unwrap()
}

/// Pair in edition 2, its squares in these zones.
pub fn zoned_pair(zones: [u32; 2]) -> Case {
    pair_builder().zones(zones).build().unwrap()
}

/// The case with another word at a place of its bytes, whatever that makes of it.
pub fn patched(case: Case, at: usize, word: u32) -> Case {
    let mut bytes = case.into_bytes();
    bytes[at..at + 4].copy_from_slice(&word.to_le_bytes());
    Case::from_bytes(bytes)
}

/// The bytes of a case as docs/FORMAT.md lays them out, whatever is wrong with its parts: the words
/// of the trailer are the lower 32 bits of what the counts say.
pub fn laid_out(parts: &CaseParts) -> Vec<u8> {
    let (counts, second) = (parts.counts, parts.counts.edition == 2);
    let floats = |list: &[u64]| list.iter().flat_map(|float| float.to_le_bytes()).collect::<Vec<u8>>();
    let words = |list: &[u32]| list.iter().flat_map(|word| word.to_le_bytes()).collect::<Vec<u8>>();
    let (p, w, c) = (counts.points as u32, counts.words as u32, counts.cells as u32);
    let starts = [0, 24 * p, 24 * p + 4 * w, 24 * p + 4 * w + 24 * c];
    let mut bytes = [floats(parts.points), words(parts.words), floats(parts.velocities), floats(parts.pressures)].concat();
    if second {
        bytes.extend(words(parts.zones));
        bytes.extend(words(&[24 * p + 4 * w + 32 * c]));
    }
    bytes.extend(words(&[counts.dimension as u32 + if second { 100 } else { 0 }, p, w, c]));
    bytes.extend(words(&starts));
    bytes
}

/// One unit square. It is all the mesh, so that there is one bin and the far border is not lost.
pub fn square(velocity: Vector) -> Case {
    Case::builder(Dimension::Two)
        .points([[0., 0., 0.], [1., 0., 0.], [1., 1., 0.], [0., 1., 0.]])
        .cells([Cell::Polygon(vec![0, 1, 2, 3])])
        .velocities([velocity])
        .pressures([0.])
        .build()
        .unwrap()
}

/// Unit cubes in a row along x, with a velocity and a pressure in each.
pub fn cubes(values: &[(Vector, f64)]) -> Case {
    cube_builder(values).build().unwrap()
}

/// The cubes in edition 2, numbered by their zones.
pub fn zoned_cubes(values: &[(Vector, f64)]) -> Case {
    cube_builder(values).zones(0..values.len() as u32).build().unwrap()
}

fn cube_builder(values: &[(Vector, f64)]) -> CaseBuilder {
    let corners = (0..=values.len()).flat_map(|i| [(0., 0.), (1., 0.), (1., 1.), (0., 1.)].map(|(y, z)| at(i as f64, y, z)));
    let cell = |i: u32| Cell::Hexahedron(std::array::from_fn(|k| 4 * i + k as u32));
    Case::builder(Dimension::Three)
        .points(corners)
        .cells((0..values.len() as u32).map(cell))
        .velocities(values.iter().map(|value| value.0))
        .pressures(values.iter().map(|value| value.1))
}

/// The plane z = height, with the normal upward.
pub fn level(height: f64) -> SectionPlane {
    SectionPlane::new(at(0., 0., height), X, Y)
}

/// Steps of 0.25, at most 10 of them, and no stagnation speed; located by the bins.
pub fn quarters(max_length: f64) -> LineOptions {
    LineOptions { step_size: 0.25, max_steps: 10, max_length, stagnation_speed: 0.0, all_cells: false }
}

/// Numbers in no order (xorshift), the same in every run.
pub struct Random(pub u64);

impl Random {
    pub fn next(&mut self) -> u64 {
        self.0 ^= self.0 << 13;
        self.0 ^= self.0 >> 7;
        self.0 ^= self.0 << 17;
        self.0
    }

    pub fn below(&mut self, limit: usize) -> usize {
        (self.next() % limit as u64) as usize
    }
}
