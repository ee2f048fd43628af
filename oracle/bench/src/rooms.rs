//! The rooms of the rows: unit squares of quads and unit cubes of hexahedra, as case bytes.
use reference::refair::gen::{case_bytes, grid2, grid3, mesh_words, Mesh};
use reference::second_edition;

#[derive(Clone, Copy, PartialEq)]
pub enum Shape {
    Quads(usize),
    Hexahedra(usize, usize, usize),
}

impl Shape {
    pub fn cells(self) -> usize {
        match self {
            Shape::Quads(side) => side * side,
            Shape::Hexahedra(a, b, c) => a * b * c,
        }
    }
    pub fn dimension(self) -> u32 {
        match self {
            Shape::Quads(_) => 2,
            Shape::Hexahedra(..) => 3,
        }
    }
    pub fn case(self) -> Vec<u8> {
        match self {
            Shape::Quads(side) => bytes(&grid2(side, side, 1.0 / side as f64, 1.0 / side as f64), turning),
            Shape::Hexahedra(a, b, c) => {
                let d = [1.0 / a as f64, 1.0 / b as f64, 1.0 / c as f64];
                bytes(&grid3(a, b, c, d), slanted)
            }
        }
    }
    /// The same room as a case of edition 2, all cells in one zone, so that lines are as long.
    pub fn zoned_case(self) -> Vec<u8> {
        second_edition(&self.case(), &vec![7; self.cells()])
    }
}

/// Air that turns about the middle of the square, so that a line stays in the room.
fn turning(p: [f64; 3]) -> [f64; 3] {
    [-(p[1] - 0.5), p[0] - 0.5, 0.0]
}

fn slanted(p: [f64; 3]) -> [f64; 3] {
    [1.0 + p[0], p[1] - p[2], 0.75 - p[0] * p[2]]
}

fn centre(mesh: &Mesh, numbers: &[u32]) -> [f64; 3] {
    let sum = |k: usize| numbers.iter().map(|&n| mesh.pts[n as usize][k]).sum::<f64>();
    std::array::from_fn(|k| sum(k) / numbers.len() as f64)
}

fn bytes(mesh: &Mesh, flow: fn([f64; 3]) -> [f64; 3]) -> Vec<u8> {
    let centres: Vec<[f64; 3]> = mesh.cells.iter().map(|cell| centre(mesh, &cell.v)).collect();
    let velocity: Vec<[f64; 3]> = centres.iter().map(|&p| flow(p)).collect();
    let pressure: Vec<f64> = centres.iter().map(|p| p[0] * p[1] + 2.0 * p[2]).collect();
    case_bytes(mesh.dim, &mesh.pts, &mesh_words(mesh), &velocity, &pressure)
}
