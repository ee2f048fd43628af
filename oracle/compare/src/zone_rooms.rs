//! Rooms with a zone for each cell: one zone or many, cut in halves, stripes, squares, rings and at
//! random, some with cells over each other that lie in different zones.
use crate::border::{border_fields, border_mesh};
use crate::edges::edge_mesh;
use crate::fields::fields;
use crate::meshes::{mean, rooms};
use crate::pairs::Pair;
use crate::sheets::sheet_fields;
use crate::vectors::{sub, P3};
use reference::refair::gen::{self, Cell, Mesh, Rng};
use reference::second_edition;
use std::sync::atomic::{AtomicU64, Ordering::Relaxed};

pub const CUTTINGS: [&str; 11] = [
    "one zone", "halves", "stripes", "squares", "rings", "a cell alone", "by number", "each its own", "two at random",
    "three at random", "all 0 but the last",
];
/// How many rooms were cut into zones in each way.
pub static CUTTINGS_MADE: [AtomicU64; 11] = [const { AtomicU64::new(0) }; 11];

/// Cells about a middle, more than once around and further out each time: of two that lie over each
/// other one may reach the far border, so that no bin lists it.
fn coil(r: &mut Rng) -> Mesh {
    let k = 4 + r.below(5);
    let n = k + 1 + r.below(2 * k);
    let (inner, width, growth) = (r.pick(&[0.5, 0.25]), r.pick(&[0.5, 0.3]), r.pick(&[0.02, 0.04, 0.08]));
    let mut m = Mesh { dim: 2, ..Default::default() };
    for i in 0..=n {
        let (s, c) = (i as f64 / k as f64 * std::f64::consts::TAU).sin_cos();
        let near = inner + growth * i as f64;
        m.pts.extend([near, near + width].map(|a| [c * a, s * a, 0.0]));
    }
    m.cells.extend((0..n as u32).map(|i| Cell::of(0, vec![2 * i, 2 * i + 1, 2 * i + 3, 2 * i + 2])));
    m
}

pub fn zone_mesh(r: &mut Rng) -> (Mesh, String) {
    match r.below(12) {
        0..=4 => {
            let (nx, ny, d) = (1 + r.below(8), 1 + r.below(6), r.pick(&[1.0, 0.5, 0.25]));
            (gen::grid2(nx, ny, d, d), "2D squares".into())
        }
        5..=7 => (coil(r), "2D coil".into()),
        8 => (rooms(r), "2D rooms".into()),
        9 => edge_mesh(r),
        _ => border_mesh(r),
    }
}

/// One way for all cells, so that steps are whole; nearly so; a whirl; or any velocities.
pub fn zone_fields(m: &Mesh, r: &mut Rng) -> (Vec<P3>, Vec<f64>) {
    match r.below(6) {
        0 => fields(m, r),
        1 | 2 => sheet_fields(m, r),
        _ => border_fields(m, r),
    }
}

/// The zone of each cell.
pub fn zones_of(m: &Mesh, r: &mut Rng) -> Vec<u32> {
    let mut values = [0, 1, 2, 7, 31, 127, 128, 254, 255];
    r.shuffle(&mut values);
    let n = m.cells.len();
    let (axis, parts, cut) = (r.below(2), (2 + r.below(4)) as f64, r.below(n));
    let at = m.pts[r.below(m.pts.len())];
    let middle = mean(m, &(0..m.pts.len() as u32).collect::<Vec<_>>());
    let far = |k: usize| m.pts.iter().fold(0f64, |far, p| far.max((p[k] - middle[k]).abs())).max(1e-300);
    let (wide, high) = (far(0) * 2.0 / parts, far(1) * 2.0 / parts);
    let kind = r.below(CUTTINGS.len());
    CUTTINGS_MADE[kind].fetch_add(1, Relaxed);
    let one = |(i, c): (usize, &Cell), r: &mut Rng| {
        let q = sub(mean(m, &c.numbers()), middle);
        let stripe = |k: usize| (q[k] / if k == 0 { wide } else { high }).floor() as i64;
        match kind {
            0 => values[0],
            1 => values[(q[axis] > at[axis] - middle[axis]) as usize],
            2 => values[stripe(axis).rem_euclid(2) as usize],
            3 => values[(stripe(0) + stripe(1)).rem_euclid(2) as usize],
            4 => values[(q[0].hypot(q[1]) / wide.min(high)) as usize % 3],
            5 => values[(i == cut) as usize],
            6 => values[(i > cut) as usize],
            7 => i as u32 % 256,
            8 => values[r.below(2)],
            9 => values[r.below(3)],
            _ => (i + 1 == n) as u32,
        }
    };
    m.cells.iter().enumerate().map(|cell| one(cell, r)).collect()
}

/// Puts a file of edition 1 into edition 2, whatever faults it has: one zone, or by the cells' numbers.
pub fn zones_of_bytes(p: &mut Pair, r: &mut Rng) {
    let Some(trailer) = p.case.len().checked_sub(32) else { return };
    let word = |i: usize| u32::from_le_bytes(p.case[trailer + 4 * i..][..4].try_into().expect("four bytes"));
    let n = word(3) as usize;
    if n > 20_000 || ![2, 3].contains(&word(0)) {
        return;
    }
    let (cut, kind, zone) = (r.below(n), r.below(4), r.pick(&[0, 0, 1, 255]));
    let one = |i: usize| match kind {
        0 => zone,
        1 => zone ^ (i > cut) as u32,
        2 => zone ^ (i == cut) as u32,
        _ => zone ^ (i % 2) as u32,
    };
    p.case = second_edition(&p.case, &(0..n).map(one).collect::<Vec<_>>());
    p.sort += " zones";
}
