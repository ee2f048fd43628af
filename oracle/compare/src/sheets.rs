//! Rooms and requests for the sheet in millimetres (codes 13 and 14): points on a half millimetre
//! (an odd number of sixteenths of a metre, and no other float), beside one, near 0 and of any
//! size, rooms that are a few millimetres wide or reach 2^20, and steps so short that points are
//! dropped. Half of the sheets stand after the line with the same arguments.
use crate::fields::fields;
use crate::lines::Request;
use crate::meshes::mean;
use crate::room::Room;
use crate::vectors::P3;
use reference::refair::gen::{self, Mesh, Rng};
use std::sync::atomic::{AtomicU64, Ordering::Relaxed};

pub const SEEDS: [&str; 7] =
    ["half millimetre", "beside it", "nearest float to a half", "beside that", "by 0", "of any size", "anywhere"];
/// How many seeds of each kind were made.
pub static SEEDS_MADE: [AtomicU64; 7] = [const { AtomicU64::new(0) }; 7];

/// The farthest coordinate of a case.
const FAR: f64 = 1_048_576.0;

/// A room of squares whose sides are sixteenths of a metre, or a few millimetres wide, and where it stands; or one square
/// that holds every coordinate.
pub fn sheet_mesh(r: &mut Rng) -> (Mesh, String) {
    if r.one_in(10) {
        let mut m = gen::grid2(1, 1, 2.0 * FAR, 2.0 * FAR);
        m.pts.iter_mut().for_each(|p| *p = [p[0] - FAR, p[1] - FAR, 0.0]);
        return (m, "2D widest".into());
    }
    let (nx, ny) = (1 + r.below(5), 1 + r.below(5));
    let tiny = r.one_in(4);
    let side = if tiny { r.pick(&[0.001, 0.002, 0.000_976_562_5, 0.000_5]) } else { r.pick(&[0.5, 0.25, 0.1875, 1.0, 0.0625]) };
    let mut m = gen::grid2(nx, ny, side, side);
    let at = [nx, ny].map(|n| corner(n as f64 * side, r));
    for p in &mut m.pts {
        *p = [(p[0] + at[0]).clamp(-FAR, FAR), (p[1] + at[1]).clamp(-FAR, FAR), 0.0];
    }
    (m, if tiny { "2D millimetres" } else { "2D sixteenths" }.into())
}

/// The low corner of a room along one axis.
fn corner(width: f64, r: &mut Rng) -> f64 {
    match r.below(7) {
        0 => 0.0,
        1 => -width,
        2 => -width / 2.0,
        3 => -FAR,
        4 => FAR - width,
        5 => r.below(1 << 24) as f64 / 16.0 - FAR / 2.0,
        _ => r.below(64) as f64 / 16.0 - 2.0,
    }
}

/// One way for all cells, a whirl, or any velocities.
pub fn sheet_fields(m: &Mesh, r: &mut Rng) -> (Vec<P3>, Vec<f64>) {
    let way = r.pick(&[[1.0, 0.0, 0.0], [-1.0, 0.0, 0.0], [0.0, 1.0, 0.0], [0.0, -2.0, 0.0], [1.0, 1.0, 0.0], [0.6, -0.8, 0.0]]);
    let middle = mean(m, &(0..m.pts.len() as u32).collect::<Vec<_>>());
    let whirl = |q: P3| [middle[1] - q[1], q[0] - middle[0], 0.0];
    let velocities = match r.below(8) {
        0 => return fields(m, r),
        1 | 2 => m.cells.iter().map(|c| whirl(mean(m, &c.numbers()))).collect(),
        _ => vec![way; m.cells.len()],
    };
    (velocities, vec![0.0; m.cells.len()])
}

/// A coordinate between two limits, and its kind.
fn coordinate(low: f64, high: f64, r: &mut Rng) -> (f64, usize) {
    let odd = |r: &mut Rng| ((r.range(low, high) * 8.0).floor() * 2.0 + 1.0) / 16.0;
    let half = |r: &mut Rng| ((r.range(low, high) * 1000.0).floor() + 0.5) / 1000.0;
    let sized = |r: &mut Rng| r.pick(&[1.0, -1.0]) * (1.0 + r.unit()) * 2f64.powi(r.below(52) as i32 - 32);
    let near = |x: f64, r: &mut Rng| if r.one_in(2) { x.next_up() } else { x.next_down() };
    let kind = r.below(SEEDS.len());
    let x = match kind {
        0 => odd(r),
        1 => near(odd(r), r),
        2 => half(r),
        3 => near(half(r), r),
        4 if low <= 0.0 && 0.0 <= high => r.pick(&[0.0, -0.0, 5e-324, -5e-324, 1e-310, -1e-310, 1e-20, 0.000_499, -0.000_499, 0.000_5, -0.000_5]),
        5 => Some(sized(r)).filter(|x| low < *x && *x < high).unwrap_or(r.range(low, high)),
        _ => r.range(low, high),
    };
    (x, kind)
}

impl Room<'_> {
    /// Within the bounds of a cell, most often one that locates its points.
    fn sheet_seed(&self, r: &mut Rng) -> P3 {
        let cell = self.listed_cell(r);
        let axis = |k: usize, r: &mut Rng| {
            let list = || cell.numbers().into_iter().map(|v| self.m.pts[v as usize][k]);
            let (x, kind) = coordinate(list().fold(f64::INFINITY, f64::min), list().fold(f64::NEG_INFINITY, f64::max), r);
            SEEDS_MADE[kind].fetch_add(1, Relaxed);
            x
        };
        [axis(0, r), axis(1, r), if r.one_in(20) { r.odd_float() } else { 0.0 }]
    }

    /// Direction, step size, steps, length, stagnation speed: whole sixteenths, less than a millimetre, or any options.
    fn sheet_options(&self, q: Request, r: &mut Rng) -> Request {
        if r.one_in(6) {
            return self.options(q, r, 1);
        }
        let step = r.pick(&[0.0625, 0.125, 0.25, 0.03125, 0.001, 0.0005, 0.0002, 0.0001, 1e-5, 1e-7]) * self.size.min(1.0);
        let steps = r.pick(&[1, 2, 5, 12, 40, 60, 300]);
        let length = r.pick(&[1e9, 1e9, 1.0, 0.25, 0.0625, 0.003]);
        q.word(r.below(2) as u64).float(step).word(steps).float(length).float(0.0)
    }

    /// A sheet, most often with arguments that are accepted.
    pub fn sheet_request(&self, r: &mut Rng) -> Vec<u64> {
        let seed = if r.one_in(8) { self.spot(r) } else { self.sheet_seed(r) };
        let mut q = self.sheet_options(Request::of(r.pick(&[13, 13, 14])).point(seed), r).0;
        q.resize(16, 0);
        match r.below(60) {
            0 => q[9 + r.below(7)] = r.pick(&[1, 1 << 63, u64::MAX]),
            1 => q[4] = r.pick(&[2, 3, 1 << 32, u64::MAX]),
            2 => q[6] = r.pick(&[65_537, 1 << 32 | 1, u64::MAX]),
            3 => q[6] = 0,
            4 => q[5 + r.pick(&[0, 2, 3])] = r.odd_float().to_bits(),
            _ => {}
        }
        q
    }

    /// Sheets, half of them after the line with the same arguments, and some other requests.
    pub fn sheet_requests(&self, r: &mut Rng) -> Vec<Vec<u64>> {
        let mut list = Vec::new();
        for _ in 0..if self.size > FAR { 30 } else { 1 + r.below(6) } {
            let q = self.sheet_request(r);
            if r.one_in(2) {
                let mut line = q.clone();
                line[0] = if q[0] == 14 { 11 } else { 3 };
                list.push(line);
            }
            list.push(q);
            if r.one_in(4) {
                list.push(self.line_request(r));
            }
        }
        list
    }
}

/// As many steps as there may be, and one more: over a millimetre each, so that every point is listed, a millimetre, or so
/// short that every point after the seed is dropped.
pub fn long_sheet(r: &mut Rng) -> (Mesh, Vec<Vec<u64>>) {
    let m = gen::grid2(1, 1, 128.0, 128.0); // one bin
    let step = r.pick(&[0.001_5, 0.001_5, 0.001, 1e-9]);
    let steps = r.pick(&[65_536, 65_536, 65_536, 65_537]);
    let q = Request::of(r.pick(&[13, 14])).point([r.pick(&[0.0625, 0.5, 1.0]), 2.0625, 0.0]);
    (m, vec![q.word(0).float(step).word(steps).float(1e9).float(0.0).0])
}
