//! Requests of codes 1 to 4 and 9 to 14: points on and beside corners, edges, borders and bins, and
//! options at their limits.
use crate::meshes::mean;
use crate::room::Room;
use crate::vectors::{along, beside, dot, mix, sub, unit, P3};
use reference::refair::gen::{Cell, Rng};
use std::sync::atomic::{AtomicU64, Ordering::Relaxed};

pub const POINTS: [&str; 16] = [
    "corner", "middle of an edge", "on an edge", "beside an edge", "beside a corner", "level with a corner",
    "border", "beside the border", "corner of the bounds", "border of a bin", "centre of a cell",
    "between two centres", "outside", "far outside", "within the bounds", "within a cell",
];
/// How many points of each kind were made.
pub static POINTS_MADE: [AtomicU64; 16] = [const { AtomicU64::new(0) }; 16];

/// A request under construction.
pub struct Request(pub Vec<u64>);
impl Request {
    pub fn of(code: u64) -> Self {
        Self(vec![code])
    }
    pub fn point(mut self, p: P3) -> Self {
        self.0.extend(p.map(f64::to_bits));
        self
    }
    pub fn word(mut self, w: u64) -> Self {
        self.0.push(w);
        self
    }
    pub fn float(self, x: f64) -> Self {
        self.word(x.to_bits())
    }
}

impl Room<'_> {
    /// A point for the requests of a 2D case.
    pub fn spot(&self, r: &mut Rng) -> P3 {
        let c = if r.one_in(2) { self.any_cell(r) } else { self.listed_cell(r) };
        let n = c.numbers().len();
        let i = r.below(n);
        let edge = (self.corner(c, i), self.corner(c, i + 1));
        let tiny = r.pick(&[1e-13, 5e-13, 9.99e-13, 1e-12, 1.001e-12, 2e-12, 1e-9, 1e-6]) * r.pick(&[1.0, -1.0]);
        let axis = r.below(2);
        let kind = r.below(POINTS.len());
        POINTS_MADE[kind].fetch_add(1, Relaxed);
        let mut p = match kind {
            0..=5 => self.at_edge(kind, edge, axis, tiny, r),
            6..=9 => self.at_border(kind, c, edge.0[2], axis, tiny, r),
            _ => self.elsewhere(kind, c, edge.0[2], r),
        };
        match r.below(30) {
            0 => p[2] = r.odd_float(),
            1 => p[2] = r.range(-3.0, 3.0) * self.size,
            2 => p[2] = r.pick(&[-0.0, 1e155, -1e200, 1e-200]),
            3 if r.one_in(3) => p[axis] = r.odd_float(),
            _ => {}
        }
        p
    }

    /// On, beside or level with a corner or an edge.
    fn at_edge(&self, kind: usize, (a, b): (P3, P3), axis: usize, tiny: f64, r: &mut Rng) -> P3 {
        let mut p = a;
        match kind {
            0 => {}
            1 => p = mix(a, b, 0.5),
            2 => p = mix(a, b, r.unit()),
            3 => {
                let e = unit(sub(b, a)).unwrap_or([1.0, 0.0, 0.0]);
                p = along(mix(a, b, r.unit()), [e[1], -e[0], 0.0], tiny);
            }
            4 => p[axis] += tiny,
            // level with a corner, or straight above or below it
            _ => p[axis] = r.range(self.lo[axis], self.hi[axis]),
        }
        p
    }

    /// On or beside the border of the bounds or of a bin.
    fn at_border(&self, kind: usize, c: &Cell, z: f64, axis: usize, tiny: f64, r: &mut Rng) -> P3 {
        let (lo, hi) = (self.lo, self.hi);
        match kind {
            6 => {
                let mut p = [r.range(lo[0], hi[0]), r.range(lo[1], hi[1]), z];
                p[axis] = r.pick(&[hi[axis], hi[axis], lo[axis]]);
                p
            }
            7 => {
                let mut p = [r.range(lo[0], hi[0]), r.range(lo[1], hi[1]), z];
                p[axis] = r.pick(&[beside(hi[axis], false), beside(hi[axis], true), beside(lo[axis], false), hi[axis] + tiny]);
                p
            }
            8 => [r.pick(&[lo[0], hi[0]]), r.pick(&[lo[1], hi[1]]), z],
            _ => {
                let mut p = self.within(c, r);
                let k = r.below(self.bins[axis].min(1e6) as usize + 1) as f64;
                p[axis] = lo[axis] + (hi[axis] - lo[axis]) * (k / self.bins[axis]);
                match r.below(3) {
                    0 => p[axis] = beside(p[axis], true),
                    1 => p[axis] = beside(p[axis], false),
                    _ => {}
                }
                p
            }
        }
    }

    /// At centres, inside and outside.
    fn elsewhere(&self, kind: usize, c: &Cell, z: f64, r: &mut Rng) -> P3 {
        let (lo, hi) = (self.lo, self.hi);
        match kind {
            10 if !self.centres.is_empty() => r.pick(&self.centres),
            10 => mean(self.m, &c.numbers()),
            11 => mix(mean(self.m, &c.numbers()), mean(self.m, &self.any_cell(r).numbers()), 0.5),
            12 => [hi[0] + r.range(-0.1, 1.0) * self.size, hi[1] + r.range(-1.0, 1.0) * self.size, z],
            13 => {
                let far = r.pick(&[1e7, 1e18, 1e155, 1e300, f64::MAX]);
                [r.pick(&[far, -far, lo[0]]), r.pick(&[far, -far, hi[1]]), 0.0]
            }
            14 => [r.range(lo[0], hi[0]), r.range(lo[1], hi[1]), z],
            _ => self.within(c, r),
        }
    }

    pub fn options(&self, q: Request, r: &mut Rng, seeds: usize) -> Request {
        let size = (self.hi[0] - self.lo[0]).max(self.hi[1] - self.lo[1]);
        let step = step_size(size, r);
        if seeds == 1 && r.one_in(3000) {
            // as many steps as there may be, most often inside one cell
            return q.word(r.below(2) as u64).float(size * 1e-7).word(65_536 + r.one_in(4) as u64).float(1e9).float(0.0);
        }
        let steps = max_steps(seeds, r);
        let length = match r.below(40) {
            0 => r.odd_float(),
            1 => r.pick(&[0.0, -1.0]),
            2 => r.pick(&[5e-324, 1e-300, f64::MAX]),
            n if n < 14 => step * (1 + n % 6) as f64,
            n if n < 30 => 1e9,
            _ => size * r.range(0.02, 3.0),
        };
        let stagnation = self.stagnation_speed(r);
        let direction = match r.below(60) {
            0 => 2,
            1 => r.next(),
            n => (n % 2) as u64,
        };
        q.word(direction).float(step).word(steps).float(length).float(stagnation)
    }

    fn stagnation_speed(&self, r: &mut Rng) -> f64 {
        let v = self.vel[r.below(self.vel.len())];
        match r.below(50) {
            0 => r.odd_float(),
            1 => r.pick(&[-1e-300, -1.0]),
            2 => -0.0,
            3..=5 => dot(v, v).sqrt(),
            6 | 7 => 0.5 * dot(v, v).sqrt(),
            8 => r.pick(&[1.0, 2.0, 0.5, 3.0, 1e-3]),
            _ => 0.0,
        }
    }

    pub fn line_request(&self, r: &mut Rng) -> Vec<u64> {
        match r.below(10) {
            0 | 1 => Request::of(r.pick(&[1, 9])).point(self.spot(r)).0,
            2 | 3 => Request::of(r.pick(&[2, 10])).point(self.spot(r)).0,
            4..=6 => {
                let p = if r.one_in(2) { self.within(self.listed_cell(r), r) } else { self.spot(r) };
                self.options(Request::of(r.pick(&[3, 3, 13, 11, 11, 14])).point(p), r, 1).0
            }
            _ => self.rake_request(r),
        }
    }

    fn rake_request(&self, r: &mut Rng) -> Vec<u64> {
        let c = self.listed_cell(r);
        let (a, b) = match r.below(10) {
            0 => {
                let p = self.spot(r);
                (p, p)
            }
            1 => {
                let i = r.below(4);
                (self.corner(c, i), self.corner(c, i + 1))
            }
            2 => (self.spot(r), self.spot(r)),
            3 => (self.within(c, r), self.within(self.listed_cell(r), r)),
            4 => (self.within(c, r), self.spot(r)),
            _ => (self.within(c, r), self.within(c, r)),
        };
        let seeds = match r.below(60) {
            0 => 0,
            1 => 1,
            2 => 65,
            3 => r.next(),
            4 => 64,
            5 => 63,
            6 => 33,
            n => 2 + (n % 6) as u64,
        };
        self.options(Request::of(r.pick(&[4, 12])).point(a).point(b).word(seeds), r, seeds.min(64) as usize).0
    }
}

fn step_size(size: f64, r: &mut Rng) -> f64 {
    match r.below(60) {
        0 => r.odd_float(),
        1 => -0.1,
        2 => r.pick(&[1e-300, 1e-18, 1e18, 1e300, f64::MAX]),
        n if n < 18 => r.pick(&[0.25, 0.5, 0.0625]),
        _ => size * r.pick(&[0.001, 0.003, 0.01, 0.03, 0.1, 0.3]) * r.range(0.5, 1.5),
    }
}

fn max_steps(seeds: usize, r: &mut Rng) -> u64 {
    match r.below(150) {
        0 => 0,
        1 => 65_537,
        2 => r.next(),
        3 if r.one_in(8) && seeds == 1 => 65_536,
        n if n < 20 => 1,
        n if n < 35 => 2 + r.below(3) as u64,
        n if n < 45 => 300,
        n if n < 47 && seeds < 8 => 2000,
        _ => 1 + r.below(60) as u64,
    }
}
