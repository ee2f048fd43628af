//! Rooms and requests for the two locators: each question is asked by the bins (codes 1 to 4 and
//! 13) and among all cells (9 to 12 and 14). The points lie on the far borders of the room, in the
//! last column and row of bins, on corners, sides and borders of bins, and beside all of these; the
//! rooms have cells that no bin lists, cells that cover many bins, cells that lie over each other,
//! and bins so many that no index of them stands.
use crate::fields::fields;
use crate::lines::Request;
use crate::meshes::rooms;
use crate::room::Room;
use crate::vectors::{along, beside, mix, sub, unit, P3};
use reference::refair::gen::{self, Cell, Mesh, Rng};
use reference::{among_all, used_words};
use std::sync::atomic::{AtomicU64, Ordering::Relaxed};

pub const PLACES: [&str; 12] = [
    "far border", "beside the far border", "a float beside it", "last column or row of bins", "corner of the room",
    "vertex", "on a side", "beside a side", "border of a bin", "within a cell", "outside", "not finite",
];
/// How many points of each kind were made.
pub static PLACES_MADE: [AtomicU64; 12] = [const { AtomicU64::new(0) }; 12];
pub const INDEXES: [&str; 2] = ["with an index", "without"];
/// How many rooms have and have not room for an index.
pub static INDEXES_MADE: [AtomicU64; 2] = [const { AtomicU64::new(0) }; 2];

/// The tolerance of the polygon test, and what lies close to it.
const TINY: [f64; 7] = [1e-13, 5e-13, 9.99e-13, 1e-12, 1.001e-12, 2e-12, 1e-9];

/// Rectangles between these coordinates.
fn rectangles(xs: &[f64], ys: &[f64]) -> Mesh {
    let mut m = gen::grid2(xs.len() - 1, ys.len() - 1, 1.0, 1.0);
    for p in &mut m.pts {
        *p = [xs[p[0] as usize], ys[p[1] as usize], 0.0];
    }
    m
}

/// Rows of squares, seldom many: all of them, one less, or their corners moved.
fn outlet(r: &mut Rng) -> Mesh {
    let most = if r.one_in(30) { 40 } else { 6 };
    let (nx, ny, d) = (1 + r.below(most), 1 + r.below(most), r.pick(&[1.0, 0.5, 0.25]));
    let mut m = gen::grid2(nx, ny, d, d);
    match r.below(4) {
        0 if nx > 1 && ny > 1 => {
            m.cells.remove(r.below(nx * ny));
        }
        1 => m.pts.iter_mut().for_each(|p| *p = along(*p, [r.range(-0.1, 0.1), r.range(-0.1, 0.1), 0.0], d)),
        _ => {}
    }
    m
}

/// A wide cell under a row of small ones, and most often a column at the far end: with it the wide
/// cell is listed in many bins, without it in the first column alone.
fn wide(r: &mut Rng) -> Mesh {
    let (n, d, h) = (2 + r.below(18) as u32, r.pick(&[1.0, 0.25, 0.1]), r.pick(&[0.25, 1.0, 3.0]));
    let length = n as f64 * d;
    let mut m = Mesh { dim: 2, pts: vec![[0.0; 3], [length, 0.0, 0.0]], ..Default::default() };
    for y in [h, h + d] {
        m.pts.extend((0..=n).map(|i| [i as f64 * d, y, 0.0]));
    }
    let (low, high) = (|i: u32| 2 + i, |i: u32| 3 + n + i);
    m.cells.push(Cell::of(0, [0, 1].into_iter().chain((0..=n).rev().map(low)).collect()));
    m.cells.extend((0..n).map(|i| Cell::of(0, vec![low(i), low(i + 1), high(i + 1), high(i)])));
    if !r.one_in(3) {
        let at = m.pts.len() as u32;
        m.pts.extend([[length + d, 0.0, 0.0], [length + d, h, 0.0]]);
        m.cells.push(Cell::of(0, vec![1, at, at + 1, low(n)]));
    }
    m
}

/// A few long thin cells, side by side or one behind the other, in very many bins.
fn thin(r: &mut Rng) -> Mesh {
    let n = 1 + r.below(4);
    let length = r.pick(&[1.0, 3.0, 1000.0]);
    let height = length / (n as f64 * 10f64.powf(r.range(2.5, 5.5)));
    let cut = |r: &mut Rng| if r.one_in(5) { r.unit() } else { r.pick(&[0.5, 0.25, 0.99, 0.01]) };
    let mut cuts: Vec<f64> = (1..n).map(|_| cut(r)).collect();
    cuts.sort_by(f64::total_cmp);
    cuts.dedup();
    let all = |size: f64| [0.0].into_iter().chain(cuts.iter().map(|c| c * size)).chain([size]).collect::<Vec<_>>();
    if r.one_in(2) { rectangles(&all(length), &[0.0, height]) } else { rectangles(&[0.0, length], &all(height)) }
}

/// Strips that lean so far that each covers nearly all bins.
fn slanted(r: &mut Rng) -> Mesh {
    let n = 4 + r.below(16);
    let length = r.range(1500.0, 4000.0) / n as f64;
    let base = length * r.pick(&[0.02, 0.1, 0.2]) / n as f64;
    let mut m = gen::grid2(n, 1, base, 1.0);
    let lean = length - base * n as f64;
    m.pts.iter_mut().for_each(|p| p[0] += lean * p[1]);
    m
}

/// Rectangles of very unequal sizes.
fn graded(r: &mut Rng) -> Mesh {
    let list = |r: &mut Rng| {
        let (n, q) = (1 + r.below(7), r.pick(&[1.0, 2.0, 3.0, 8.0]));
        let mut list: Vec<f64> = (0..n).scan(0.0, |x, i| { *x += f64::powi(q, i as i32) * 0.125; Some(*x) }).collect();
        list.insert(0, 0.0);
        if r.one_in(2) {
            let far = list[n];
            list = list.iter().rev().map(|x| far - x).collect();
        }
        list
    };
    rectangles(&list(r), &list(r))
}

/// Cells about a middle, more than once around: two lie over each other.
fn spiral(r: &mut Rng) -> Mesh {
    let k = 3 + r.below(6);
    let n = k + 1 + r.below(3 * k / 2);
    let inner = r.pick(&[0.5, 0.25, 0.9]);
    let mut m = Mesh { dim: 2, ..Default::default() };
    for i in 0..=n {
        let (s, c) = ((i % k) as f64 / k as f64 * std::f64::consts::TAU).sin_cos();
        m.pts.extend([[c * inner, s * inner, 0.0], [c, s, 0.0]]);
    }
    m.cells.extend((0..n as u32).map(|i| Cell::of(0, vec![2 * i, 2 * i + 1, 2 * i + 3, 2 * i + 2])));
    m
}

pub fn border_mesh(r: &mut Rng) -> (Mesh, String) {
    let (mut m, name) = match r.below(16) {
        0..=4 => (outlet(r), "outlet"),
        5 => (rooms(r), "rooms"),
        6 | 7 => (wide(r), "wide"),
        8 | 9 => (thin(r), "thin"),
        10 => (slanted(r), "slanted"),
        11 => (graded(r), "graded"),
        12 | 13 => (spiral(r), "spiral"),
        _ => return gen::mesh2(r, 30),
    };
    place(&mut m, r);
    (m, format!("2D {name}"))
}

/// Another size, turn and place. Where sides are short, the tolerance of the polygon test reaches
/// far into the cells on both sides of a slanted one.
pub fn place(m: &mut Mesh, r: &mut Rng) {
    let scale = if r.one_in(6) { r.pick(&[1e-5, 1e-4, 1e3]) } else { 1.0 };
    let (s, c) = match r.below(6) {
        0 => r.range(0.0, 7.0).sin_cos(),
        1 | 2 => (1.0, 0.0),
        _ => (0.0, 1.0),
    };
    let by = |r: &mut Rng| if r.one_in(5) { r.range(-100.0, 100.0) } else { r.pick(&[0.0, 0.0, 0.25, -1.0]) };
    let at = [by(r) * scale, by(r) * scale];
    for p in &mut m.pts {
        *p = [(p[0] * c - p[1] * s) * scale + at[0], (p[0] * s + p[1] * c) * scale + at[1], 0.0];
    }
}

/// Toward the far borders, one way or nearly so; or any velocities.
pub fn border_fields(m: &Mesh, r: &mut Rng) -> (Vec<P3>, Vec<f64>) {
    if r.one_in(6) {
        return fields(m, r);
    }
    let way = r.pick(&[[1.0, 0.0], [1.0, 0.0], [0.0, 1.0], [1.0, 1.0], [3.0, 1.0], [-1.0, -0.5]]);
    let by = r.pick(&[0.0, 0.0, 0.25]);
    let about = |x: f64, r: &mut Rng| x + by * r.range(-1.0, 1.0);
    let velocities = m.cells.iter().map(|_| [about(way[0], r), about(way[1], r), 0.0]).collect();
    (velocities, m.cells.iter().map(|_| r.range(-1.0, 1.0)).collect())
}

impl Room<'_> {
    /// A point on or beside what the two locators may see otherwise.
    fn place(&self, r: &mut Rng) -> P3 {
        let kind = r.below(PLACES.len());
        PLACES_MADE[kind].fetch_add(1, Relaxed);
        let axis = r.below(2);
        let tiny = r.pick(&TINY) * r.pick(&[1.0, -1.0]);
        let c = if r.one_in(2) { self.far_cell(r) } else { self.any_cell(r) };
        let i = r.below(c.numbers().len());
        let (a, b) = (self.corner(c, i), self.corner(c, i + 1));
        let mut p = match kind {
            0..=2 => self.within(self.far_cell(r), r),
            3 | 8 | 9 => self.within(c, r),
            4 => [r.pick(&[self.lo[0], self.hi[0], self.hi[0]]), r.pick(&[self.lo[1], self.hi[1], self.hi[1]]), a[2]],
            5 => a,
            6 => mix(a, b, if r.one_in(2) { 0.5 } else { r.unit() }),
            7 => {
                let e = unit(sub(b, a)).unwrap_or([1.0, 0.0, 0.0]);
                along(mix(a, b, r.unit()), [e[1], -e[0], 0.0], tiny)
            }
            10 => [self.hi[0] + r.range(-0.1, 0.5) * self.size, self.hi[1] + r.range(-0.5, 0.5) * self.size, a[2]],
            _ => [r.range(self.lo[0], self.hi[0]), r.range(self.lo[1], self.hi[1]), a[2]],
        };
        let (lo, hi, bins) = (self.lo[axis], self.hi[axis], self.bins[axis]);
        match kind {
            0 => p[axis] = hi,
            1 => p[axis] = hi + tiny,
            2 => p[axis] = beside(hi, r.one_in(2)),
            3 => p[axis] = lo + (hi - lo) * ((bins - r.unit()) / bins),
            4 | 5 if r.one_in(2) => p[axis] = r.pick(&[p[axis] + tiny, beside(p[axis], true), beside(p[axis], false)]),
            8 => {
                let x = lo + (hi - lo) * (r.below(bins as usize + 1) as f64 / bins);
                p[axis] = r.pick(&[x, beside(x, true), beside(x, false), x + tiny]);
            }
            11 => p[axis] = r.pick(&[f64::NAN, f64::INFINITY, -f64::INFINITY]),
            _ => {}
        }
        if r.one_in(30) {
            p[2] = r.odd_float();
        }
        p
    }

    fn border_options(&self, q: Request, r: &mut Rng) -> Request {
        if r.one_in(6) {
            return self.options(q, r, 8);
        }
        let wide = (self.hi[0] - self.lo[0]).max(self.hi[1] - self.lo[1]);
        let step = r.pick(&[0.25, wide * 0.25, wide * 0.1, wide * 0.03, wide * 0.003]);
        let length = r.pick(&[1e9, 1e9, 1e9, wide, step * 3.0]);
        q.word(r.one_in(4) as u64).float(step).word(r.pick(&[1, 4, 12, 40])).float(length).float(0.0)
    }

    /// The same line and sheet, by the bins and then among all cells.
    fn lines(&self, list: &mut Vec<Vec<u64>>, p: P3, r: &mut Rng) {
        let q = self.border_options(Request::of(3).point(p), r).0;
        for code in [3, 13, 11, 14] {
            list.push([&[code], &q[1..]].concat());
        }
    }

    /// All ten codes about a first point, some of them about others; a few words are wrong.
    pub fn border_requests(&self, r: &mut Rng) -> Vec<Vec<u64>> {
        INDEXES_MADE[!self.has_index() as usize].fetch_add(1, Relaxed);
        let mut list = Vec::new();
        for at in 0..3 + r.below(8) {
            let p = self.place(r);
            both(&mut list, Request::of(1).point(p).0);
            if at == 0 || r.one_in(2) {
                both(&mut list, Request::of(2).point(p).0);
            }
            if at == 0 || r.one_in(3) {
                let seed = if r.one_in(2) { p } else { self.within(self.any_cell(r), r) };
                self.lines(&mut list, seed, r);
            }
            if at == 0 || r.one_in(5) {
                let c = if r.one_in(2) { self.any_cell(r) } else { self.far_cell(r) };
                let start = if r.one_in(3) { p } else { self.within(c, r) };
                let q = Request::of(4).point(start).point(self.within(c, r)).word(2 + r.below(4) as u64);
                both(&mut list, self.border_options(q, r).0);
            }
        }
        for q in &mut list {
            if r.one_in(60) {
                spoil(q, r);
            }
        }
        list
    }
}

/// The same question by the bins and among all cells.
pub fn both(list: &mut Vec<Vec<u64>>, q: Vec<u64>) {
    let other = [&[among_all(q[0])], &q[1..]].concat();
    list.extend([q, other]);
}

/// One word of a request that is refused for it, most often.
pub fn spoil(q: &mut Vec<u64>, r: &mut Rng) {
    let used = used_words(q[0]).expect("a known code");
    q.resize(16, 0);
    match r.below(5) {
        0 => q[used + r.below(16 - used)] = r.pick(&[1, 1 << 63, u64::MAX]),
        1 => q[0] = r.pick(&[0, 21, 1 << 32 | q[0], 1 << 63 | q[0]]),
        2 if used > 4 => q[used - 5] = r.pick(&[2, 1 << 32, u64::MAX]),
        3 if used > 4 => q[used - 3] = r.pick(&[0, 65_537, 1 << 32 | 1]),
        4 if used > 4 => q[used - r.pick(&[1, 2, 4])] = r.odd_float().to_bits(),
        _ => q[1 + r.below(2)] = r.odd_float().to_bits(),
    }
}
