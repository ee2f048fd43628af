//! Rooms and requests for the position of a point, the second word of codes 1 and 9: points on
//! sides and at vertices, beside them by the tolerance of the polygon test and one float further,
//! on sides that two cells share, in the middle of cells, outside and not finite. The rooms have
//! upright and slanted sides, triangles, cells that are not convex, cells over each other, and
//! cells so small that the tolerance reaches far into them.
use crate::border::{border_mesh, both, place, spoil};
use crate::lines::Request;
use crate::meshes::rooms;
use crate::room::Room;
use crate::vectors::P3;
use reference::refair::gen::{self, Cell, Mesh, Rng};
use reference::refair::ref02::standing;
use reference::refair::{read_case, with_room, Order, Stats};
use std::collections::BTreeMap;
use std::sync::atomic::{AtomicU64, Ordering::Relaxed};

pub const EDGES: [&str; 15] = [
    "middle of a cell", "within a cell", "vertex", "on a side", "1e-12 beside a side",
    "1e-12 from a side along an axis", "a float further", "1e-12 beside a vertex", "a float further than that",
    "last float of an edge", "first float off an edge", "at a side of two cells", "level with a vertex", "outside",
    "not finite",
];
/// How many points of each kind were made.
pub static EDGES_MADE: [AtomicU64; 15] = [const { AtomicU64::new(0) }; 15];

/// The tolerance of the polygon test.
const TOLERANCE: f64 = 1e-12;

/// A point or a vertex, without its height.
type Flat = [f64; 2];

/// Cells like arrows, side by side: none of them is convex.
fn arrows(r: &mut Rng) -> Mesh {
    let (nx, ny, d) = (1 + r.below(4), 1 + r.below(3), r.pick(&[1.0, 0.5, 0.3]));
    let lean = r.pick(&[0.5, 0.25, -0.5]) * d;
    let mut m = gen::grid2(nx, 2 * ny, d, d);
    let row = nx + 1;
    for (at, p) in m.pts.iter_mut().enumerate() {
        p[0] += if at / row % 2 == 1 { lean } else { 0.0 };
    }
    let arrow = |i: usize, j: usize| {
        let low = 2 * j * row + i;
        let around = [low, low + 1, low + 1 + row, low + 1 + 2 * row, low + 2 * row, low + row];
        Cell::of(0, around.map(|v| v as u32).to_vec())
    };
    m.cells = (0..ny).flat_map(|j| (0..nx).map(move |i| arrow(i, j))).collect();
    m
}

pub fn edge_mesh(r: &mut Rng) -> (Mesh, String) {
    match r.below(8) {
        0 => (rooms(r), "2D rooms".into()),
        1 | 2 => {
            let mut m = arrows(r);
            if r.one_in(2) {
                place(&mut m, r);
            }
            (m, "2D arrows".into())
        }
        3 => {
            let mut m = if r.one_in(2) { arrows(r) } else { rooms(r) };
            let size = r.pick(&[2e-6, 4e-6, 1e-5]);
            m.pts.iter_mut().for_each(|p| *p = p.map(|x| x * size));
            (m, "2D smallest".into())
        }
        4 | 5 => border_mesh(r),
        _ => {
            let got = gen::mesh2(r, 30);
            // most of these two are refused
            if got.1.ends_with("dart") || got.1.ends_with("threshold") { gen::mesh2(r, 30) } else { got }
        }
    }
}

/// The polygons that the points are held against; none where the mesh is refused.
fn polygons(room: &Room) -> Vec<Vec<(f64, f64)>> {
    let n = room.m.cells.len();
    let case = gen::case_bytes(2, &room.m.pts, &gen::mesh_words(room.m), &vec![[0.0; 3]; n], &vec![0.0; n]);
    let Ok(case) = read_case(&case) else { return Vec::new() };
    let made = with_room(&case, Order::Rust, &mut Stats::default(), |room, _| room.twin.clone());
    made.ok().flatten().map_or(Vec::new(), |twin| twin.polygons)
}

/// The sides that are listed by two cells or more.
fn shared(polygons: &[Vec<(f64, f64)>]) -> Vec<[Flat; 2]> {
    let mut sides = BTreeMap::<[[u64; 2]; 2], (u32, [Flat; 2])>::new();
    for p in polygons {
        for i in 0..p.len() {
            let side = [p[i], p[(i + 1) % p.len()]].map(|v| [v.0, v.1]);
            let mut key = side.map(|v| v.map(f64::to_bits));
            key.sort();
            sides.entry(key).or_insert((0, side)).0 += 1;
        }
    }
    sides.into_values().filter(|s| s.0 > 1).map(|s| s.1).collect()
}

fn mix(a: Flat, b: Flat, t: f64) -> Flat {
    [0, 1].map(|k| a[k] + (b[k] - a[k]) * t)
}

fn mean(polygon: &[(f64, f64)]) -> Flat {
    let n = polygon.len() as f64;
    polygon.iter().fold([0.0; 2], |q, v| [q[0] + v.0 / n, q[1] + v.1 / n])
}

fn moved(mut p: Flat, axis: usize, x: f64) -> Flat {
    p[axis] = x;
    p
}

/// Across a side by so much.
fn across(p: Flat, [a, b]: [Flat; 2], by: f64) -> Flat {
    let (x, y) = (b[0] - a[0], b[1] - a[1]);
    let length = x.hypot(y);
    [p[0] + y / length * by, p[1] - x / length * by]
}

/// Along an axis away from a point on the edge of a polygon: the last float that is on the edge and
/// the next, which is not. The point itself and the float beside it, where it is on no edge.
pub fn rim(polygon: &[(f64, f64)], p: Flat, axis: usize, up: bool) -> [f64; 2] {
    let on = |x: f64| {
        let q = moved(p, axis, x);
        standing((q[0], q[1]), polygon) == 1
    };
    let sign = if up { 1.0 } else { -1.0 };
    let mut last = p[axis];
    let next = if up { last.next_up() } else { last.next_down() };
    if !on(last) {
        return [last, next];
    }
    let far = (-16..4).map(|e| last + sign * 10f64.powi(e)).find(|x| !on(*x));
    let Some(mut off) = far else { return [last, next] };
    loop {
        let middle = last + (off - last) / 2.0;
        if middle == last || middle == off {
            return [last, off];
        }
        *if on(middle) { &mut last } else { &mut off } = middle;
    }
}

/// A room with its polygons and the sides that two of them share.
pub struct Edges<'a> {
    room: &'a Room<'a>,
    polygons: Vec<Vec<(f64, f64)>>,
    shared: Vec<[Flat; 2]>,
}

impl<'a> Edges<'a> {
    /// None where the mesh is refused.
    pub fn of(room: &'a Room<'a>) -> Option<Self> {
        let polygons = polygons(room);
        let shared = shared(&polygons);
        (!polygons.is_empty()).then_some(Self { room, polygons, shared })
    }

    fn point(&self, r: &mut Rng) -> P3 {
        let kind = r.below(EDGES.len());
        EDGES_MADE[kind].fetch_add(1, Relaxed);
        let polygon = &self.polygons[r.below(self.polygons.len())];
        let i = r.below(polygon.len());
        let [x, y] = match kind {
            0 => mean(polygon),
            1 => mix(mean(polygon), corner(polygon, i), r.range(0.0, 0.9)),
            2..=8 => beside(kind, [corner(polygon, i), corner(polygon, i + 1)], r),
            9 | 10 => {
                let (share, axis) = (r.unit(), r.below(2));
                let p = mix(corner(polygon, i), corner(polygon, i + 1), r.pick(&[0.0, 0.5, 0.25, share]));
                moved(p, axis, rim(polygon, p, axis, r.one_in(2))[kind - 9])
            }
            11 if !self.shared.is_empty() => {
                let (side, share) = (r.pick(&self.shared), r.unit());
                let p = mix(side[0], side[1], r.pick(&[0.5, 0.25, share]));
                across(p, side, r.pick(&[0.0, 0.5, -0.5, 0.9, -0.9, 1.1, -1.1]) * TOLERANCE)
            }
            _ => self.elsewhere(kind, corner(polygon, i), r),
        };
        [x, y, if r.one_in(30) { r.odd_float() } else { 0.0 }]
    }

    fn elsewhere(&self, kind: usize, vertex: Flat, r: &mut Rng) -> Flat {
        let (lo, hi) = (self.room.lo, self.room.hi);
        let [x, y] = [0, 1].map(|k| r.range(lo[k], hi[k]));
        match kind {
            12 => [x, vertex[1]],
            13 => [hi[0] + r.range(0.0, 0.5) * self.room.size, y],
            14 => moved([x, y], r.below(2), r.pick(&[f64::NAN, f64::INFINITY, -f64::INFINITY])),
            _ => [x, y],
        }
    }

    /// Each point by its bin and among all cells, and for some of them the velocity; a few words
    /// are wrong.
    pub fn requests(&self, r: &mut Rng) -> Vec<Vec<u64>> {
        let mut list = Vec::new();
        for _ in 0..4 + r.below(16) {
            let p = self.point(r);
            both(&mut list, Request::of(1).point(p).0);
            if r.one_in(5) {
                list.push(Request::of(r.pick(&[2, 10])).point(p).0);
            }
        }
        for q in &mut list {
            if r.one_in(100) {
                spoil(q, r);
            }
        }
        list
    }
}

fn corner(polygon: &[(f64, f64)], i: usize) -> Flat {
    let v = polygon[i % polygon.len()];
    [v.0, v.1]
}

/// On or beside a side or its first vertex.
fn beside(kind: usize, [a, b]: [Flat; 2], r: &mut Rng) -> Flat {
    let on = mix(a, b, if r.one_in(2) { 0.5 } else { r.unit() });
    let (axis, up) = (r.below(2), r.one_in(2));
    let sign = if up { 1.0 } else { -1.0 };
    let from = if kind < 7 { on } else { a };
    let near = from[axis] + sign * TOLERANCE;
    match kind {
        2 => a,
        3 => on,
        // the test compares a distance times the length of the side
        4 if r.one_in(2) => across(on, [a, b], sign * TOLERANCE / (b[0] - a[0]).hypot(b[1] - a[1])),
        4 => across(on, [a, b], sign * TOLERANCE),
        5 | 7 => moved(from, axis, near),
        _ => moved(from, axis, if up { near.next_up() } else { near.next_down() }),
    }
}
