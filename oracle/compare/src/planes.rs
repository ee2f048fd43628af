//! Requests of codes 5 to 8: planes on, beside and through faces, edges and corners, and points near them.
use crate::lines::Request;
use crate::meshes::{faces_of, mean};
use crate::room::Room;
use crate::vectors::{along, cross, dot, mix, sub, unit, P3};
use reference::refair::gen::{self, Cell, Rng};
use std::sync::atomic::{AtomicU64, Ordering::Relaxed};

pub const PLANES: [&str; 12] = [
    "face", "face from a corner", "beside a face", "edge", "corner", "tangent", "beside the tangent", "missing",
    "three corners", "far origin", "oblique", "middle of a cell",
];
/// How many planes of each kind were made.
pub static PLANES_MADE: [AtomicU64; 12] = [const { AtomicU64::new(0) }; 12];

/// Origin, u, v.
pub type Plane = [P3; 3];

/// What a plane is laid on: a cell, an edge (a, b) of one of its faces, and the plane of that face.
struct Target<'a> {
    c: &'a Cell,
    a: P3,
    b: P3,
    face: Option<Plane>,
}

impl Room<'_> {
    pub fn plane(&self, r: &mut Rng) -> Plane {
        let m = self.m;
        let c = self.any_cell(r);
        let faces = faces_of(c);
        let f = &faces[r.below(faces.len())];
        let at = |i: usize| m.pts[f[i % f.len()] as usize];
        let i = r.below(f.len());
        let (a, b) = (at(i), at(i + 1));
        let kind = match r.below(PLANES.len() + 4) {
            k if k < PLANES.len() => k,
            k => [0, 3, 10, 11][k % 4],
        };
        PLANES_MADE[kind].fetch_add(1, Relaxed);
        let face = unit(sub(b, a)).and_then(|u| {
            let n = (2..f.len()).find_map(|k| unit(cross(u, sub(at(i + k), a))))?;
            Some([mix(a, mean(m, f), 0.5), u, unit(cross(n, u))?])
        });
        let axes = axes(r);
        let mut p = self.laid(kind, Target { c, a, b, face }, axes, r);
        if r.one_in(3) {
            p.swap(1, 2);
        }
        disturb(&mut p, r);
        p
    }

    fn laid(&self, kind: usize, t: Target, (u, v, n): (P3, P3, P3), r: &mut Rng) -> Plane {
        let (a, b) = (t.a, t.b);
        let tolerance = self.size * 1e-10 * r.pick(&[0.3, 0.5, 0.9, 0.999, 1.0, 1.001, 1.1, 2.0, 1e3]) * r.pick(&[1.0, -1.0]);
        match kind {
            0..=2 => {
                // the plane of a face, from a corner of it, or beside it by about the tolerance
                let [o, u, v] = t.face.unwrap_or([a, u, v]);
                [[o, a, along(o, cross(u, v), tolerance)][kind], u, v]
            }
            3 => match unit(sub(b, a)).and_then(|e| Some((e, unit(along(u, e, -dot(u, e)))?))) {
                Some((e, w)) => [mix(a, b, r.pick(&[0.0, 0.5])), e, w],
                None => [a, u, v],
            },
            4 => [along(a, n, if r.one_in(3) { tolerance } else { 0.0 }), u, v],
            5 => [self.farthest(a, n), u, v],
            6 => [along(self.farthest(a, n), n, tolerance), u, v],
            7 => [along(self.farthest(a, n), n, self.size * r.range(0.0, 2.0)), u, v],
            8 => {
                let (d, e) = (self.corner(self.any_cell(r), r.below(8)), self.corner(self.any_cell(r), r.below(8)));
                match (unit(sub(d, a)), unit(cross(sub(d, a), sub(e, a)))) {
                    (Some(u), Some(n)) => [a, u, unit(cross(n, u)).unwrap_or(v)],
                    _ => [a, u, v],
                }
            }
            9 => [along(mean(self.m, &t.c.numbers()), u, self.size * r.pick(&[2.0, 100.0, 1e4])), u, v],
            10 => {
                let (u, v, _) = gen::frame(r);
                [mix(a, b, r.unit()), u, v]
            }
            _ => [mean(self.m, &t.c.numbers()), u, v],
        }
    }

    /// The used point that lies farthest along n, at least as far as a.
    fn farthest(&self, a: P3, n: P3) -> P3 {
        let mut best = a;
        for i in self.m.cells.iter().flat_map(|c| c.numbers()) {
            if dot(self.m.pts[i as usize], n) > dot(best, n) {
                best = self.m.pts[i as usize];
            }
        }
        best
    }

    pub fn plane_request(&self, [o, u, v]: Plane, r: &mut Rng) -> Vec<u64> {
        let code = 5 + r.below(4) as u64;
        let q = Request::of(code).point(o).point(u).point(v);
        match code {
            6 => {
                let field = match r.below(30) {
                    0 => 6,
                    1 => r.next(),
                    n => (n % 6) as u64,
                };
                q.word(field).0
            }
            8 => q.point(self.probe([o, u, v], r)).0,
            _ => q.0,
        }
    }

    /// A point on, near or off the plane.
    fn probe(&self, [o, u, v]: Plane, r: &mut Rng) -> P3 {
        let n = cross(u, v);
        let c = self.any_cell(r);
        let drop = |p: P3| along(p, n, -dot(sub(p, o), n));
        let (a, b) = (self.corner(c, r.below(8)), self.corner(c, r.below(8)));
        match r.below(10) {
            0 => o,
            1 => a,
            2 => drop(a),
            3 => mix(a, b, 0.5),
            4 => drop(mix(a, b, r.unit())),
            5 => along(drop(mean(self.m, &c.numbers())), n, r.pick(&[1e-8, 0.99e-8, 1.01e-8, -1e-8, 2e-8, -1e-3])),
            6 => along(along(o, u, r.range(-1.0, 1.0) * self.size), v, r.range(-1.0, 1.0) * self.size),
            7 if r.one_in(3) => [r.odd_float(), r.range(-1.0, 1.0), r.odd_float()],
            _ => drop(self.within(c, r)),
        }
    }
}

/// u, v and the normal.
fn axes(r: &mut Rng) -> (P3, P3, P3) {
    let (u, v) = match r.below(3) {
        0 => return gen::frame(r),
        1 => {
            let s = 0.5f64.sqrt();
            let k = (1.0f64 / 6.0).sqrt();
            r.pick(&[
                ([s, s, 0.0], [0.0, 0.0, 1.0]),
                ([s, -s, 0.0], [k, k, -2.0 * k]),
                ([0.6, 0.8, 0.0], [-0.8, 0.6, 0.0]),
                ([0.0, s, -s], [1.0, 0.0, 0.0]),
            ])
        }
        _ => {
            let e = [[1.0, 0.0, 0.0], [0.0, 1.0, 0.0], [0.0, 0.0, 1.0]];
            let k = r.below(3);
            let (s, t) = (r.pick(&[1.0, -1.0]), r.pick(&[1.0, -1.0]));
            (e[k].map(|x: f64| x * s), e[(k + 1 + r.below(2)) % 3].map(|x| x * t))
        }
    };
    (u, v, cross(u, v))
}

/// Axes and origins at the limits of 36 and 37, and signed zeros.
fn disturb(p: &mut Plane, r: &mut Rng) {
    match r.below(80) {
        0 => {
            let i = r.below(3);
            p[i][r.below(3)] = r.odd_float();
        }
        1 => {
            let i = 1 + r.below(2);
            p[i][r.below(3)] += r.pick(&[1e-6, 2e-7, 1e-7, 5e-8]);
        }
        2 => {
            let s = 1.0 + r.pick(&[0.9e-7, 1e-7, 1.1e-7, -0.9e-7, -1.1e-7]);
            let i = 1 + r.below(2);
            p[i] = p[i].map(|x| x * s);
        }
        3 => p[0][r.below(3)] = r.pick(&[1_048_576.0, 1_048_576.000_000_000_2, -1_048_576.0, -1_048_577.0, 1e18]),
        4 => p[1] = p[2],
        _ => {}
    }
    if r.one_in(4) {
        for x in p[1..].iter_mut().flatten() {
            if *x == 0.0 && r.one_in(2) {
                *x = -*x;
            }
        }
    }
}
