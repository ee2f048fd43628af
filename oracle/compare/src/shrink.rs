//! Makes a pair that differs smaller, for as long as it differs: fewer requests, cells and points, zeros in place of
//! arguments, fields and zones, edition 1, shorter buffers, and fewer bytes where the case cannot be read.
use crate::pairs::Pair;
use crate::vectors::P3;
use reference::flursys::CellDefinition;
use reference::refair::gen::{self, Cell, Mesh};
use reference::refair::Lens;
use reference::{first_edition, read_case, second_edition};
use std::ops::Range;
use std::time::{Duration, Instant};

/// How long a pair may be made smaller.
const LONGEST: Duration = Duration::from_secs(8);

struct Shrinker<'a> {
    differs: &'a mut dyn FnMut(&Pair) -> bool,
    best: Pair,
    start: Instant,
}

/// The smallest pair found that `differs` still holds of.
pub fn shrink(p: &Pair, differs: &mut dyn FnMut(&Pair) -> bool) -> Pair {
    let mut s = Shrinker { differs, best: p.clone(), start: Instant::now() };
    loop {
        let before = measure(&s.best);
        s.each(|p| p.requests.len() / 128, without_requests);
        s.each(|p| split(p).map_or(0, |c| c.0.cells.len()), without_cells);
        s.each(|p| split(p).map_or(0, |c| c.0.pts.len()), without_points);
        s.each(|p| p.requests.len() / 8, zero_arguments);
        s.each(|p| split(p).map_or(0, |c| 4 * c.2.len()), zero_fields);
        s.each(|p| zones(p).map_or(0, |zones| zones.len()), zero_zones);
        s.each(|p| zones(p).is_some() as usize, |p, _| in_first_edition(p));
        s.each(|p| if read_case(&p.case).is_err() { p.case.len() } else { 0 }, without_case_bytes);
        s.each(|p| if p.requests.len() % 128 != 0 { p.requests.len() } else { 0 }, without_request_bytes);
        for length in LENGTHS {
            s.bisect(length);
        }
        if measure(&s.best) >= before || s.start.elapsed() > LONGEST {
            return s.best;
        }
    }
}

/// Bytes, bytes that are not zero, and lengths: what shrinking brings down.
fn measure(p: &Pair) -> u64 {
    let zeros = |b: &[u8]| b.iter().filter(|x| **x != 0).count() + b.len();
    (zeros(&p.case) + zeros(&p.requests)) as u64 + LENGTHS.iter().map(|of| *of(&mut p.lens.clone())).sum::<u64>()
}

pub type Length = fn(&mut Lens) -> &mut u64;
pub const LENGTHS: [Length; 4] = [|l| &mut l.words, |l| &mut l.floats, |l| &mut l.marks, |l| &mut l.answers];

impl Shrinker<'_> {
    fn attempt(&mut self, p: Pair) -> bool {
        let kept = self.start.elapsed() <= LONGEST && (self.differs)(&p);
        if kept {
            self.best = p;
        }
        kept
    }

    /// Tries a change on all of `count` parts, on halves, on quarters, down to single ones.
    fn each(&mut self, count: fn(&Pair) -> usize, change: fn(&Pair, Range<usize>) -> Option<Pair>) {
        let mut size = count(&self.best).next_power_of_two();
        while size > 0 {
            let mut at = 0;
            loop {
                let n = count(&self.best);
                if at >= n || self.start.elapsed() > LONGEST {
                    break;
                }
                let kept = change(&self.best, at..n.min(at + size)).is_some_and(|p| self.attempt(p));
                if !kept || count(&self.best) == n {
                    at += size;
                }
            }
            size /= 2;
        }
    }

    /// The least length of a buffer.
    fn bisect(&mut self, length: Length) {
        let mut low = 0;
        while low < *length(&mut self.best.lens.clone()) {
            let middle = low + (*length(&mut self.best.lens.clone()) - low) / 2;
            let mut p = self.best.clone();
            *length(&mut p.lens) = middle;
            if !self.attempt(p) {
                low = middle + 1;
            }
        }
    }
}

pub fn without_requests(p: &Pair, part: Range<usize>) -> Option<Pair> {
    let mut p = p.clone();
    p.requests.drain(128 * part.start..128 * part.end);
    Some(p)
}

fn without_request_bytes(p: &Pair, part: Range<usize>) -> Option<Pair> {
    let mut p = p.clone();
    p.requests.drain(part);
    Some(p)
}

fn without_case_bytes(p: &Pair, part: Range<usize>) -> Option<Pair> {
    let mut p = p.clone();
    p.case.drain(part);
    Some(p)
}

/// Zeros for words of the requests; the codes stay.
pub fn zero_arguments(p: &Pair, part: Range<usize>) -> Option<Pair> {
    let mut p = p.clone();
    let mut any = false;
    for i in part.filter(|i| i % 16 != 0) {
        let word = &mut p.requests[8 * i..8 * i + 8];
        any |= word.iter().any(|b| *b != 0);
        word.fill(0);
    }
    any.then_some(p)
}

/// Mesh, velocities and pressures of a readable case, and the zones of edition 2.
type Parts = (Mesh, Vec<P3>, Vec<f64>, Option<Vec<u32>>);

fn split(p: &Pair) -> Option<Parts> {
    let read = read_case(&p.case).ok()?;
    let (c, zones) = (read.case, (read.edition == 2).then_some(read.zones));
    let numbers = |list: &[usize]| list.iter().map(|&v| v as u32).collect::<Vec<_>>();
    let cell = |d: &CellDefinition| match d {
        CellDefinition::Polygon(v) => Cell::of(0, numbers(v)),
        CellDefinition::Tetrahedron(v) => Cell::of(1, numbers(v)),
        CellDefinition::Hexahedron(v) => Cell::of(2, numbers(v)),
        CellDefinition::Prism(v) => Cell::of(3, numbers(v)),
        CellDefinition::Pyramid(v) => Cell::of(4, numbers(v)),
        CellDefinition::Polyhedron(faces) => Cell::poly(faces.iter().map(|f| numbers(f)).collect()),
    };
    let pts = c.points.iter().map(|p| [p.x, p.y, p.z]).collect();
    let m = Mesh { dim: c.dimension, pts, cells: c.defs.iter().map(cell).collect() };
    Some((m, c.velocity.iter().map(|v| [v.x, v.y, v.z]).collect(), c.pressure, zones))
}

fn zones(p: &Pair) -> Option<Vec<u32>> {
    split(p)?.3
}

fn joined(p: &Pair, (m, vel, pre, zones): &Parts) -> Pair {
    let first = gen::case_bytes(m.dim, &m.pts, &gen::mesh_words(m), vel, pre);
    let case = zones.as_ref().map_or_else(|| first.clone(), |zones| second_edition(&first, zones));
    Pair { case, ..p.clone() }
}

pub fn without_cells(p: &Pair, part: Range<usize>) -> Option<Pair> {
    let mut parts = split(p)?;
    parts.0.cells.drain(part.clone());
    parts.1.drain(part.clone());
    parts.2.drain(part.clone());
    parts.3.iter_mut().for_each(|zones| drop(zones.drain(part.clone())));
    Some(joined(p, &parts))
}

/// Without points, where no cell has them.
fn without_points(p: &Pair, part: Range<usize>) -> Option<Pair> {
    let mut parts = split(p)?;
    let used = |v: &u32| part.contains(&(*v as usize));
    if parts.0.cells.iter().any(|c| c.numbers().iter().any(used)) {
        return None;
    }
    parts.0.pts.drain(part.clone());
    for c in &mut parts.0.cells {
        for v in c.v.iter_mut().chain(c.faces.iter_mut().flatten()) {
            *v -= if *v as usize >= part.end { part.len() as u32 } else { 0 };
        }
    }
    Some(joined(p, &parts))
}

/// Zeros for the fields: cell after cell its velocity, its pressure.
pub fn zero_fields(p: &Pair, part: Range<usize>) -> Option<Pair> {
    let mut parts = split(p)?;
    let mut any = false;
    for i in part {
        let x = if i % 4 < 3 { &mut parts.1[i / 4][i % 4] } else { &mut parts.2[i / 4] };
        any |= x.to_bits() != 0;
        *x = 0.0;
    }
    any.then(|| joined(p, &parts))
}

/// Zeros for the zones of edition 2.
pub fn zero_zones(p: &Pair, part: Range<usize>) -> Option<Pair> {
    let mut parts = split(p)?;
    let zones = &mut parts.3.as_mut()?[part];
    let any = zones.iter().any(|zone| *zone != 0);
    zones.fill(0);
    any.then(|| joined(p, &parts))
}

/// The same contents without the zones.
pub fn in_first_edition(p: &Pair) -> Option<Pair> {
    Some(Pair { case: first_edition(&p.case)?, ..p.clone() })
}
