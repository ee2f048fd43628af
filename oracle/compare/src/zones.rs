//! Pairs of edition 2 files: lines from seeds on the border of two zones, beside it, along it and
//! whole steps before it, both ways, and rakes whose seeds lie in several zones. Each line is asked
//! for by the bins and among all cells, as points and in millimetres. Some files have a fault, and a
//! few are solids with sections, which zones leave as they are.
use crate::border::{both, spoil};
use crate::damage::{answer_edge_of, length_edge};
use crate::fields::fields;
use crate::lines::Request;
use crate::meshes::{mixed, renumber};
use crate::pairs::{finished, Pair};
use crate::room::Room;
use crate::vectors::{along, mix, sub, unit, P3};
use crate::zone_faults::zone_fault;
use crate::zone_rooms::{zone_fields, zone_mesh, zones_of};
use reference::refair::gen::{self, Rng};
use reference::{among_all, by_bins, second_edition};
use std::collections::BTreeMap;
use std::sync::atomic::{AtomicU64, Ordering::Relaxed};

pub const SEEDS: [&str; 6] =
    ["within a cell", "on a border of zones", "at an end of one", "beside one", "steps before one", "anywhere"];
/// How many seeds of each kind were made.
pub static SEEDS_MADE: [AtomicU64; 6] = [const { AtomicU64::new(0) }; 6];

/// A room whose cells have zones.
struct Zoned<'a> {
    room: &'a Room<'a>,
    /// sides between two cells of different zones
    borders: Vec<[P3; 2]>,
}

impl<'a> Zoned<'a> {
    fn of(room: &'a Room<'a>, zones: &[u32]) -> Self {
        let mut sides = BTreeMap::<[u32; 2], u32>::new();
        let mut borders = Vec::new();
        for (c, &zone) in room.m.cells.iter().zip(zones) {
            let v = c.numbers();
            for i in 0..v.len() {
                let mut side = [v[i], v[(i + 1) % v.len()]];
                side.sort();
                if sides.insert(side, zone).is_some_and(|other| other != zone) {
                    borders.push(side.map(|k| room.m.pts[k as usize]));
                }
            }
        }
        Self { room, borders }
    }

    /// A side between two zones; where there is none, of any cell.
    fn border(&self, r: &mut Rng) -> [P3; 2] {
        if !self.borders.is_empty() {
            return r.pick(&self.borders);
        }
        let c = self.room.any_cell(r);
        let i = r.below(c.numbers().len());
        [self.room.corner(c, i), self.room.corner(c, i + 1)]
    }

    fn seed(&self, step: f64, r: &mut Rng) -> P3 {
        let kind = r.below(SEEDS.len());
        SEEDS_MADE[kind].fetch_add(1, Relaxed);
        let [a, b] = self.border(r);
        let share = r.unit();
        let p = mix(a, b, r.pick(&[0.5, 0.25, share]));
        match kind {
            0 => self.room.within(self.room.any_cell(r), r),
            1 => p,
            2 => a,
            3 => {
                let e = unit(sub(b, a)).unwrap_or([1.0, 0.0, 0.0]);
                along(p, [e[1], -e[0], 0.0], r.pick(&[5e-13, -5e-13, 1e-12, -1e-12, 2e-12, -2e-12, 1e-9, -1e-9, 1e-3]))
            }
            4 => {
                let way = unit(self.room.vel[r.below(self.room.vel.len())]).unwrap_or([1.0, 0.0, 0.0]);
                along(p, way, step * (r.below(9) as f64 - 4.0))
            }
            _ => self.room.spot(r),
        }
    }

    /// From a sixteenth of a metre to one that steps over a whole zone.
    fn step(&self, r: &mut Rng) -> f64 {
        let size = self.room.size;
        let share = r.pick(&[0.01, 0.03, 0.03, 0.1, 0.1, 0.25, 0.5]);
        if r.one_in(2) { size * share } else { r.pick(&[0.25, 0.125, 0.0625, 0.5, 1.0]) }
    }

    fn options(&self, q: Request, step: f64, r: &mut Rng) -> Vec<u64> {
        if r.one_in(10) {
            return self.room.options(q, r, 8).0;
        }
        let length = r.pick(&[1e9, 1e9, 1e9, self.room.size, step * 3.0]);
        q.word(r.below(2) as u64).float(step).word(r.pick(&[1, 4, 12, 40, 40])).float(length).float(0.0).0
    }

    /// The same line as points and as a sheet, by the bins and among all cells; or some of these.
    fn line(&self, list: &mut Vec<Vec<u64>>, r: &mut Rng) {
        let step = self.step(r);
        let q = self.options(Request::of(3).point(self.seed(step, r)), step, r);
        let every = r.one_in(2);
        for code in [3, 13, 11, 14] {
            if every || r.one_in(2) {
                list.push([&[code], &q[1..]].concat());
            }
        }
    }

    fn rake(&self, list: &mut Vec<Vec<u64>>, r: &mut Rng) {
        let step = self.step(r);
        let (start, end) = (self.seed(step, r), self.seed(step, r));
        let count = if r.one_in(20) { 64 } else { 2 + r.below(8) as u64 };
        both(list, self.options(Request::of(4).point(start).point(end).word(count), step, r));
    }

    fn requests(&self, r: &mut Rng) -> Vec<Vec<u64>> {
        let mut list = Vec::new();
        for at in 0..2 + r.below(6) {
            match r.below(8) {
                _ if at == 0 => self.line(&mut list, r),
                0..=3 => self.line(&mut list, r),
                4 | 5 => self.rake(&mut list, r),
                6 => list.push(self.room.line_request(r)),
                _ => {
                    let p = self.seed(0.25, r);
                    both(&mut list, Request::of(1).point(p).0);
                    list.push(Request::of(r.pick(&[2, 10])).point(p).0);
                }
            }
        }
        for q in &mut list {
            if r.one_in(80) {
                spoil(q, r);
            }
        }
        list
    }
}

pub fn zones_pair(r: &mut Rng) -> Pair {
    let mut pair = if r.one_in(12) { solid(r) } else { flat(r) };
    if r.one_in(8) {
        answer_edge_of(&mut pair, |code| [3, 4, 5, 13].contains(&by_bins(code)), r);
    }
    if r.one_in(16) {
        length_edge(&mut pair, r);
    }
    if r.one_in(6) {
        zone_fault(&mut pair, r);
    }
    pair
}

fn flat(r: &mut Rng) -> Pair {
    let (mut m, sort) = zone_mesh(r);
    renumber(&mut m, r);
    let (vel, pre) = zone_fields(&m, r);
    let zones = zones_of(&m, r);
    let requests = Zoned::of(&Room::of(&m, &vel), &zones).requests(r);
    let pair = finished(&m, &vel, &pre, &requests, sort + " zones");
    Pair { case: second_edition(&pair.case, &zones), ..pair }
}

/// Solids, their sections, and now and then a line, which needs a 2D case.
fn solid(r: &mut Rng) -> Pair {
    let (mut m, sort) = if r.one_in(3) { (mixed(r), "3D mixed".into()) } else { gen::mesh3(r, 20) };
    renumber(&mut m, r);
    let (vel, pre) = fields(&m, r);
    let zones = zones_of(&m, r);
    let room = Room::of(&m, &vel);
    let ask = |r: &mut Rng| match r.below(12) {
        0 => {
            let mut q = room.line_request(r);
            q[0] = if r.one_in(2) { among_all(q[0]) } else { q[0] };
            q
        }
        _ => room.plane_request(room.plane(r), r),
    };
    let requests: Vec<_> = (0..1 + r.below(6)).map(|_| ask(r)).collect();
    let pair = finished(&m, &vel, &pre, &requests, sort + " zones");
    Pair { case: second_edition(&pair.case, &zones), ..pair }
}
