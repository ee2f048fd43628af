//! The pairs (case, requests): a seed and a mode decide one, with the lengths of the lent buffers.
use crate::border::{border_fields, border_mesh};
use crate::damage::{answer_edge, answer_edge_of, damage, length_edge, shorten};
use crate::edges::{edge_mesh, Edges};
use crate::fields::fields;
use crate::limits::{large, small_words};
use crate::lines::Request;
use crate::meshes::{long_room, mixed, renumber, rooms};
use crate::room::Room;
use crate::sheets::{long_sheet, sheet_fields, sheet_mesh};
use crate::vectors::P3;
use crate::zone_rooms::zones_of_bytes;
use crate::zones::zones_pair;
use reference::refair::gen::{self, Mesh, Rng};
use reference::refair::Lens;
use reference::{among_all, by_bins, read_case};

#[derive(Clone)]
pub struct Pair {
    pub case: Vec<u8>,
    pub requests: Vec<u8>,
    pub lens: Lens,
    /// how it was made, for the summary
    pub sort: String,
}

impl Pair {
    /// The code of a request.
    pub fn code(&self, request: usize) -> u64 {
        self.word(request, 0)
    }

    pub fn word(&self, request: usize, at: usize) -> u64 {
        let from = 128 * request + 8 * at;
        u64::from_le_bytes(self.requests[from..from + 8].try_into().expect("eight bytes"))
    }
}

#[derive(Clone, Copy, PartialEq)]
pub enum Mode {
    Lines,
    Planes,
    Sheets,
    Border,
    Edges,
    Zones,
    All,
    Mixed,
    Files,
}

impl Mode {
    /// The option that asks for it.
    pub fn name(self) -> &'static str {
        [" --lines", " --planes", " --sheets", " --border", " --edges", " --zones", " --all", "", " --files"][self as usize]
    }
}

/// The words, floats and marks that a readable case needs.
pub fn need(case: &[u8]) -> Option<(u64, u64, u64)> {
    let c = read_case(case).ok()?.case;
    let (f, n) = (c.faces, c.defs.len() as u64);
    Some((16 * f + 96 * n, 12 * f + 64 * n, n))
}

pub fn made(seed: u64, mode: Mode) -> Pair {
    let r = &mut Rng::new(seed ^ (mode as u64 + 1) << 56);
    let mut pair = of_mode(seed, mode, r);
    if mode != Mode::Zones && r.one_in(if mode == Mode::Files { 2 } else { 8 }) {
        zones_of_bytes(&mut pair, r);
    }
    pair
}

fn of_mode(seed: u64, mode: Mode, r: &mut Rng) -> Pair {
    match mode {
        Mode::Lines => lines_pair(r),
        Mode::Planes => planes_pair(r),
        Mode::Sheets => sheets_pair(r),
        Mode::Border => border_pair(r),
        Mode::Edges => edges_pair(r),
        Mode::Zones => zones_pair(r),
        Mode::All => any_pair(seed, r),
        Mode::Mixed if r.one_in(300) => large(r),
        Mode::Mixed => match r.below(16) {
            0..=2 => lines_pair(r),
            3..=5 => planes_pair(r),
            6 | 7 => sheets_pair(r),
            8 | 9 => border_pair(r),
            10 => edges_pair(r),
            11 | 12 => zones_pair(r),
            _ => any_pair(seed, r),
        },
        Mode::Files if r.one_in(40) => large(r),
        Mode::Files => match r.below(8) {
            0 => lines_pair(r),
            1 | 2 => planes_pair(r),
            3 => border_pair(r),
            4 => edges_pair(r),
            5 => zones_pair(r),
            6 => small_words(r),
            _ => any_pair(seed, r),
        },
    }
}

pub fn finished(m: &Mesh, vel: &[P3], pre: &[f64], requests: &[Vec<u64>], sort: String) -> Pair {
    let case = gen::case_bytes(m.dim, &m.pts, &gen::mesh_words(m), vel, pre);
    let mut lens = Lens::default();
    if let Some((w, f, c)) = need(&case) {
        lens.words = lens.words.max(w);
        lens.floats = lens.floats.max(f);
        lens.marks = lens.marks.max(c);
    }
    Pair { case, requests: gen::req_bytes(requests), lens, sort }
}

fn how_many(r: &mut Rng) -> usize {
    match r.below(24) {
        0 => 0,
        1..=4 => 1,
        5 => 20 + r.below(40),
        _ => 2 + r.below(11),
    }
}

fn line_mesh(r: &mut Rng) -> (Mesh, String) {
    match r.below(40) {
        0..=5 => (rooms(r), "2D rooms".to_string()),
        6 if r.one_in(4) => (long_room(r), "2D long".to_string()),
        _ => {
            let cap = r.pick(&[10, 30, 60]);
            let got = gen::mesh2(r, cap);
            // most of these two are refused
            if got.1.ends_with("dart") || got.1.ends_with("threshold") { gen::mesh2(r, cap) } else { got }
        }
    }
}

fn lines_pair(r: &mut Rng) -> Pair {
    let (mut m, sort) = line_mesh(r);
    renumber(&mut m, r);
    let (mut vel, pre) = fields(&m, r);
    // velocities of signed zeros, asked for where the fraction is a zero of either sign: at centres on a slope
    let zeros = r.one_in(12);
    if zeros {
        for p in &mut m.pts {
            p[2] = r.range(-1.0, 1.0);
        }
        for v in vel.iter_mut().flatten() {
            *v = r.pick(&[-0.0, -0.0, 0.0, 1.0, -1.0]);
        }
    }
    let mut room = Room::of(&m, &vel);
    if zeros || r.one_in(4) {
        room = room.with_centres();
    }
    let requests: Vec<_> = (0..how_many(r))
        .map(|_| match r.below(4) {
            0 => either_way(gen::request(&m, r), r),
            1 | 2 if zeros && !room.centres.is_empty() => Request::of(r.pick(&[2, 10])).point(r.pick(&room.centres)).0,
            _ => room.line_request(r),
        })
        .collect();
    let mut pair = finished(&m, &vel, &pre, &requests, sort);
    shorten(&mut pair.requests, r);
    if requests.iter().any(|q| [3, 13].contains(&by_bins(q[0])) && q[6] == 65_536) && !r.one_in(8) {
        pair.lens.answers = 200_000; // such a line has up to 196,612 words
    }
    if r.one_in(8) {
        answer_edge(&mut pair, r);
    }
    pair
}

/// A request by the bins, or half of the time the same among all cells.
fn either_way(mut q: Vec<u64>, r: &mut Rng) -> Vec<u64> {
    if r.one_in(2) {
        q[0] = among_all(q[0]);
    }
    q
}

fn planes_pair(r: &mut Rng) -> Pair {
    let (mut m, sort) = if r.one_in(3) {
        (mixed(r), "3D mixed".to_string())
    } else {
        let cap = r.pick(&[10, 30, 60]);
        gen::mesh3(r, cap)
    };
    renumber(&mut m, r);
    let (vel, pre) = fields(&m, r);
    let room = Room::of(&m, &vel);
    let mut plane = room.plane(r);
    let requests: Vec<_> = (0..how_many(r))
        .map(|_| {
            if r.one_in(4) {
                return gen::request(&m, r);
            }
            if r.one_in(30) {
                return if r.one_in(2) { room.sheet_request(r) } else { room.line_request(r) }; // 31
            }
            if r.one_in(2) {
                plane = room.plane(r);
            }
            room.plane_request(plane, r)
        })
        .collect();
    let mut pair = finished(&m, &vel, &pre, &requests, sort);
    if r.one_in(8) {
        answer_edge(&mut pair, r);
    }
    pair
}

fn sheets_pair(r: &mut Rng) -> Pair {
    if r.one_in(200) {
        let (m, requests) = long_sheet(r);
        let mut pair = finished(&m, &[[1.0, 0.0, 0.0]], &[0.0], &requests, "2D long sheet".into());
        pair.lens.answers = 140_000; // such a sheet has up to 131,077 words
        if r.one_in(2) {
            answer_edge(&mut pair, r);
        }
        return pair;
    }
    let (mut m, sort) = sheet_mesh(r);
    renumber(&mut m, r);
    let (vel, pre) = sheet_fields(&m, r);
    let requests = Room::of(&m, &vel).sheet_requests(r);
    let mut pair = finished(&m, &vel, &pre, &requests, sort);
    if r.one_in(4) {
        answer_edge_of(&mut pair, |code| by_bins(code) == 13, r);
    }
    pair
}

fn border_pair(r: &mut Rng) -> Pair {
    let (mut m, sort) = border_mesh(r);
    renumber(&mut m, r);
    let (vel, pre) = border_fields(&m, r);
    let requests = Room::of(&m, &vel).border_requests(r);
    let mut pair = finished(&m, &vel, &pre, &requests, sort);
    if r.one_in(8) {
        answer_edge_of(&mut pair, |code| code > 8, r);
    }
    pair
}

fn edges_pair(r: &mut Rng) -> Pair {
    let (mut m, sort) = edge_mesh(r);
    renumber(&mut m, r);
    let (vel, pre) = border_fields(&m, r);
    let room = Room::of(&m, &vel);
    let Some(edges) = Edges::of(&room) else { return finished(&m, &vel, &pre, &room.border_requests(r), sort) };
    let mut pair = finished(&m, &vel, &pre, &edges.requests(r), sort);
    if r.one_in(8) {
        answer_edge_of(&mut pair, |code| by_bins(code) == 1, r);
    }
    pair
}

fn long_pair(r: &mut Rng) -> Pair {
    let m = long_room(r);
    let (vel, pre) = fields(&m, r);
    let room = Room::of(&m, &vel);
    let requests: Vec<_> = (0..how_many(r)).map(|_| room.line_request(r)).collect();
    finished(&m, &vel, &pre, &requests, "2D long".into())
}

fn any_pair(seed: u64, r: &mut Rng) -> Pair {
    if r.one_in(1500) {
        return large(r);
    }
    let mut pair = match r.below(20) {
        0..=2 => lines_pair(r),
        3..=5 => planes_pair(r),
        6 => small_words(r),
        7 if r.one_in(8) => long_pair(r),
        _ => {
            let mut p = reference::pair(seed);
            shorten(&mut p.req, r);
            Pair { case: p.case, requests: p.req, lens: p.lens, sort: p.sort }
        }
    };
    if r.one_in(12) {
        damage(&mut pair, r);
    }
    if r.one_in(4) {
        length_edge(&mut pair, r);
    }
    pair
}
