//! Cases at the limits: the greatest counts, and small ones whose words are nearly right.
use crate::fields::fields;
use crate::lines::Request;
use crate::meshes::renumber;
use crate::pairs::{need, Pair};
use crate::room::Room;
use crate::vectors::P3;
use reference::refair::gen::{self, Mesh, Rng};
use reference::refair::Lens;
use reference::{codes, used_words};

/// Few points and cells, with words that are nearly right: the order of the refusals.
pub fn small_words(r: &mut Rng) -> Pair {
    let dim = 2 + r.below(2) as u32;
    let p = r.below(10);
    let odd = r.one_in(6);
    let grid = [0.0, 1.0, 0.5, 2.0, -1.0];
    let pts: Vec<P3> = (0..p)
        .map(|_| std::array::from_fn(|_| if odd && r.one_in(8) { r.odd_float() } else if r.one_in(2) { r.pick(&grid) } else { r.range(-2.0, 2.0) }))
        .collect();
    let mut words = Vec::new();
    let c = r.below(4);
    for _ in 0..c {
        record(&mut words, dim, p, r);
    }
    match r.below(20) {
        0 => words.push(r.below(6) as u32),
        1 => {
            words.pop();
        }
        _ => {}
    }
    let vel: Vec<P3> = (0..c).map(|_| std::array::from_fn(|_| r.range(-1.0, 1.0))).collect();
    let case = gen::case_bytes(dim, &pts, &words, &vel, &vec![0.5; c]);
    let requests: Vec<Vec<u64>> = (0..r.below(4)).map(|_| half_empty(r.pick(&codes()), r)).collect();
    Pair { case, requests: gen::req_bytes(&requests), lens: Lens::default(), sort: "small words".into() }
}

/// A request in which half of the arguments are zero.
fn half_empty(code: u64, r: &mut Rng) -> Vec<u64> {
    let used = used_words(code).expect("a known code");
    (0..16).map(|i| if i == 0 { code } else if i < used && r.one_in(2) { r.range(-1.0, 2.0).to_bits() } else { 0 }).collect()
}

/// The definition of one cell on p points.
fn record(words: &mut Vec<u32>, dim: u32, p: usize, r: &mut Rng) {
    let kind = if r.one_in(12) { 6 + r.below(3) as u32 } else if dim == 2 && !r.one_in(8) { 0 } else { r.below(6) as u32 };
    words.push(kind);
    match kind {
        0 => {
            let n = if r.one_in(8) { r.pick(&[0, 1, 2, 24, 25]) } else { 3 + r.below(3) };
            words.push(n as u32);
            numbers(words, n, p, r);
        }
        5 => {
            let n = if r.one_in(8) { r.pick(&[0, 3, 24, 25]) } else { 4 + r.below(3) };
            words.push(n as u32);
            for _ in 0..n {
                let k = if r.one_in(12) { r.pick(&[0, 1, 2, 8, 9]) } else { 3 + r.below(2) };
                words.push(k as u32);
                numbers(words, k, p, r);
            }
        }
        k => {
            let n = [0, 4, 8, 6, 5].get(k as usize).copied().unwrap_or(r.below(4));
            numbers(words, n, p, r);
        }
    }
}

/// n point numbers, nearly all below p and different.
fn numbers(words: &mut Vec<u32>, n: usize, p: usize, r: &mut Rng) {
    let mut left: Vec<u32> = (0..p as u32).collect();
    r.shuffle(&mut left);
    for i in 0..n {
        words.push(if r.one_in(25) { p as u32 + r.below(2) as u32 } else { left.get(i).copied().unwrap_or(r.below(p + 1) as u32) });
    }
}

/// The greatest counts of the case file and of the requests, and one more.
pub fn large(r: &mut Rng) -> Pair {
    let more = r.below(2);
    let kind = r.below(4);
    let sort = ["65,536 points", "16,384 cells", "1,048,576 words", "4,096 requests"][kind];
    let (case, requests) = match kind {
        0 => most_points(more, r),
        1 => most_cells(more, r),
        2 => (most_words(more), Vec::new()),
        _ => most_requests(more, r),
    };
    let (w, f, c) = need(&case).unwrap_or((16_384, 8_192, 16_385));
    let lens = Lens { words: w, floats: f, marks: c, answers: r.pick(&[8_191, 8_192, 8_193, 20_000, 100_000]) };
    Pair { case, requests: gen::req_bytes(&requests), lens, sort: format!("limit {sort}{}", ["", " and one"][more]) }
}

fn bytes(m: &Mesh, (vel, pre): (&[P3], &[f64])) -> Vec<u8> {
    gen::case_bytes(m.dim, &m.pts, &gen::mesh_words(m), vel, pre)
}

fn most_points(more: usize, r: &mut Rng) -> (Vec<u8>, Vec<Vec<u64>>) {
    let mut m = gen::grid2(3, 3, 1.0, 1.0);
    m.pts.resize(65_536 + more, [0.5; 3]);
    let (vel, pre) = fields(&m, r);
    let room = Room::of(&m, &vel);
    let requests = (0..3).map(|_| room.line_request(r)).collect();
    (bytes(&m, (&vel, &pre)), requests)
}

fn most_cells(more: usize, r: &mut Rng) -> (Vec<u8>, Vec<Vec<u64>>) {
    let mut m = if r.one_in(2) { gen::grid2(128, 128, 0.5, 0.25) } else { gen::grid3(32, 32, 16, [0.5, 0.25, 1.0]) };
    if more == 1 {
        m.cells.push(m.cells[0].clone());
    }
    let (vel, pre) = fields(&m, r);
    let room = Room::of(&m, &vel);
    let requests = (0..2)
        .map(|_| if m.dim == 2 { few_steps(room.line_request(r)) } else { room.plane_request(room.plane(r), r) })
        .collect();
    (bytes(&m, (&vel, &pre)), requests)
}

/// Among so many cells the reference tries each at every point: lines get fewer steps.
fn few_steps(mut q: Vec<u64>) -> Vec<u64> {
    let steps = match q[0] {
        11 | 14 => 6,
        12 => 10,
        _ => return q,
    };
    if q[steps] <= 65_536 {
        q[steps] = q[steps].min(20);
    }
    q
}

/// 16,384 polyhedra of 64 words each are 1,048,576 words; the last may have one more.
fn most_words(more: usize) -> Vec<u8> {
    let mut words: Vec<u32> = Vec::new();
    for i in 0..16_384 {
        words.extend([5, 13]);
        for f in 0..13 {
            let n = if f < 10 { 4 } else { 3 } as u32 + (more == 1 && i == 16_383 && f == 12) as u32;
            words.push(n);
            words.extend((0..n).map(|k| (f + k) % 4));
        }
    }
    let pts = [[0.0; 3], [1.0, 0.0, 0.0], [0.0, 1.0, 0.0], [0.0, 0.0, 1.0]];
    gen::case_bytes(3, &pts, &words, &vec![[0.0; 3]; 16_384], &vec![0.0; 16_384])
}

fn most_requests(more: usize, r: &mut Rng) -> (Vec<u8>, Vec<Vec<u64>>) {
    let solid = r.one_in(2);
    let mut m = if solid { gen::grid3(1 + r.below(2), 1, 2, [1.0; 3]) } else { gen::grid2(2, 2, 1.0, 0.5) };
    renumber(&mut m, r);
    let (vel, pre) = fields(&m, r);
    let room = Room::of(&m, &vel);
    let point = |r: &mut Rng| Request::of(r.pick(&[1, 2, 9, 10])).point(room.spot(r)).0;
    let requests = (0..4_096 + more)
        .map(|_| if solid { room.plane_request(room.plane(r), r) } else { point(r) })
        .collect();
    (bytes(&m, (&vel, &pre)), requests)
}
