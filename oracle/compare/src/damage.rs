//! Faults in the bytes, and buffer lengths at and beside what is needed.
use crate::pairs::{need, Pair};
use reference::refair::gen::Rng;
use reference::{by_bins, job};
use reference::refair::{JobOut, Lens, Order, Stats};

/// An answer buffer in which some answer just fits, or just does not (44).
pub fn answer_edge(p: &mut Pair, r: &mut Rng) {
    answer_edge_of(p, |_| true, r);
}

/// The same for an answer to a request of such a code.
pub fn answer_edge_of(p: &mut Pair, code: fn(u64) -> bool, r: &mut Rng) {
    let lens = Lens { answers: 1 << 40, ..p.lens };
    let JobOut::Done { answers, .. } = job(&p.case, &p.requests, lens, Order::Rust, &mut Stats::default()) else { return };
    let full: Vec<usize> = (0..answers.len()).filter(|&i| !answers[i].words.is_empty() && code(p.code(i))).collect();
    if full.is_empty() {
        return;
    }
    let i = r.pick(&full);
    let before: usize = answers[..=i].iter().map(|a| a.words.len() + 2).sum();
    let edge = (before + 2 * (answers.len() - 1 - i)) as u64 + r.below(3) as u64 - 1;
    if edge > 250_000 {
        return;
    }
    p.lens.answers = edge;
    p.sort += " answer-edge";
}

fn near_to(x: u64, r: &mut Rng) -> u64 {
    match r.below(8) {
        0 | 1 => x.saturating_sub(1),
        2 | 3 => x,
        4 => x + 1,
        5 => 0,
        6 => r.below(x as usize + 1) as u64,
        _ => x + r.below(300) as u64,
    }
}

/// Buffer lengths beside what is needed.
pub fn length_edge(p: &mut Pair, r: &mut Rng) {
    let n = (p.requests.len() / 128) as u64;
    let Some((w, f, c)) = need(&p.case) else { return };
    match r.below(9) {
        0 => p.lens.words = near_to(w, r),
        1 => p.lens.floats = near_to(f, r),
        2 => p.lens.marks = near_to(c, r),
        3 => p.lens.answers = near_to(2 * n, r),
        4 => p.lens = Lens { words: w, floats: f, marks: c, answers: 2 * n },
        5 => p.lens = Lens { words: near_to(w, r), floats: near_to(f, r), marks: near_to(c, r), answers: near_to(2 * n, r) },
        6 => {
            p.lens = Lens { words: w, floats: f, marks: c, answers: 0 };
            answer_edge(p, r);
        }
        _ => return answer_edge(p, r),
    }
    p.sort += " length-edge";
}

/// Word i of the trailer.
fn get(b: &[u8], i: usize) -> u32 {
    let at = b.len() - 32 + 4 * i;
    u32::from_le_bytes(b[at..at + 4].try_into().expect("four bytes"))
}

fn put(b: &mut [u8], i: usize, x: u32) {
    let at = b.len() - 32 + 4 * i;
    b[at..at + 4].copy_from_slice(&x.to_le_bytes());
}

/// Faults that the reference's own generator does not make: counts whose sums are right only modulo 2^32, moved parts,
/// other counts with a matching length, request bytes of any length.
pub fn damage(p: &mut Pair, r: &mut Rng) {
    if p.case.len() < 32 {
        return;
    }
    let k = r.below(10);
    p.sort += &format!(" fault{k}");
    match k {
        0..=2 => damage_trailer(&mut p.case, k, r),
        3..=7 => damage_case(&mut p.case, k, r),
        8 => {
            let n = p.requests.len() + r.pick(&[1, 2, 64, 127]);
            p.requests.resize(n, 0);
        }
        _ => {
            for _ in 0..1 + r.below(4) {
                if !p.requests.is_empty() {
                    let i = r.below(p.requests.len());
                    p.requests[i] ^= 1 << r.below(8);
                }
            }
        }
    }
}

fn damage_case(b: &mut Vec<u8>, k: usize, r: &mut Rng) {
    match k {
        3 => b.truncate(r.below(40)),
        4 => {
            let n = r.below(b.len());
            b.drain(..n);
        }
        5 => {
            let n = 1 + r.below(40);
            b.extend((0..n).map(|_| r.next() as u8));
        }
        6 => {
            let n = r.below(70);
            *b = (0..n).map(|_| if r.one_in(3) { r.next() as u8 } else { 0 }).collect();
        }
        _ => {
            for _ in 0..1 + r.below(4) {
                let i = r.below(b.len());
                b[i] = r.next() as u8;
            }
        }
    }
}

fn damage_trailer(b: &mut [u8], k: usize, r: &mut Rng) {
    match k {
        0 => {
            // 24 * 2^29, 4 * 2^30 and 32 * 2^29 are multiples of 2^32
            let i = 1 + r.below(3);
            let x = get(b, i).wrapping_add(if i == 2 { 1 << 30 } else { 1 << 29 } * (1 + r.below(3) as u32));
            put(b, i, x);
        }
        1 => move_counts(b, r),
        _ => {
            let i = r.below(8);
            let x = match r.below(4) {
                0 => get(b, i).wrapping_add(1),
                1 => get(b, i).wrapping_sub(1),
                2 => r.next() as u32,
                _ => u32::MAX,
            };
            put(b, i, x);
        }
    }
}

/// One count up and others down, the length kept.
fn move_counts(b: &mut [u8], r: &mut Rng) {
    let (p, w, c) = (get(b, 1), get(b, 2), get(b, 3));
    let (p, w, c) = match r.below(4) {
        0 if p > 0 => (p - 1, w + 6, c),
        1 if w >= 8 => (p, w - 8, c + 1),
        2 if c > 0 => (p, w + 8, c - 1),
        _ => (p + 1, w.wrapping_sub(6), c),
    };
    for (i, x) in [p, w, c].into_iter().enumerate() {
        put(b, i + 1, x);
    }
    if !r.one_in(4) {
        let o = 24u32.wrapping_mul(p);
        put(b, 5, o);
        put(b, 6, o.wrapping_add(w.wrapping_mul(4)));
        put(b, 7, o.wrapping_add(w.wrapping_mul(4)).wrapping_add(c.wrapping_mul(24)));
    }
}

/// Rakes that might take millions of steps get fewer, all but a few.
pub fn shorten(requests: &mut [u8], r: &mut Rng) {
    for q in requests.chunks_exact_mut(128) {
        let word = |i: usize| u64::from_le_bytes(q[8 * i..8 * i + 8].try_into().expect("eight bytes"));
        let (code, seeds, steps) = (word(0), word(7), word(10));
        let is_rake = by_bins(code) == 4 && (2..=64).contains(&seeds) && steps <= 65_536;
        if is_rake && seeds * steps > 20_000 && !r.one_in(40) {
            q[80..88].copy_from_slice(&(20_000 / seeds).to_le_bytes());
        }
    }
}
