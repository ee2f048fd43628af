//! Inputs of the writer and the converter: those of the reference's own generators, and others from
//! the case of a pair, which reach what those do not: no cells, the greatest counts and one more,
//! any bits for floats, counts whose products are right only modulo 2^64, and damaged files.
use crate::damage::damage;
use crate::pairs::Pair;
use crate::zone_faults::zone_fault;
use reference::refair::gen::Rng;
use reference::refair::Lens;
use reference::{convert, convert_input, write_case, write_input, Convert, Parts, Write};
use std::sync::atomic::{AtomicU64, Ordering::Relaxed};

pub enum Input {
    Write(Write),
    Convert(Convert),
}

impl Input {
    /// The length of the output.
    pub fn room(&self) -> usize {
        (match self {
            Self::Write(w) => w.room,
            Self::Convert(c) => c.room,
        }) as usize
    }

    pub fn name(&self) -> &'static str {
        ["writer", "converter"][self.kind()]
    }

    /// 0 for the writer, 1 for the converter.
    pub fn kind(&self) -> usize {
        matches!(self, Self::Convert(_)) as usize
    }

    /// As refwrite and refconvert of the reference read it.
    pub fn bytes(&self) -> Vec<u8> {
        match self {
            Self::Write(w) => w.bytes(),
            Self::Convert(c) => c.bytes(),
        }
    }

    /// What the reference gives and leaves in the output.
    pub fn due(&self, out: &mut [u8]) -> Result<usize, u32> {
        match self {
            Self::Write(w) => write_case(&w.parts, w.edition, out),
            Self::Convert(c) => convert(&c.file, c.to, out),
        }
    }
}

/// Two inputs of each kind.
pub fn two_each(case: &[u8], seed: u64) -> Vec<Input> {
    by_reference(seed).into_iter().chain(by_case(case, seed)).collect()
}

/// One input of each kind, of the reference's generators and of a case in turn.
pub fn one_each(case: &[u8], seed: u64) -> Vec<Input> {
    if seed % 2 == 0 { by_reference(seed).into() } else { by_case(case, seed).into() }
}

fn by_reference(seed: u64) -> [Input; 2] {
    [Input::Write(write_input(seed)), Input::Convert(convert_input(seed))]
}

pub fn by_case(case: &[u8], seed: u64) -> [Input; 2] {
    let r = &mut Rng::new(seed ^ 0x4649_4c45_0000_0000);
    [Input::Write(writer_input(case, r)), Input::Convert(converter_input(case, r))]
}

fn word(bytes: &[u8], at: usize) -> u32 {
    u32::from_le_bytes(bytes[at..at + 4].try_into().expect("four bytes"))
}

/// Edition and contents of a file as long as its counts say; offsets, words and zones may be wrong.
/// In edition 1 all zones are 0.
pub fn contents(case: &[u8]) -> Option<(u64, Parts)> {
    let trailer = case.len().checked_sub(32)?;
    let (edition, dimension) = match word(case, trailer) {
        d @ (2 | 3) => (1, d),
        d @ (102 | 103) => (2, d - 100),
        _ => return None,
    };
    let [p, w, c] = [4, 8, 12].map(|at| word(case, trailer + at) as u64);
    let second = if edition == 2 { 4 * c + 4 } else { 0 };
    if 24 * p + 4 * w + 32 * c + second != trailer as u64 {
        return None;
    }
    let mut at = 0;
    let mut taken = |n: u64| {
        at += n as usize;
        &case[at - n as usize..at]
    };
    let float = |b: &[u8]| f64::from_bits(u64::from_le_bytes(b.try_into().expect("eight bytes")));
    let floats = |part: &[u8]| part.chunks_exact(8).map(float).collect::<Vec<_>>();
    let words = |part: &[u8]| part.chunks_exact(4).map(|b| word(b, 0)).collect::<Vec<_>>();
    let (points, list) = (floats(taken(24 * p)), words(taken(4 * w)));
    let (velocity, pressure) = (floats(taken(24 * c)), floats(taken(8 * c)));
    let zones = if edition == 2 { words(taken(4 * c)) } else { vec![0; c as usize] };
    let parts = Parts {
        dimension: dimension as u64,
        point_count: p,
        word_count: w,
        cell_count: c,
        points,
        words: list,
        velocity,
        pressure,
        zones,
    };
    Some((edition, parts))
}

/// A case with points and no cells; now and then with a word, which is then too many.
fn no_cells(r: &mut Rng) -> Parts {
    let (p, w) = (r.pick(&[0, 0, 1, 5]), r.one_in(6) as usize);
    Parts {
        dimension: 2 + r.below(2) as u64,
        point_count: p as u64,
        word_count: w as u64,
        points: (0..3 * p).map(|_| r.odd_float()).collect(),
        words: vec![0; w],
        ..Parts::default()
    }
}

/// An output that is just long enough, longer, a byte short, empty or of any length below.
fn room(need: usize, r: &mut Rng) -> u64 {
    (match r.below(10) {
        0 | 1 => need.saturating_sub(1),
        2 => 0,
        3 => r.below(need + 1),
        4 | 5 => need + 1 + r.below(60),
        _ => need,
    }) as u64
}

const FAULTS: [&str; 8] = [
    "edition", "dimension", "count", "product modulo 2^64", "length of a part", "word", "zone above 255",
    "zone of edition 1",
];
/// How many faults of each kind were made.
static FAULTS_MADE: [AtomicU64; 8] = [const { AtomicU64::new(0) }; 8];

pub fn faults_made() -> String {
    let list: Vec<String> = FAULTS.iter().zip(&FAULTS_MADE).map(|(s, n)| format!("{s} {}", n.load(Relaxed))).collect();
    list.join(", ")
}

fn writer_input(case: &[u8], r: &mut Rng) -> Write {
    let of_case = contents(case).filter(|_| !r.one_in(12));
    let (mut edition, parts) = of_case.unwrap_or_else(|| (1 + r.below(2) as u64, no_cells(r)));
    edition = if r.one_in(4) { 3 - edition } else { edition };
    let mut w = Write { edition, parts, room: 0 };
    if edition == 1 && !r.one_in(4) {
        w.parts.zones.fill(0);
    }
    for _ in 0..r.pick(&[0, 0, 1, 5]) {
        any_bits(&mut w.parts, r);
    }
    for _ in 0..r.pick(&[0, 0, 0, 1, 1, 2, 3]) {
        let kind = r.pick(&[0, 1, 2, 3, 4, 5, 5, 5, 6, 6, 7, 7]);
        FAULTS_MADE[kind].fetch_add(1, Relaxed);
        spoil(&mut w, kind, r);
    }
    let p = &w.parts;
    let second = if w.edition == 2 { 4 * p.zones.len() + 4 } else { 0 };
    let need = 8 * (p.points.len() + p.velocity.len() + p.pressure.len()) + 4 * p.words.len() + second + 32;
    w.room = room(need, r);
    w
}

/// Any bits for a float; most are a NaN with a payload.
fn any_bits(p: &mut Parts, r: &mut Rng) {
    let list = match r.below(3) {
        0 => &mut p.points,
        1 => &mut p.velocity,
        _ => &mut p.pressure,
    };
    if !list.is_empty() {
        let i = r.below(list.len());
        list[i] = f64::from_bits(r.next() | r.pick(&[0, 0x7ff0_0000_0000_0000, 0xfff0_0000_0000_0000]));
    }
}

fn spoil(w: &mut Write, kind: usize, r: &mut Rng) {
    let p = &mut w.parts;
    match kind {
        0 => w.edition = r.pick(&[0, 3, 101, 102, w.edition.wrapping_add(1 << 32), u64::MAX]),
        1 => {
            let d = p.dimension;
            p.dimension = r.pick(&[0, 1, 4, d.wrapping_add(100), d.wrapping_add(1 << 32), u64::MAX]);
        }
        2 => {
            let by = r.pick(&[1, u64::MAX, 1 << 32, 1 << 62, 1 << 63]);
            let counts = [&mut p.point_count, &mut p.word_count, &mut p.cell_count];
            let count = counts.into_iter().nth(r.below(3)).expect("one of three");
            *count = count.wrapping_add(by);
        }
        3 => wrap(p, r),
        4 => lengthen(p, r),
        5 => spoil_words(p, r),
        _ if p.zones.is_empty() => {}
        6 => {
            let i = r.below(p.zones.len());
            p.zones[i] = r.pick(&[255, 256, 256, 257, 1 << 16, 1 << 31, u32::MAX]);
        }
        _ => {
            let i = r.below(p.zones.len());
            (w.edition, p.zones[i]) = (1, r.pick(&[1, 7, 255]));
        }
    }
}

/// A count of which three times are the length of a part, modulo 2^64 alone.
fn wrap(p: &mut Parts, r: &mut Rng) {
    let points = r.one_in(2);
    let list = if points { &mut p.points } else { &mut p.velocity };
    let count = if points { &mut p.point_count } else { &mut p.cell_count };
    list.extend(vec![0.5; 1 + r.below(2)]);
    // 3 times this number is 1 modulo 2^64
    *count = 0xaaaa_aaaa_aaaa_aaab_u64.wrapping_mul(list.len() as u64);
}

/// A part that is one longer or shorter than its count says.
fn lengthen(p: &mut Parts, r: &mut Rng) {
    fn by_one<T: Default + Clone>(list: &mut Vec<T>, more: bool) {
        list.resize(if more { list.len() + 1 } else { list.len().saturating_sub(1) }, T::default());
    }
    let more = r.one_in(2);
    match r.below(6) {
        0 => by_one(&mut p.points, more),
        1 => by_one(&mut p.words, more),
        2 => by_one(&mut p.velocity, more),
        3 => by_one(&mut p.pressure, more),
        4 => by_one(&mut p.zones, more),
        _ => p.zones.clear(),
    }
}

/// A word more or less, another word, or inner counts and kinds beside their limits.
fn spoil_words(p: &mut Parts, r: &mut Rng) {
    match r.below(4) {
        0 => p.words.push(r.below(6) as u32),
        1 => drop(p.words.pop()),
        _ if p.words.is_empty() => {}
        2 => p.words[0] = r.pick(&[0, 5, 6, 7, u32::MAX]),
        _ => {
            let (i, any) = (r.below(p.words.len()), r.next() as u32);
            p.words[i] = r.pick(&[8, 9, 24, 25, any]);
        }
    }
    p.word_count = p.words.len() as u64;
}

/// A file of edition 2 with other zones: all 0, or all but one.
fn rezoned(file: &mut [u8], r: &mut Rng) {
    let Some((2, parts)) = contents(file) else { return };
    let (end, cells) = (file.len() - 36, parts.zones.len());
    let zones = &mut file[end - 4 * cells..end];
    match r.below(4) {
        0 => {}
        1 | 2 => zones.fill(0),
        _ => {
            zones.fill(0);
            zones.chunks_exact_mut(4).last().into_iter().for_each(|zone| zone[0] = r.pick(&[1, 255]));
        }
    }
}

fn converter_input(case: &[u8], r: &mut Rng) -> Convert {
    let mut file = case.to_vec();
    if r.one_in(12) {
        let mut out = vec![0; 300];
        let parts = Parts { words: Vec::new(), word_count: 0, ..no_cells(r) };
        let length = write_case(&parts, 1 + r.below(2) as u64, &mut out).expect("no cells can be written");
        file = out[..length].to_vec();
    }
    rezoned(&mut file, r);
    let edition = contents(&file).map_or(1 + r.below(2) as u64, |(edition, _)| edition);
    let to = if r.one_in(8) { r.pick(&[0, 1, 2, 3, (1 << 32) + 1, (1 << 32) + 2, u64::MAX]) } else { 3 - edition };
    let mut pair = Pair { case: file, requests: Vec::new(), lens: Lens::default(), sort: String::new() };
    let has_cells = contents(&pair.case).is_some_and(|(_, parts)| !parts.zones.is_empty());
    if r.one_in(5) && has_cells {
        zone_fault(&mut pair, r);
    }
    if r.one_in(6) {
        damage(&mut pair, r);
    }
    let file = pair.case;
    let second = contents(&file).map_or(0, |(_, parts)| 4 * parts.zones.len() + 4);
    let need = if to == 1 { file.len().saturating_sub(second) } else { file.len() + second };
    Convert { to, room: room(need, r), file }
}
