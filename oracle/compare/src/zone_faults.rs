//! Faults in edition 2 files: another zone offset, lengths beside the right one, the last bytes
//! alone, other dimension words, the parts of the other edition, zones at and above their limit,
//! sums that are right only modulo 2^32, and a zone above 255 beside another refusal.
use crate::pairs::{need, Pair};
use reference::first_edition;
use reference::refair::gen::Rng;
use std::sync::atomic::{AtomicU64, Ordering::Relaxed};

pub const FAULTS: [&str; 12] = [
    "zone offset", "four bytes more or less", "last bytes alone", "dimension word", "parts of the other edition",
    "zone beside 255", "sums modulo 2^32", "zone and kind", "zone and lengths", "zone and points", "bits", "counts",
];
/// How many faults of each kind were made.
pub static FAULTS_MADE: [AtomicU64; 12] = [const { AtomicU64::new(0) }; 12];

/// An edition 2 file: where its parts stand.
struct File<'a> {
    bytes: &'a mut Vec<u8>,
    points: u32,
    words: u32,
    cells: u32,
}

impl File<'_> {
    /// Word i of the trailer; -1 is the zone offset before it.
    fn at(&self, i: isize) -> usize {
        (self.bytes.len() as isize - 32 + 4 * i) as usize
    }
    fn get(&self, i: isize) -> u32 {
        u32::from_le_bytes(self.bytes[self.at(i)..][..4].try_into().expect("four bytes"))
    }
    fn put(&mut self, at: usize, x: u32) {
        self.bytes[at..at + 4].copy_from_slice(&x.to_le_bytes());
    }
    fn zone(&self, cell: u32) -> usize {
        self.at(-1) - 4 * (self.cells - cell) as usize
    }

    /// These counts, and the offsets that go with them, modulo 2^32.
    fn told(&mut self, p: u32, w: u32, c: u32) {
        let times = u32::wrapping_mul;
        let words = times(24, p);
        let velocities = words.wrapping_add(times(4, w));
        let list = [p, w, c, 0, words, velocities, velocities.wrapping_add(times(24, c))];
        for (i, x) in list.into_iter().enumerate() {
            self.put(self.at(1 + i as isize), x);
        }
        self.put(self.at(-1), velocities.wrapping_add(times(32, c)));
    }

    fn zone_offset(&mut self, r: &mut Rng) {
        let right = self.get(-1);
        let by = r.pick(&[4, 1, u32::MAX, 4u32.wrapping_neg(), 1 << 31, 36, 4 * self.cells]);
        let x = r.pick(&[right.wrapping_add(by), right.wrapping_add(by), 0, self.get(7), u32::MAX]);
        self.put(self.at(-1), x);
    }

    /// Four bytes more or less, at the start, before or after the zones; the offset stays or goes with them.
    fn length(&mut self, r: &mut Rng) {
        let (zones, offset) = (self.zone(0), self.at(-1));
        let (more, place, right) = (r.one_in(2), r.pick(&[0, zones, offset, self.at(0)]), self.get(-1));
        if more {
            self.bytes.splice(place..place, [0; 4]);
        } else {
            self.bytes.drain(place.saturating_sub(4)..place.max(4));
        }
        if r.one_in(3) {
            self.put(self.at(-1), if more { right.wrapping_add(4) } else { right.wrapping_sub(4) });
        }
    }

    /// The last 31 to 40 bytes, half of the time with counts that ask for no more.
    fn short(&mut self, r: &mut Rng) {
        if r.one_in(2) {
            let word = self.get(0);
            *self.bytes = vec![0; 40];
            self.put(8, word);
        }
        let n = self.bytes.len();
        self.bytes.drain(..n - n.min(31 + r.below(10)));
    }

    /// Edition 1's parts under edition 2's word, zones without their offset, or the offset without zones.
    fn other_parts(&mut self, r: &mut Rng) {
        let (zones, offset, trailer) = (self.zone(0), self.at(-1), self.at(0));
        match r.below(4) {
            0 => drop(self.bytes.drain(zones..trailer)),
            1 => drop(self.bytes.drain(offset..trailer)),
            2 => drop(self.bytes.drain(zones..offset)),
            _ => self.put(trailer, self.get(0) - 100),
        }
    }

    /// Counts for which 24P, 4W, 24C, 32C or 36C are right modulo 2^32.
    fn wrapped(&mut self, r: &mut Rng) {
        let more = 1 + r.below(3) as u32;
        let (mut p, mut w, mut c) = (self.points, self.words, self.cells);
        match r.below(5) {
            0 => p = p.wrapping_add(more << 29),
            1 => w = w.wrapping_add(more << 30),
            2 => c = c.wrapping_add(more << 30),
            3 => c = c.wrapping_add(more << 29),
            _ => c = c.wrapping_add(more << 27),
        }
        self.told(p, w, c);
    }

    /// One count up and another down, the length kept.
    fn moved_counts(&mut self, r: &mut Rng) {
        let (p, w, c) = (self.points, self.words, self.cells);
        match r.below(4) {
            0 => self.told(p, w.wrapping_sub(9), c + 1),
            1 => self.told(p, w + 9, c.wrapping_sub(1)),
            2 => self.told(p + 1, w.wrapping_sub(6), c),
            _ => self.told(p + 3, w, c.wrapping_sub(2)),
        }
    }

    /// A fault of the file alone; kinds 7 to 9 have a zone above 255 and one more of another sort.
    fn spoil(&mut self, kind: usize, r: &mut Rng) {
        match kind {
            0 => self.zone_offset(r),
            1 => self.length(r),
            2 => self.short(r),
            3 => {
                let word = r.pick(&[2, 3, 102, 103, 104, 101, 100, 0, 202, 358, 102 << 8, 0x0200_0066, u32::MAX]);
                self.put(self.at(0), word);
            }
            4 => self.other_parts(r),
            5 if r.one_in(3) => self.put(self.zone(0), 255),
            6 => self.wrapped(r),
            10 => {
                let (from, n) = (self.zone(0), self.bytes.len());
                self.bytes[from + r.below(n - from)] ^= 1 << r.below(8);
            }
            11 => self.moved_counts(r),
            _ => self.above(r),
        }
    }

    fn above(&mut self, r: &mut Rng) {
        let cell = r.below(self.cells as usize) as u32;
        self.put(self.zone(cell), r.pick(&[256, 256, 257, 511, 65_536, 1 << 31, u32::MAX]));
    }
}

/// Puts a fault into an edition 2 file.
pub fn zone_fault(p: &mut Pair, r: &mut Rng) {
    let lens = need(&p.case);
    if first_edition(&p.case).is_none() {
        return;
    }
    let kind = r.below(FAULTS.len());
    FAULTS_MADE[kind].fetch_add(1, Relaxed);
    p.sort += &format!(" zone fault {kind}");
    let mut file = File { bytes: &mut p.case, points: 0, words: 0, cells: 0 };
    (file.points, file.words, file.cells) = (file.get(1), file.get(2), file.get(3));
    file.spoil(kind, r);
    match (kind, lens) {
        (7, _) => file.put(24 * file.points as usize, r.pick(&[6, 7, u32::MAX])),
        (8, Some((words, floats, marks))) => match r.below(4) {
            0 => p.lens.words = words.saturating_sub(1),
            1 => p.lens.floats = floats.saturating_sub(1),
            2 => p.lens.marks = marks.saturating_sub(1),
            _ => p.requests.push(0),
        },
        (9, _) => file.put(24 * r.below(file.points as usize) + 4, r.pick(&[0x7ff8_0000, 0x7ff0_0000, 0x7fef_ffff])),
        _ => {}
    }
}
