//! Writers that are wrong in one place, each over the reference's own, and what the generated inputs
//! reach.
use crate::file_buffers::{Desk, Library};
use crate::file_judge::{judge_input, Files};
use crate::file_report::smaller_input;
use crate::files::{by_case, contents, two_each, Input};
use crate::pairs::{made, Mode};
use hookyellow::raw::{Counts, Written};
use reference::{convert, write_case, Parts};
use std::slice::{from_raw_parts, from_raw_parts_mut};

/// So many seeds have to show a fault.
pub const BOUND: u64 = 2_000;

pub type Given = Result<usize, u32>;

/// A wrong writer or converter.
pub trait Fault {
    fn write(parts: &Parts, edition: u64, out: &mut [u8]) -> Given {
        write_case(parts, edition, out)
    }
    fn convert(file: &[u8], to: u64, out: &mut [u8]) -> Given {
        convert(file, to, out)
    }
    /// what the length is under a refusal
    const LENGTH: usize = 0;
}

fn told<F: Fault>(given: Given) -> Written {
    given.map_or_else(|k| Written { refusal: k as u64, length: F::LENGTH }, |length| Written { refusal: 0, length })
}

unsafe extern "C" fn writer<F: Fault>(
    counts: Counts, a: *const u64, an: usize, b: *const u32, bn: usize, c: *const u64, cn: usize,
    d: *const u64, dn: usize, e: *const u32, en: usize, out: *mut u8, room: usize,
) -> Written {
    let float = |bits: &u64| f64::from_bits(*bits);
    let floats = |at: *const u64, n: usize| from_raw_parts(at, n).iter().map(float).collect::<Vec<_>>();
    let parts = Parts {
        dimension: counts.dimension as u64,
        point_count: counts.points as u64,
        word_count: counts.words as u64,
        cell_count: counts.cells as u64,
        points: floats(a, an),
        words: from_raw_parts(b, bn).to_vec(),
        velocity: floats(c, cn),
        pressure: floats(d, dn),
        zones: from_raw_parts(e, en).to_vec(),
    };
    told::<F>(F::write(&parts, counts.edition as u64, from_raw_parts_mut(out, room)))
}

unsafe extern "C" fn converter<F: Fault>(a: *const u8, an: usize, to: usize, out: *mut u8, room: usize) -> Written {
    told::<F>(F::convert(from_raw_parts(a, an), to as u64, from_raw_parts_mut(out, room)))
}

pub fn desk<F: Fault>() -> Desk {
    Desk::of(Library { write: writer::<F>, convert: converter::<F> })
}

/// The reference's own.
pub struct Right;
impl Fault for Right {}

/// The first input of the writer (0) or the converter (1) that shows a fault, and how.
fn first_difference<F: Fault>(kind: usize) -> (u64, Input, String) {
    let (mut wrong, mut right) = (desk::<F>(), desk::<Right>());
    for seed in 1..BOUND {
        for input in two_each(&made(seed, Mode::Files).case, seed) {
            if let Err(why) = judge_input(&input, seed, &mut wrong) {
                assert!(judge_input(&input, seed, &mut right).is_ok(), "seed {seed} differs without the fault");
                if input.kind() == kind {
                    return (seed, input, why);
                }
            }
        }
    }
    panic!("{BOUND} seeds do not show the fault");
}

/// A fault is seen in these words, and the input that shows it is made smaller.
pub fn seen<F: Fault>(kind: usize, words: &str) {
    let (seed, input, why) = first_difference::<F>(kind);
    assert!(why.contains(words), "{why}");
    if let Some(small) = smaller_input(&input, seed, &mut desk::<F>()) {
        assert!(small.bytes().len() <= input.bytes().len());
        assert!(judge_input(&small, seed, &mut desk::<F>()).unwrap_err().contains(words));
    }
}

/// What the reference gives in an output that is long enough, and whether the lent one is.
pub fn in_full(out: &mut [u8], run: impl Fn(&mut [u8]) -> Given) -> (Given, Vec<u8>, bool) {
    let mut whole = vec![0; out.len() + (1 << 23)];
    let given = run(&mut whole);
    let fits = given.is_ok_and(|length| length <= out.len());
    (given, whole, fits)
}

macro_rules! writers {
    ($($(#[$about:meta])* $name:ident |$parts:ident, $edition:ident, $out:ident| $given:expr;)*) => {
        $($(#[$about])* pub struct $name;
        impl Fault for $name {
            fn write($parts: &Parts, $edition: u64, $out: &mut [u8]) -> Given {
                $given
            }
        })*
    };
}

/// Puts a word into a file that was written, so far from its end; `given` stays.
pub fn put(given: Given, out: &mut [u8], from_end: usize, word: u32) -> Given {
    if let Ok(length) = given {
        out[length - from_end..][..4].copy_from_slice(&word.to_le_bytes());
    }
    given
}


/// The parts with all zones 0.
fn without_zones(parts: &Parts) -> Parts {
    Parts { zones: vec![0; parts.zones.len()], ..parts.clone() }
}

writers! {
    /// Pressures before velocities.
    OtherOrder |parts, edition, out| {
        let given = write_case(parts, edition, out)?;
        let from = 8 * parts.points.len() + 4 * parts.words.len();
        let end = from + 8 * (parts.velocity.len() + parts.pressure.len());
        out[from..end].rotate_left(8 * parts.velocity.len());
        Ok(given)
    };
    /// Points cell by cell: y before x.
    XAfterY |parts, edition, out| {
        let mut parts = parts.clone();
        parts.points.chunks_exact_mut(3).for_each(|point| point.swap(0, 1));
        write_case(&parts, edition, out)
    };
    /// What fits is written before the length is looked at.
    WrittenAsFarAsItGoes |parts, edition, out| {
        let (given, whole, fits) = in_full(out, |whole| write_case(parts, edition, whole));
        if given.is_ok() && !fits {
            let n = out.len();
            out.copy_from_slice(&whole[..n]);
        }
        write_case(parts, edition, out)
    };
    /// The parts are written before the zones are looked at.
    WrittenBefore46 |parts, edition, out| {
        let given = write_case(parts, edition, out);
        if given == Err(46) {
            let _ = write_case(&without_zones(parts), edition, out);
        }
        given
    };
    Before45 |parts, edition, out| match write_case(parts, edition, out) {
        Err(45) if edition == 1 => Err(46),
        given => given,
    };
    Before46 |parts, edition, out| match write_case(parts, edition, out) {
        Err(46) if write_case(&without_zones(parts), edition, &mut out.to_vec()) == Err(47) => Err(47),
        given => given,
    };
    Before3 |parts, edition, out| match write_case(parts, edition, out) {
        Err(3) if parts.zones.iter().any(|&zone| zone > 255) => Err(45),
        given => given,
    };
    ClearedBehind |parts, edition, out| {
        let given = write_case(parts, edition, out);
        if let Some(byte) = given.ok().and_then(|length| out.get_mut(length)) {
            *byte = 0;
        }
        given
    };
    SilentZones |parts, edition, out| match write_case(parts, edition, out) {
        Err(46) => write_case(&without_zones(parts), edition, out),
        given => given,
    };
    /// 45 in edition 2 alone.
    AnyZoneIn1 |parts, edition, out| match write_case(parts, edition, out) {
        Err(45) if edition == 1 => write_case(&without_zones(parts), edition, out),
        given => given,
    };
    /// Edition 1 needs no zones.
    NoZonesIn1 |parts, edition, out| {
        let none = parts.zones.is_empty() && edition == 1 && parts.cell_count < 20_000;
        let zones = if none { vec![0; parts.cell_count as usize] } else { parts.zones.clone() };
        write_case(&Parts { zones, ..parts.clone() }, edition, out)
    };
    /// The zone offset is where edition 2's trailer would start without it.
    ZoneOffset |parts, edition, out| {
        let given = write_case(parts, edition, out);
        if edition != 2 { given } else { given.and_then(|length| put(given, out, 36, length as u32 - 36)) }
    };
    /// Where the pressures start: after the zones, as if they stood with the fields.
    PressureOffset |parts, edition, out| {
        let given = write_case(parts, edition, out);
        let at = 8 * (parts.points.len() + parts.velocity.len()) + 4 * parts.words.len();
        if edition != 2 { given } else { put(given, out, 4, (at + 4 * parts.zones.len()) as u32) }
    };
    DimensionWord |parts, edition, out| {
        let given = write_case(parts, edition, out);
        if edition != 2 { given } else { put(given, out, 32, parts.dimension as u32) }
    };
    /// Dimension and edition by their lower 32 bits.
    LowerBits |parts, edition, out| {
        write_case(&Parts { dimension: parts.dimension & 0xffff_ffff, ..parts.clone() }, edition & 0xffff_ffff, out)
    };
    /// Three times a count modulo 2^64.
    WrappedPoints |parts, edition, out| {
        let wrapped = parts.point_count > 65_536 && parts.point_count.wrapping_mul(3) == parts.points.len() as u64;
        match write_case(parts, edition, out) {
            Err(1) if wrapped && matches!((parts.dimension, edition), (2 | 3, 1 | 2)) => Err(2),
            given => given,
        }
    };
    OnePointLess |parts, edition, out| match write_case(parts, edition, out) {
        Ok(_) if parts.point_count == 65_536 => Err(2),
        given => given,
    };
    OneCellLess |parts, edition, out| match write_case(parts, edition, out) {
        Ok(_) if parts.cell_count == 16_384 => Err(2),
        given => given,
    };
    OneWordLess |parts, edition, out| match write_case(parts, edition, out) {
        Ok(_) if parts.word_count == 1_048_576 => Err(2),
        given => given,
    };
    NoCells |parts, edition, out| match write_case(parts, edition, out) {
        Ok(_) if parts.cell_count == 0 => Err(8),
        given => given,
    };
    /// Words that are too many are looked at first.
    Before2 |parts, edition, out| match write_case(parts, edition, out) {
        Err(2) => Err(3),
        given => given,
    };
    /// A NaN goes through arithmetic that makes it quiet.
    QuietNan |parts, edition, out| {
        let quiet = |x: &f64| if x.is_nan() { f64::from_bits(x.to_bits() | 1 << 51) } else { *x };
        write_case(&Parts { pressure: parts.pressure.iter().map(quiet).collect(), ..parts.clone() }, edition, out)
    };
}

/// The length of the output where there is no file.
pub struct Length;
impl Fault for Length {
    const LENGTH: usize = 32;
}

#[test]
fn parts_that_stand_elsewhere() {
    seen::<OtherOrder>(0, "of the writer's output, in ");
    seen::<XAfterY>(0, "of the writer's output, in points");
    seen::<ZoneOffset>(0, "of the writer's output, in the zone offset");
    seen::<PressureOffset>(0, "of the writer's output, word 7 of the trailer");
    seen::<DimensionWord>(0, "of the writer's output, word 0 of the trailer");
    seen::<QuietNan>(0, "of the writer's output, in pressures");
}

#[test]
fn outputs_that_are_touched() {
    seen::<WrittenAsFarAsItGoes>(0, "of the writer's output, under refusal 47");
    seen::<WrittenBefore46>(0, "of the writer's output, under refusal 46");
    seen::<ClearedBehind>(0, "bytes of the file: ");
    seen::<Length>(0, "gives length 0, ours 32");
}

#[test]
fn refusals_in_another_order() {
    seen::<Before45>(0, "the writer gives refusal 45, ours 46");
    seen::<Before46>(0, "the writer gives refusal 46, ours 47");
    seen::<Before3>(0, "the writer gives refusal 3, ours 45");
    seen::<Before2>(0, "the writer gives refusal 2, ours 3");
}

#[test]
fn what_has_to_be_refused() {
    seen::<SilentZones>(0, "the writer gives refusal 46, ours ");
    seen::<AnyZoneIn1>(0, "the writer gives refusal 45, ours ");
    seen::<NoZonesIn1>(0, "the writer gives refusal 1, ours ");
    seen::<LowerBits>(0, "the writer gives refusal 1, ours ");
    seen::<WrappedPoints>(0, "the writer gives refusal 1, ours 2");
}

#[test]
fn what_may_not_be_refused() {
    seen::<OnePointLess>(0, "the writer gives refusal 0, ours 2");
    seen::<OneCellLess>(0, "the writer gives refusal 0, ours 2");
    seen::<OneWordLess>(0, "the writer gives refusal 0, ours 2");
    seen::<NoCells>(0, "the writer gives refusal 0, ours 8");
}

/// The reference's own is the same everywhere, and the inputs that are made here reach every
/// refusal, no cells, and room behind.
#[test]
fn the_right_ones_are_not_seen() {
    let (mut desk, mut files) = (desk::<Right>(), Files::default());
    let (mut empty, mut behind) = ([0; 2], [0; 2]);
    for seed in 1..400 {
        for input in by_case(&made(seed, Mode::Files).case, seed) {
            let came = judge_input(&input, seed, &mut desk).unwrap();
            files.add(&came);
            let (kind, done) = (input.kind(), came.of(input.kind(), 0) == 1);
            let cells = match &input {
                Input::Write(w) => w.parts.cell_count,
                Input::Convert(c) => contents(&c.file).map_or(1, |(_, parts)| parts.cell_count),
            };
            empty[kind] += (done && cells == 0) as u64;
            behind[kind] += (done && input.due(&mut vec![0; input.room()]).unwrap() < input.room()) as u64;
        }
    }
    for kind in [0, 1] {
        assert!([0, 1, 3, 45, 46, 47].iter().all(|&k| files.of(kind, k) >= 3), "{files:?}");
        assert!(empty[kind] >= 3 && behind[kind] >= 10, "{empty:?} {behind:?}");
    }
}
