//! Converters that are wrong in one place, each over the reference's own, and the laws that hold of
//! a case through the writer, the converter and the job.
use crate::buffers::{Area, Library};
use crate::file_judge::{judge_case, Files};
use crate::files::contents;
use crate::pairs::{made, Mode};
use crate::writer_tests::{desk, in_full, put, seen, Fault, Given, Length, OtherOrder, QuietNan, Right, BOUND};
use hookyellow::raw::hookyellow_job;
use reference::{convert, read_case, Parts};
use std::slice::from_raw_parts;

macro_rules! converters {
    ($($(#[$about:meta])* $name:ident |$file:ident, $to:ident, $out:ident| $given:expr;)*) => {
        $($(#[$about])* struct $name;
        impl Fault for $name {
            fn convert($file: &[u8], $to: u64, $out: &mut [u8]) -> Given {
                $given
            }
        })*
    };
}

/// The converter that refuses such contents.
fn fewer(file: &[u8], to: u64, out: &mut [u8], such: fn(&Parts) -> bool) -> Given {
    let given = convert(file, to, out);
    if given.is_ok() && contents(file).is_some_and(|(_, parts)| such(&parts)) { Err(2) } else { given }
}

converters! {
    SilentZones |file, to, out| match convert(file, to, out) {
        Err(46) => {
            let mut file = file.to_vec();
            let (end, cells) = (file.len() - 36, contents(&file).unwrap().1.zones.len());
            file[end - 4 * cells..end].fill(0);
            convert(&file, to, out)
        }
        given => given,
    };
    /// A file of that edition already is copied.
    CopiedAsItIs |file, to, out| match (convert(file, to, out), read_case(file)) {
        (Err(1), Ok(read)) if read.edition as u64 == to && file.len() <= out.len() => {
            out[..file.len()].copy_from_slice(file);
            Ok(file.len())
        }
        (given, _) => given,
    };
    /// Words are not looked at on the way to edition 2.
    AnyWords |file, to, out| match (convert(file, to, out), contents(file)) {
        (Err(3), Some((1, parts))) if to == 2 && out.len() >= file.len() + 4 * parts.zones.len() + 4 => {
            Ok(file.len() + 4 * parts.zones.len() + 4)
        }
        (given, _) => given,
    };
    /// 46 for any zone that is not 0, above 255 too.
    Before45 |file, to, out| match convert(file, to, out) {
        Err(45) => Err(46),
        given => given,
    };
    Before46 |file, to, out| match convert(file, to, out) {
        Err(46) if file.len() - 4 * contents(file).unwrap().1.zones.len() - 4 > out.len() => Err(47),
        given => given,
    };
    WrittenBefore47 |file, to, out| {
        let (given, whole, fits) = in_full(out, |whole| convert(file, to, whole));
        if given.is_ok() && !fits {
            let n = out.len();
            out.copy_from_slice(&whole[..n]);
        }
        convert(file, to, out)
    };
    ClearedToTheEnd |file, to, out| {
        let given = convert(file, to, out);
        if let Ok(length) = given {
            out[length..].fill(0);
        }
        given
    };
    /// The zone offset is left out, and the file is that much shorter.
    WithoutOffset |file, to, out| match convert(file, to, out) {
        Ok(length) if to == 2 => {
            out.copy_within(length - 32..length, length - 36);
            Ok(length - 4)
        }
        given => given,
    };
    /// The trailer of the other edition.
    SameWord |file, to, out| {
        let given = convert(file, to, out);
        let word = file.len().checked_sub(32).map_or(0, |at| u32::from_le_bytes(file[at..at + 4].try_into().unwrap()));
        put(given, out, 32, word)
    };
    /// Zones 1 in the place of 0.
    OtherZones |file, to, out| {
        let given = convert(file, to, out);
        let cells = contents(file).map_or(0, |(_, parts)| parts.zones.len());
        if to == 2 && cells > 0 { put(given, out, 40, 1) } else { given }
    };
    FewerPoints |file, to, out| fewer(file, to, out, |p| p.point_count == 65_536);
    FewerCells |file, to, out| fewer(file, to, out, |p| p.cell_count == 16_384);
    FewerWords |file, to, out| fewer(file, to, out, |p| p.word_count == 1_048_576);
    NoCells |file, to, out| fewer(file, to, out, |p| p.cell_count == 0);
    Before2 |file, to, out| match convert(file, to, out) {
        Err(2) => Err(3),
        given => given,
    };
    /// The edition by its lower 32 bits.
    LowerEdition |file, to, out| convert(file, to & 0xffff_ffff, out);
}

#[test]
fn files_that_stand_otherwise() {
    seen::<WithoutOffset>(1, "the converter gives length");
    seen::<SameWord>(1, "of the converter's output, word 0 of the trailer");
    seen::<OtherZones>(1, "of the converter's output, in zones");
}

#[test]
fn outputs_that_are_touched() {
    seen::<WrittenBefore47>(1, "of the converter's output, under refusal 47");
    seen::<ClearedToTheEnd>(1, "bytes of the file: ");
    seen::<Length>(1, "gives length 0, ours 32");
}

#[test]
fn refusals_in_another_order() {
    seen::<Before2>(1, "the converter gives refusal 2, ours 3");
    seen::<Before45>(1, "the converter gives refusal 45, ours 46");
    seen::<Before46>(1, "the converter gives refusal 46, ours 47");
}

#[test]
fn what_has_to_be_refused() {
    seen::<SilentZones>(1, "the converter gives refusal 46, ours ");
    seen::<CopiedAsItIs>(1, "the converter gives refusal 1, ours 0");
    seen::<AnyWords>(1, "the converter gives refusal 3, ours ");
    seen::<LowerEdition>(1, "the converter gives refusal 1, ours ");
}

#[test]
fn what_may_not_be_refused() {
    seen::<FewerPoints>(1, "the converter gives refusal 0, ours 2");
    seen::<FewerCells>(1, "the converter gives refusal 0, ours 2");
    seen::<FewerWords>(1, "the converter gives refusal 0, ours 2");
    seen::<NoCells>(1, "the converter gives refusal 0, ours 2");
}

/// The job that answers a file of edition 2 otherwise.
unsafe extern "C" fn by_edition(
    a: *const u8, an: usize, b: *const u8, bn: usize, c: *mut u32, cn: usize,
    d: *mut f64, dn: usize, e: *mut u8, en: usize, g: *mut u64, gn: usize,
) -> u64 {
    let result = hookyellow_job(a, an, b, bn, c, cn, d, dn, e, en, g, gn);
    if result == 0 && gn > 0 && contents(from_raw_parts(a, an)).is_some_and(|(edition, _)| edition == 2) {
        *g ^= 1;
    }
    result
}

/// How the law over cases is broken by a wrong writer or converter, or by a wrong job.
fn broken<F: Fault>(job: Library) -> String {
    let (mut desk, mut area) = (desk::<F>(), Area::of(job));
    let broken = (1..BOUND).find_map(|seed| judge_case(&made(seed, Mode::Files), seed, &mut desk, &mut area).err());
    broken.expect("no case shows the fault")
}

#[test]
fn laws_over_cases() {
    assert_eq!(broken::<OtherOrder>(hookyellow_job), "the contents of the case do not give its file again");
    assert_eq!(broken::<QuietNan>(hookyellow_job), "the contents of the case do not give its file again");
    assert_eq!(broken::<SilentZones>(hookyellow_job), "46 is due for a zone that is not 0, ours gives a file");
    assert_eq!(broken::<OtherZones>(hookyellow_job), "the converted file does not come back");
    let refused = "a case that can be read is refused 1 on the way to edition ";
    assert!(broken::<SameWord>(hookyellow_job).starts_with(refused));
    assert!(broken::<ClearedToTheEnd>(hookyellow_job).contains("'s output is written, behind "));
    assert!(broken::<Length>(hookyellow_job).contains("gives refusal 46 and length 32"));
    assert!(broken::<Right>(by_edition).contains("on the converted file"));
}

/// Both readers agree on every case, and every law comes to be tried in both editions.
#[test]
fn cases_of_both_editions() {
    let (mut desk, mut area, mut files) = (desk::<Right>(), Area::of(hookyellow_job), Files::default());
    for seed in 1..300 {
        files.add(&judge_case(&made(seed, Mode::Files), seed, &mut desk, &mut area).unwrap());
    }
    let c = files.cases;
    assert!(c.written.iter().all(|&n| n > 60) && c.nonzero > 30 && c.converted > 150 && c.served > 100, "{c:?}");
    assert!(c.refused > 5 && c.alike > c.served, "{c:?}");
}
