//! The writer of case files and the converter: the bytes, the refusals in their order, and buffers
//! that keep what is not theirs.
mod common;
use common::*;
use hookyellow::*;
use Refusal::{Counts as TooMany, Definitions, NonzeroZone, Output, Trailer, Zone};

/// What an output holds before a call, again and again.
const FILL: [u8; 5] = [0xa5, 0x00, 0x5a, 0xff, 0x01];

/// The parts of a file, held.
#[derive(Clone, Debug)]
struct Parts {
    counts: Counts,
    points: Vec<u64>,
    words: Vec<u32>,
    velocities: Vec<u64>,
    pressures: Vec<u64>,
    zones: Vec<u32>,
}

impl Parts {
    fn lent(&self) -> CaseParts<'_> {
        let Self { counts, points, words, velocities, pressures, zones } = self;
        CaseParts { counts: *counts, points, words, velocities, pressures, zones }
    }

    fn length(&self) -> usize {
        self.counts.file_length()
    }
}

/// Cells of one record each, over points and values that are any bits: NaNs of every payload among
/// them.
fn parts(edition: usize, dimension: usize, points: usize, record: &[u32], cells: usize) -> Parts {
    let mut random = Random(5);
    let mut bits = |n: usize| -> Vec<u64> {
        (0..n).map(|i| [0x7ff0_0000_0000_0000, 0xfff0_0000_0000_0000, 0][i % 3] | random.next()).collect()
    };
    Parts {
        counts: Counts { edition, dimension, points, words: record.len() * cells, cells },
        points: bits(3 * points),
        words: record.repeat(cells),
        velocities: bits(3 * cells),
        pressures: bits(cells),
        zones: (0..cells as u32).map(|cell| if edition == 2 { cell * 37 % 256 } else { 0 }).collect(),
    }
}

/// A triangle, and a tetrahedron.
const TRIANGLE: [u32; 5] = [0, 3, 0, 1, 2];
const SOLID: [u32; 5] = [1, 0, 1, 2, 3];

/// A call with so many bytes of output. The bytes after the file, and under a refusal all, must be
/// as they were.
fn call(room: usize, write: impl Fn(&mut [u8]) -> Result<usize, Refusal>) -> Result<Vec<u8>, Refusal> {
    let held = FILL.repeat(room / 5 + 1)[..room].to_vec();
    let mut out = held.clone();
    let written = write(&mut out);
    let length = written.unwrap_or(0);
    assert!(out[length..] == held[length..], "{written:?}");
    out.truncate(length);
    written.map(|_| out)
}

fn written(parts: &Parts, room: usize) -> Result<Vec<u8>, Refusal> {
    call(room, |out| write_case(&parts.lent(), out))
}

fn converted(file: &[u8], edition: usize, room: usize) -> Result<Vec<u8>, Refusal> {
    call(room, |out| convert(file, edition, out))
}

/// Of both editions and dimensions, with no points or no cells too.
fn samples() -> Vec<Parts> {
    let mut list = Vec::new();
    for edition in [1, 2] {
        for (points, cells) in [(0, 0), (1, 0), (0, 1), (3, 1), (5, 4), (40, 300)] {
            list.push(parts(edition, 2, points, &TRIANGLE, cells));
            list.push(parts(edition, 3, points, &SOLID, cells));
        }
    }
    list
}

/// The file of docs/FORMAT.md, every float by its bits, and as long as the counts say.
#[test]
fn the_parts_are_laid_out_as_the_page_says() {
    for parts in samples() {
        let file = laid_out(&parts.lent());
        assert_eq!(file.len(), parts.length());
        for room in [file.len(), file.len() + 1, file.len() + 100] {
            assert_eq!(written(&parts, room).as_ref(), Ok(&file), "{:?}", parts.counts);
        }
        assert_eq!(needs(&Case::from_bytes(file)).map(|needs| needs.marks), Ok(parts.counts.cells));
    }
}

/// The lengths of the table, and counts beyond all lengths.
#[test]
fn lengths_are_those_of_the_table() {
    let counts = Counts { edition: 1, dimension: 2, points: 6, words: 12, cells: 2 };
    assert_eq!(counts.file_length(), 288);
    assert_eq!(Counts { edition: 2, ..counts }.file_length(), 300);
    for huge in [usize::MAX, usize::MAX / 4, 1 << 62] {
        assert_eq!(Counts { points: huge, ..counts }.file_length(), usize::MAX);
        assert_eq!(Counts { words: huge, cells: huge, ..counts }.file_length(), usize::MAX);
    }
    let empty = Counts { edition: 2, dimension: 3, points: 0, words: 0, cells: 0 };
    assert_eq!(empty.file_length(), 36);
}

/// A case without cells is written; 8 is the job's.
#[test]
fn no_cells_are_for_the_job_to_refuse() {
    for edition in [1, 2] {
        let file = written(&parts(edition, 2, 3, &[], 0), 200).unwrap();
        assert_eq!(job(&Case::from_bytes(file), &[], &mut Workspace::new()), Err(Refusal::NoCells));
    }
}

/// Too little room by any number of bytes.
#[test]
fn a_short_output_is_as_it_was() {
    for parts in [parts(1, 2, 3, &TRIANGLE, 2), parts(2, 3, 4, &SOLID, 1), parts(2, 2, 0, &[], 0)] {
        for room in 0..parts.length() {
            assert_eq!(written(&parts, room), Err(Output), "{room}");
        }
    }
}

type Fault = fn(&mut Parts);

/// The faults of all refusals between 1 and 47, in their order.
const FAULTS: [(Refusal, Fault); 4] = [
    (TooMany, |parts| {
        parts.counts.points = 65_537;
        parts.points.resize(3 * 65_537, 0);
    }),
    (Definitions, |parts| parts.words[0] = 6),
    (Zone, |parts| parts.zones[2] = 256),
    (NonzeroZone, |parts| parts.zones[1] = 255),
];

/// Every set of faults together gives the first of them, in whatever room.
#[test]
fn refusals_come_in_their_order() {
    for set in 0..1 << 6 {
        let (mut parts, mut due) = (parts(1, 2, 4, &TRIANGLE, 3), None);
        let wrong = set & 1 == 1;
        if wrong {
            parts.counts.dimension = 4;
            due = Some(Trailer);
        }
        for (i, (refusal, fault)) in FAULTS.iter().enumerate() {
            if set >> (i + 1) & 1 == 1 {
                fault(&mut parts);
                due = due.or(Some(*refusal));
            }
        }
        let short = set >> 5 & 1;
        due = due.or((short == 1).then_some(Output));
        assert_eq!(written(&parts, parts.length() - short).err(), due, "{set:06b}");
    }
}

/// The same of a file to be converted to edition 1; to any other edition it is 1, whatever else is
/// wrong.
#[test]
fn refusals_of_a_conversion_come_in_their_order() {
    for set in 0..1 << 5 {
        let (mut parts, mut due) = (parts(2, 2, 4, &TRIANGLE, 3), None);
        parts.zones.fill(0);
        for (i, (refusal, fault)) in FAULTS.iter().enumerate() {
            if set >> i & 1 == 1 {
                fault(&mut parts);
                due = due.or(Some(*refusal));
            }
        }
        let short = set >> 4 & 1;
        due = due.or((short == 1).then_some(Output));
        let file = laid_out(&parts.lent());
        let length = Counts { edition: 1, ..parts.counts }.file_length();
        assert_eq!(converted(&file, 1, length - short).err(), due, "{set:05b}");
        for edition in [0, 2, 3, 101, usize::MAX, (1 << 32) + 1] {
            assert_eq!(converted(&file, edition, length), Err(Trailer), "{set:05b}");
        }
    }
}

/// Edition 2 may have any zone up to 255, in edition 1 a zone above 255 is still 45.
#[test]
fn zones_of_either_edition() {
    for (edition, zone, due) in [(1, 0, None), (1, 1, Some(NonzeroZone)), (1, 255, Some(NonzeroZone)), (2, 255, None)] {
        let mut parts = parts(edition, 3, 4, &SOLID, 2);
        parts.zones[1] = zone;
        assert_eq!(written(&parts, 1_000).err(), due, "{edition} {zone}");
    }
    for (edition, zone) in [(1, 256), (2, 256), (1, 1 << 16), (2, 1 << 31), (1, u32::MAX), (2, u32::MAX)] {
        let mut parts = parts(edition, 3, 4, &SOLID, 2);
        parts.zones[0] = zone;
        assert_eq!(written(&parts, 1_000), Err(Zone), "{edition} {zone}");
    }
}

/// 3 times this and one more is 2^64: products are exact, and not modulo 2^64.
const THIRD: usize = usize::MAX / 3;

/// Another edition or dimension, and a count or a part that is longer or shorter than the other.
const CONTRADICTIONS: [Fault; 30] = [
    |p| p.counts.edition = 0,
    |p| p.counts.edition = 3,
    |p| p.counts.edition = 102,
    |p| p.counts.edition += 1 << 32,
    |p| p.counts.edition = usize::MAX,
    |p| p.counts.dimension = 0,
    |p| p.counts.dimension = 1,
    |p| p.counts.dimension = 4,
    |p| p.counts.dimension += 100,
    |p| p.counts.dimension += 1 << 32,
    |p| p.counts.points += 1,
    |p| p.counts.points -= 1,
    |p| p.counts.points += 1 << 32,
    |p| {
        p.points.pop();
        p.counts.points += THIRD;
    },
    |p| p.counts.points = usize::MAX,
    |p| p.counts.words += 1,
    |p| p.counts.words -= 1,
    |p| p.counts.words += 1 << 32,
    |p| p.counts.cells += 1,
    |p| p.counts.cells -= 1,
    |p| p.counts.cells += 1 << 32,
    |p| p.points.push(0),
    |p| p.points.truncate(11),
    |p| p.velocities.push(0),
    |p| p.velocities.truncate(8),
    |p| p.pressures.push(0),
    |p| p.pressures.truncate(2),
    |p| p.zones.push(0),
    |p| p.zones.truncate(2),
    |p| p.zones.clear(),
];

#[test]
fn what_the_counts_do_not_say_is_refused() {
    for edition in [1, 2] {
        for (i, fault) in CONTRADICTIONS.iter().enumerate() {
            let mut parts = parts(edition, 2, 4, &TRIANGLE, 3);
            fault(&mut parts);
            assert_eq!(written(&parts, 1_000), Err(Trailer), "{edition} {i}");
        }
    }
}

/// Words that are not exactly C records: too few or too many, an unknown kind, inner counts at
/// their limits and above.
#[test]
fn words_are_exactly_one_record_for_each_cell() {
    let polygon = |n: u32| [0, n].into_iter().chain(0..n).collect::<Vec<_>>();
    let faces = |n: u32, each: u32| {
        let face = std::iter::once(each).chain(0..each).collect::<Vec<_>>();
        [vec![5, n], face.repeat(n as usize)].concat()
    };
    let cases = [
        (polygon(24), true),
        (polygon(25), false),
        (polygon(0), true),
        (faces(24, 8), true),
        (faces(25, 8), false),
        (faces(24, 9), false),
        (faces(0, 0), true),
        (vec![2, 0, 1, 2, 3, 4, 5, 6, 7], true),
        (vec![3, 0, 1, 2, 3, 4, 5], true),
        (vec![4, 0, 1, 2, 3, 4], true),
        (vec![4, 0, 1, 2, 3, 4, 5], false),
        (vec![4, 0, 1, 2, 3], false),
        (vec![6, 0, 1, 2, 3], false),
        (vec![u32::MAX], false),
        (vec![], false),
        (vec![0], false),
        (vec![0, u32::MAX], false),
        ([&TRIANGLE[..], &TRIANGLE].concat(), false),
    ];
    for (record, right) in cases {
        for edition in [1, 2] {
            let result = written(&parts(edition, 3, 2, &record, 1), 2_000);
            assert_eq!(result.err(), (!right).then_some(Definitions), "{record:?}");
        }
    }
    assert_eq!(written(&parts(1, 2, 2, &[], 1), 2_000), Err(Definitions));
    let mut none = parts(2, 2, 2, &[], 0);
    (none.words, none.counts.words) = (vec![0], 1);
    assert_eq!(written(&none, 2_000), Err(Definitions));
}

/// The greatest counts are written and converted, one more is not.
#[test]
fn counts_have_the_limits_of_a_reader() {
    let wide: Vec<u32> = [5, 13].into_iter().chain((0..13).flat_map(|f| (0..=3 + u32::from(f < 10)).rev())).collect();
    assert_eq!(wide.len(), 64);
    let mut longer = parts(1, 3, 0, &wide, 16_384);
    longer.words.push(0);
    longer.counts.words += 1;
    for (parts, right) in [
        (parts(1, 2, 65_536, &TRIANGLE, 1), true),
        (parts(1, 2, 65_537, &TRIANGLE, 1), false),
        (parts(1, 2, 3, &TRIANGLE, 16_384), true),
        (parts(1, 2, 3, &TRIANGLE, 16_385), false),
        (parts(1, 3, 0, &wide, 16_384), true),
        (longer, false),
    ] {
        let file = written(&parts, parts.length());
        assert_eq!(file.as_ref().err(), (!right).then_some(&TooMany), "{:?}", parts.counts);
        assert_eq!(file.is_ok(), right && file == Ok(laid_out(&parts.lent())));
        let there = converted(&laid_out(&parts.lent()), 2, 1 << 23);
        assert_eq!(there.as_ref().err(), (!right).then_some(&TooMany));
        if let (Ok(file), Ok(there)) = (file, there) {
            assert!(converted(&there, 1, file.len()) == Ok(file));
        }
    }
}

/// A file goes to edition 2 with zones 0 and comes back as it was, byte for byte, NaNs too.
#[test]
fn a_file_is_converted_there_and_back() {
    for mut parts in samples() {
        let file = laid_out(&parts.lent());
        let (from, to) = (parts.counts.edition, 3 - parts.counts.edition);
        assert_eq!(converted(&file, from, 20_000), Err(Trailer));
        let nonzero = parts.zones.iter().any(|&zone| zone != 0);
        if nonzero {
            assert_eq!(converted(&file, to, 20_000), Err(NonzeroZone));
            assert_eq!(Case::from_bytes(file).in_edition(to), Err(NonzeroZone));
            parts.zones.fill(0);
        }
        let file = Case::from_bytes(laid_out(&parts.lent()));
        parts.counts.edition = to;
        let other = Case::from_bytes(laid_out(&parts.lent()));
        for room in [parts.length(), parts.length() + 77] {
            assert_eq!(converted(file.as_bytes(), to, room).as_deref(), Ok(other.as_bytes()));
        }
        assert_eq!(converted(file.as_bytes(), to, parts.length() - 1), Err(Output));
        assert_eq!(file.in_edition(to).as_ref(), Ok(&other));
        assert_eq!(other.in_edition(from).as_ref(), Ok(&file));
    }
}

/// What a job refuses with 1 cannot be converted to either edition, and no bytes make the converter
/// fail.
#[test]
fn what_is_no_case_is_refused_as_a_job_refuses_it() {
    let mut random = Random(6);
    let mut refused = [0; 48];
    for _ in 0..20_000 {
        let room = [pair(), zoned_pair([0, 0]), zoned_pair([0, 9])][random.below(3)].clone();
        let mut file = room.into_bytes();
        match random.below(3) {
            0 => file.truncate(random.below(file.len())),
            1 => file.extend(vec![0; random.below(9)]),
            _ => (0..1 + random.below(3)).for_each(|_| {
                let from = [0, 144][random.below(2)];
                let place = from + random.below(file.len() - from);
                file[place] = [0, 1, 2, 3, 0xff, random.next() as u8][random.below(6)];
            }),
        }
        let edition = 1 + random.below(2);
        let reader = needs(&Case::from_bytes(file.clone())).err();
        let result = converted(&file, edition, random.below(400));
        if let (Some(due), Err(refusal)) = (reader, &result) {
            assert!(*refusal == due || *refusal == Trailer, "{refusal} for {due}");
        }
        assert!(reader.is_none() || result.is_err());
        refused[result.err().map_or(0, |refusal| refusal.number() as usize)] += 1;
    }
    assert!([0, 1, 3, 45, 46, 47].iter().all(|&number: &usize| refused[number] > 0), "{refused:?}");
}

/// The builder's bytes are the writer's, and what the writer refuses is not built.
#[test]
fn a_builder_gives_what_the_writer_gives() {
    let cells = |list: Vec<Cell>, zones: Option<u32>| {
        let n = list.len();
        let builder = Case::builder(Dimension::Three).points([[0.5, -0.0, f64::NAN]]).cells(list);
        let builder = builder.velocities(vec![X; n]).pressures(vec![2.0; n]);
        zones.map_or_else(|| builder.clone(), |zone| builder.clone().zones(vec![zone; n])).build()
    };
    let solid = Cell::Tetrahedron([0, 1, 2, 3]);
    for (edition, zone) in [(1, None), (2, Some(255))] {
        let mut parts = parts(edition, 3, 1, &SOLID, 2);
        parts.points = [0.5_f64, -0.0, f64::NAN].map(f64::to_bits).to_vec();
        parts.velocities = X.to_bits().repeat(2);
        parts.pressures = vec![2.0_f64.to_bits(); 2];
        parts.zones = vec![zone.unwrap_or(0); 2];
        assert_eq!(cells(vec![solid.clone(); 2], zone).unwrap().into_bytes(), laid_out(&parts.lent()));
    }
    assert_eq!(cells(vec![solid.clone()], Some(256)), Err(BuildError::Refused(Zone)));
    assert_eq!(cells(vec![Cell::Polygon(vec![0; 25])], Some(256)), Err(BuildError::Refused(Definitions)));
    assert_eq!(cells(vec![Cell::Polygon(vec![0; 25]); 16_385], None), Err(BuildError::Refused(TooMany)));
    assert_eq!(cells(vec![Cell::Polygon(vec![0; 1_048_575])], None), Err(BuildError::Refused(TooMany)));
    let error = BuildError::Refused(Zone).to_string();
    assert_eq!(error, "refusal 45: a zone above 255; it comes after 3 and before 4");
}
