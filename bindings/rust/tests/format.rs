//! The formats against the listings of docs/FORMAT.md.
mod common;
use common::*;
use hookyellow::{job, Answer, Case, Cell, Dimension, Direction, Field, LineOptions, Refusal, Request, SectionPlane};
use hookyellow::{Vector, Workspace};

const FORMAT: &str = include_str!("../../../docs/FORMAT.md");

/// The block of the page after a heading or a phrase.
fn block(after: &str) -> &'static str {
    let page = FORMAT.split_once(after).unwrap().1;
    page.split("```").nth(1).unwrap().trim_matches('\n')
}

/// The bytes of a line of a dump: after the place, the words of 8 or 16 digits.
fn dumped(line: &str) -> Vec<u8> {
    let words = line.split_whitespace().skip(1);
    let words = words.take_while(|w| [8, 16].contains(&w.len()) && w.bytes().all(|b| b.is_ascii_hexdigit()));
    words.flat_map(|w| (0..w.len()).step_by(2).map(|i| u8::from_str_radix(&w[i..i + 2], 16).unwrap())).collect()
}

#[test]
fn pair_is_the_dump() {
    let bytes: Vec<u8> = block("### 01's room Pair").lines().flat_map(dumped).collect();
    assert_eq!(bytes.len(), 288);
    assert_eq!(pair().as_bytes(), bytes);
    assert_eq!(Case::from_bytes(bytes.clone()).into_bytes(), bytes);
}

/// The file of edition 2, and the line that ends at the border of its zones.
#[test]
fn pair_with_zones_is_the_dump() {
    let bytes: Vec<u8> = block("### Pair with zones").lines().flat_map(dumped).collect();
    assert_eq!(bytes.len(), 300);
    assert_eq!(zoned_pair([0, 1]).as_bytes(), bytes);
    let options = LineOptions { all_cells: true, ..quarters(9.0) };
    let request = Request::Streamline { seed: at(0.25, 0.5, 0.0), direction: Direction::Forward, options };
    let mut workspace = Workspace::new();
    let outcome = job(&Case::from_bytes(bytes), &[request], &mut workspace).unwrap();
    assert_eq!(outcome.cells_read(), [0, 1]);
    let words = block("### Zones").split_whitespace().map(|word| u64::from_str_radix(word, 16).unwrap());
    let words: Vec<u64> = words.collect();
    assert_eq!(workspace.answers()[..2], [0, words.len() as u64 - 2]);
    assert_eq!(workspace.answers()[2..words.len()], words[2..]);
}

/// Pair in edition 2 is the second dump but for a zone of 0 at 104, and back it is the first.
#[test]
fn the_converter_gives_the_dumps() {
    let dump = |after: &str| Case::from_bytes(block(after).lines().flat_map(dumped).collect());
    let (first, zoned) = (dump("### 01's room Pair"), dump("### Pair with zones"));
    let second = patched(zoned.clone(), 0x104, 0);
    assert_eq!(first.in_edition(2).as_ref(), Ok(&second));
    assert_eq!(second.in_edition(1).as_ref(), Ok(&first));
    assert_eq!(zoned.in_edition(1), Err(Refusal::NonzeroZone));
}

#[test]
fn velocity_request_is_the_dump() {
    let mut bytes: Vec<u8> = block("The second request of").lines().next().map(dumped).unwrap();
    assert_eq!(bytes.len(), 32);
    bytes.resize(128, 0);
    assert_eq!(Request::Velocity { point: at(0.75, 0.5, 0.0), all_cells: false }.to_bytes()[..], bytes);
}

/// The words of each listed answer, and the cells of the last line.
fn listed() -> (Vec<Vec<u64>>, Vec<usize>) {
    let lines: Vec<&str> = block("prints them as").lines().collect();
    let (read, answers) = lines.split_last().unwrap();
    let hexadecimal = |line: &str| line.split(' ').skip(2).map(|word| u64::from_str_radix(word, 16).unwrap()).collect();
    let cells = read.strip_prefix("read ").unwrap().split(' ').map(|cell| cell.parse().unwrap());
    (answers.iter().map(|line| hexadecimal(line)).collect(), cells.collect())
}

#[test]
fn listed_answers_are_read_and_written_back() {
    let (words, _) = listed();
    let expected = [
        Answer::Locate(None),
        Answer::Velocity(Some(at(1.5, 0.0, 0.0))),
        Answer::Streamline(hookyellow::Streamline { points: [0.25, 0.5, 0.75].map(|x| at(x, 0.5, 0.0)).to_vec() }),
    ];
    for ((code, words), answer) in (1..).zip(&words).zip(expected) {
        assert_eq!(&answer.to_words(), words);
        assert_eq!(Answer::from_words(code, words), Some(answer));
    }
}

#[test]
fn the_job_gives_the_listing() {
    let requests = [
        Request::Locate { point: at(1.5, 0.5, 0.0), all_cells: false },
        Request::Velocity { point: at(0.75, 0.5, 0.0), all_cells: false },
        Request::Streamline { seed: at(0.25, 0.5, 0.0), direction: Direction::Forward, options: quarters(0.5) },
    ];
    let mut workspace = Workspace::new();
    let outcome = job(&pair(), &requests, &mut workspace).unwrap();
    let (words, cells) = listed();
    let given: Vec<_> = outcome.answers.iter().map(|answer| answer.as_ref().unwrap().to_words()).collect();
    assert_eq!(given, words);
    assert_eq!(outcome.cells_read(), cells);
    let whole: Vec<u64> = words.iter().flat_map(|words| [&[0, words.len() as u64], &words[..]].concat()).collect();
    assert_eq!(workspace.answers()[..whole.len()], whole);
    assert!(workspace.answers()[whole.len()..].iter().all(|&word| word == 0));
}

/// The first request among all cells, word by word.
#[test]
fn the_job_gives_the_listed_cell_among_all_cells() {
    let request = Request::Locate { point: at(1.5, 0.5, 0.0), all_cells: true };
    let mut workspace = Workspace::new();
    job(&pair(), &[request], &mut workspace).unwrap();
    let line = block("### Among all cells").split_whitespace();
    let words: Vec<u64> = line.map(|word| u64::from_str_radix(word, 16).unwrap()).collect();
    assert_eq!(words[1], words.len() as u64 - 2);
    assert_eq!(workspace.answers()[..words.len() + 1], [&words[..], &[0]].concat());
}

/// The sheet of the line, word by word.
#[test]
fn the_job_gives_the_listed_sheet() {
    let request = Request::Sheet { seed: at(0.25, 0.5, 0.0), direction: Direction::Forward, options: quarters(0.5) };
    let mut workspace = Workspace::new();
    job(&pair(), &[request], &mut workspace).unwrap();
    let line = block("as a sheet it is").split_whitespace();
    let words: Vec<u64> = line.map(|word| u64::from_str_radix(word, 16).unwrap()).collect();
    assert_eq!(words[1], words.len() as u64 - 2);
    assert_eq!(workspace.answers()[..words.len()], words);
}

/// The arguments in the order of the table of requests, each float told by its own value.
#[test]
fn requests_have_the_words_of_the_table() {
    let float = |x: u32| f64::from(x).to_bits();
    let vector = |x: u32| at(f64::from(x), f64::from(x + 1), f64::from(x + 2));
    let options = LineOptions { step_size: 20.0, max_steps: 21, max_length: 22.0, stagnation_speed: 23.0, all_cells: false };
    let all = LineOptions { all_cells: true, ..options };
    let plane = SectionPlane::new(vector(1), vector(4), vector(7));
    let (seed, start, end, point) = (vector(1), vector(1), vector(4), vector(10));
    let line = [float(20), 21, float(22), float(23)];
    let floats = |range: std::ops::RangeInclusive<u32>| range.map(float).collect::<Vec<_>>();
    let cases = [
        (Request::Locate { point: seed, all_cells: false }, 1, floats(1..=3)),
        (Request::Locate { point: seed, all_cells: true }, 9, floats(1..=3)),
        (Request::Velocity { point: seed, all_cells: false }, 2, floats(1..=3)),
        (Request::Velocity { point: seed, all_cells: true }, 10, floats(1..=3)),
        (Request::Streamline { seed, direction: Direction::Backward, options }, 3, [&floats(1..=3)[..], &[1], &line].concat()),
        (
            Request::Streamline { seed, direction: Direction::Backward, options: all },
            11,
            [&floats(1..=3)[..], &[1], &line].concat(),
        ),
        (
            Request::Rake { start, end, count: 9, direction: Direction::Forward, options },
            4,
            [&floats(1..=6)[..], &[9, 0], &line].concat(),
        ),
        (
            Request::Rake { start, end, count: 9, direction: Direction::Forward, options: all },
            12,
            [&floats(1..=6)[..], &[9, 0], &line].concat(),
        ),
        (Request::Section { plane }, 5, floats(1..=9)),
        (Request::Statistics { plane, field: Field::VelocityZ }, 6, [&floats(1..=9)[..], &[4]].concat()),
        (Request::Integrals { plane }, 7, floats(1..=9)),
        (Request::Probe { plane, point }, 8, floats(1..=12)),
        (Request::Sheet { seed, direction: Direction::Forward, options }, 13, [&floats(1..=3)[..], &[0], &line].concat()),
        (Request::Sheet { seed, direction: Direction::Forward, options: all }, 14, [&floats(1..=3)[..], &[0], &line].concat()),
    ];
    for (request, code, arguments) in cases {
        let mut words = [&[code], &arguments[..]].concat();
        words.resize(16, 0);
        assert_eq!(request.to_words()[..], words, "{request:?}");
    }
}

/// "0 speed, 1 pressure, 2 to 4 velocity x, y, z, 5 velocity along the normal".
#[test]
fn fields_have_the_numbers_of_the_table() {
    use Field::*;
    assert_eq!(Field::ALL, [Speed, Pressure, VelocityX, VelocityY, VelocityZ, NormalVelocity]);
    assert_eq!(Field::ALL.map(Field::number), [0, 1, 2, 3, 4, 5]);
}

/// The records of the table of kinds, one of each.
#[test]
fn kinds_have_the_records_of_the_table() {
    let kinds = [
        (Cell::Polygon(vec![1, 2, 3]), vec![0, 3, 1, 2, 3]),
        (Cell::Tetrahedron([1, 2, 3, 4]), vec![1, 1, 2, 3, 4]),
        (Cell::Hexahedron([1, 2, 3, 4, 5, 6, 7, 8]), vec![2, 1, 2, 3, 4, 5, 6, 7, 8]),
        (Cell::Prism([1, 2, 3, 4, 5, 6]), vec![3, 1, 2, 3, 4, 5, 6]),
        (Cell::Pyramid([1, 2, 3, 4, 5]), vec![4, 1, 2, 3, 4, 5]),
        (Cell::Polyhedron(vec![vec![1, 2, 3], vec![], vec![4]]), vec![5, 3, 3, 1, 2, 3, 0, 1, 4]),
    ];
    for (cell, record) in kinds {
        let case = Case::builder(Dimension::Three).cells([cell]).velocities([Vector::default()]).pressures([0.0]).build();
        let bytes = case.unwrap().into_bytes();
        let words: Vec<u32> = bytes.chunks_exact(4).map(|b| u32::from_le_bytes(b.try_into().unwrap())).collect();
        let (w, trailer) = (record.len(), &words[words.len() - 8..]);
        assert_eq!(words[..w], record);
        assert_eq!(trailer, [3, 0, w as u32, 1, 0, 0, 4 * w as u32, 4 * w as u32 + 24]);
    }
}

#[test]
fn values_are_one_for_each_cell() {
    use hookyellow::BuildError::{Pressures, Velocities, Zones};
    let triangle = || Case::builder(Dimension::Two).cells([Cell::Polygon(vec![0, 1, 2])]);
    assert_eq!(triangle().pressures([0.0]).build(), Err(Velocities));
    assert_eq!(triangle().velocities([X, X]).pressures([0.0]).build(), Err(Velocities));
    assert_eq!(triangle().velocities([X]).build(), Err(Pressures));
    assert_eq!(triangle().velocities([X]).pressures([0.0]).zones([]).build(), Err(Zones));
    assert_eq!(triangle().velocities([X]).pressures([0.0]).zones([1, 2]).build(), Err(Zones));
}

/// A NaN keeps its payload and a zero its sign.
#[test]
fn values_are_written_by_their_bits() {
    let odd = [0x7ff0_0000_0000_0001, 0xfff8_dead_beef_0123, 1 << 63, 1];
    let [x, y, z, pressure] = odd.map(f64::from_bits);
    let cell = Cell::Tetrahedron([0, 1, 2, 3]);
    let case = Case::builder(Dimension::Three).cells([cell]).velocities([[x, y, z]]).pressures([pressure]).build().unwrap();
    assert_eq!(case.as_bytes()[20..52], odd.map(u64::to_le_bytes).concat());
    assert_eq!(Request::Velocity { point: at(x, y, z), all_cells: false }.to_words()[1..4], odd[..3]);
}
