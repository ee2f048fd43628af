//! Cases of edition 2: their bytes, lines that end at the border of a zone, and what zones leave as it is.
mod common;
use common::*;
use hookyellow::*;

fn words(bytes: &[u8]) -> Vec<u32> {
    bytes.chunks_exact(4).map(|b| u32::from_le_bytes(b.try_into().unwrap())).collect()
}

/// The parts of edition 1, a word for each zone, their offset 24P+4W+32C, and the trailer with 100 more in its first word.
#[test]
fn edition_2_adds_zones_and_their_offset() {
    let (first, second) = (pair().into_bytes(), zoned_pair([7, 255]).into_bytes());
    let offset = 24 * 6 + 4 * 12 + 32 * 2;
    assert_eq!(first.len(), offset + 32);
    assert_eq!(second.len(), offset + 4 * 2 + 36);
    assert_eq!(second[..offset], first[..offset]);
    assert_eq!(words(&second[offset..offset + 16]), [7, 255, offset as u32, 102]);
    assert_eq!(second[offset + 16..], first[offset + 4..]);
    let cubes = zoned_cubes(&[(X, 1.0), (Y, 2.0)]).into_bytes();
    assert_eq!(words(&cubes[cubes.len() - 44..])[..4], [0, 1, cubes.len() as u32 - 44, 103]);
}

#[test]
fn zones_may_be_added_in_parts_and_a_case_of_none_is_still_edition_2() {
    let builder = || {
        Case::builder(Dimension::Two).cells([Cell::Polygon(vec![]), Cell::Polygon(vec![])]).velocities([X, X]).pressures([0., 0.])
    };
    assert_eq!(builder().zones([3]).zones([4]).build(), builder().zones([3, 4]).build());
    let empty = Case::builder(Dimension::Two).zones([]).build().unwrap();
    assert_eq!(words(empty.as_bytes()), [0, 102, 0, 0, 0, 0, 0, 0, 0]);
    assert_eq!(job(&empty, &[], &mut Workspace::new()), Err(Refusal::NoCells));
}

fn xs(line: &Streamline) -> Vec<f64> {
    line.points.iter().map(|p| p.x).collect()
}

fn all() -> LineOptions {
    LineOptions { all_cells: true, ..quarters(9.0) }
}

/// The x of the line along y = 0.5 from a seed, among all cells, and the cells that it was made from.
fn traced(case: &Case, x: f64, direction: Direction) -> (Vec<f64>, Vec<usize>) {
    let line = streamline(case, at(x, 0.5, 0.0), direction, all(), &mut Workspace::new()).unwrap();
    (xs(&line.answer.unwrap()), line.cells_read)
}

/// A point on the side that both squares share is of the left one, the lower. The step that finds the other zone is made: its
/// cells are read.
#[test]
fn a_line_ends_before_the_other_zone() {
    let (one, two) = (zoned_pair([5, 5]), zoned_pair([0, 1]));
    let whole = vec![0.5, 0.75, 1.0, 1.25, 1.5, 1.75, 2.0];
    assert_eq!(traced(&pair(), 0.5, Direction::Forward).0, whole);
    assert_eq!(traced(&one, 0.5, Direction::Forward).0, whole);
    assert_eq!(traced(&two, 0.5, Direction::Forward), (vec![0.5, 0.75, 1.0], vec![0, 1]));
    assert_eq!(traced(&two, 1.25, Direction::Forward).0, [1.25, 1.5, 1.75, 2.0]);
    assert_eq!(traced(&two, 1.5, Direction::Backward).0, [1.5, 1.25]);
    assert_eq!(traced(&two, 1.0, Direction::Forward).0, [1.0]);
    assert_eq!(traced(&two, 1.0, Direction::Backward).0, [1.0, 0.75, 0.5, 0.25, 0.0]);
}

#[test]
fn a_sheet_ends_where_its_line_does() {
    let sheet = sheet(&zoned_pair([0, 1]), at(0.5, 0.5, 0.0), Direction::Forward, all(), &mut Workspace::new()).unwrap();
    assert_eq!(sheet.answer.unwrap().points, [(500, 500), (750, 500), (1000, 500)]);
}

#[test]
fn each_line_of_a_rake_goes_by_its_own_seed() {
    let (start, end) = (at(0.75, 0.5, 0.0), at(1.75, 0.5, 0.0));
    let lines = rake(&zoned_pair([0, 1]), start, end, 3, Direction::Forward, all(), &mut Workspace::new()).unwrap();
    let lines: Vec<_> = lines.answer.unwrap().iter().map(xs).collect();
    assert_eq!(lines, [vec![0.75, 1.0], vec![1.25, 1.5, 1.75, 2.0], vec![1.75, 2.0]]);
}

/// Points, velocities and sections have no zones.
#[test]
fn what_is_no_line_is_as_in_edition_1() {
    let requests = |all_cells| {
        [0.5, 1.0, 1.5]
            .map(|x| at(x, 0.5, 0.0))
            .map(|point| [Request::Locate { point, all_cells }, Request::Velocity { point, all_cells }])
    };
    let list = [requests(false), requests(true)].concat().concat();
    assert_eq!(job(&pair(), &list, &mut Workspace::new()), job(&zoned_pair([0, 1]), &list, &mut Workspace::new()));
    let values = [(X, 1.0), (Y, 2.0), (X, 3.0)];
    let list = [
        Request::Section { plane: level(0.5) },
        Request::Integrals { plane: level(0.5) },
        Request::Probe { plane: level(0.5), point: at(1.5, 0.5, 0.5) },
    ];
    assert_eq!(job(&cubes(&values), &list, &mut Workspace::new()), job(&zoned_cubes(&values), &list, &mut Workspace::new()));
}

/// 45 stands between 3 and 4; the work area and the marks are those of edition 1.
#[test]
fn a_zone_above_255_is_refused() {
    assert_eq!(needs(&zoned_pair([255, 0])), needs(&pair()));
    for zone in [256, 1 << 16, u32::MAX] {
        let case = patched(zoned_pair([0, 0]), 260, zone);
        assert_eq!(needs(&case), Err(Refusal::Zone));
        let mut nothing = Workspace::from_buffers(vec![], vec![], vec![], vec![]);
        assert_eq!(nothing.run(&case, &[]), Err(Refusal::Zone));
        assert_eq!(nothing.run(&zoned_pair([0, 255]), &[]), Err(Refusal::WorkArea));
    }
}

/// Another offset, a length beside the right one, under 36 bytes, another word, and the parts of the other edition.
#[test]
fn a_wrong_edition_2_trailer_is_refused() {
    let right = zoned_pair([0, 1]).into_bytes();
    let (offset, word) = (right.len() - 36, right.len() - 32);
    let changed = |at: usize, by: u8| {
        let mut bytes = right.clone();
        bytes[at] = bytes[at].wrapping_add(by);
        bytes
    };
    let without = |range: std::ops::Range<usize>| [&right[..range.start], &right[range.end..]].concat();
    let short = [vec![0; 3], words_of(&[102, 0, 0, 0, 0, 0, 0, 0])].concat();
    let cases = [
        changed(offset, 4),
        changed(offset, 252),
        changed(offset + 3, 1),
        changed(word, 1),
        changed(word, 2),
        changed(word, 156),
        without(offset..word),
        without(offset - 4..offset),
        without(offset - 8..word),
        [&[0; 4], &right[..]].concat(),
        short,
    ];
    for (i, bytes) in cases.into_iter().enumerate() {
        let refusal = job(&Case::from_bytes(bytes), &[], &mut Workspace::new()).unwrap_err();
        // 103 is a right word: the cells are then no solids
        assert_eq!(refusal, if i == 3 { Refusal::InvalidCell } else { Refusal::Trailer }, "{i}");
    }
}

fn words_of(list: &[u32]) -> Vec<u8> {
    list.iter().flat_map(|word| word.to_le_bytes()).collect()
}
