//! Libraries that tell a point's position by another rule, the laws over positions, and the cells
//! of FLURSYS's own locator.
use crate::border_tests::{asked, twice};
use crate::edges::rim;
use crate::located::{Located, Positions};
use crate::locators::held;
use crate::pairs::{made, Mode};
use crate::tests::first_difference_in;
use hookyellow::raw::hookyellow_job;
use hookyellow::{Answer, Located as Found, Position, Request, Vector};
use reference::refair::ref02::standing;
use reference::read_case;
use reference::refair::{with_room, JobOut, Order, Stats};
use std::slice::{from_raw_parts, from_raw_parts_mut};

type Vertex = (f64, f64);

/// Points of Pair at y = 0.5, among all cells. Of two cells that contain the point the lower one
/// says what it is: 5e-13 beside the shared side it is on the edge of cell 0, though it lies in
/// cell 1.
#[test]
fn pair_is_told_by_its_lowest_cell() {
    let (edge, inside) = (Position::Edge, Position::Inside);
    let due = [
        (-1e-12, 0, edge), (0.0, 0, edge), (1e-12, 0, edge), (1e-12f64.next_up(), 0, inside), (0.5, 0, inside),
        (1.0 - 5e-13, 0, edge), (1.0, 0, edge), (1.0 + 5e-13, 0, edge), (1.0 + 1e-11, 1, inside), (1.5, 1, inside),
        (2.0 - 5e-13, 1, edge), (2.0, 1, edge), (2.0 + 5e-13, 1, edge),
    ];
    for (x, cell, position) in due {
        let request = Request::Locate { point: Vector::new(x, 0.5, 0.0), all_cells: true };
        assert_eq!(asked(request), Answer::Locate(Some(Found { cell, position })), "{x:e}");
    }
    for x in [(-1e-12f64).next_down(), 2.0 + 1e-11] {
        let request = Request::Locate { point: Vector::new(x, 0.5, 0.0), all_cells: true };
        assert_eq!(asked(request), Answer::Locate(None), "{x:e}");
    }
}

/// A rule for the position of a point in the cell that was found.
trait Rule {
    fn position(polygons: &[Vec<Vertex>], cell: usize, p: Vertex) -> u64;
}

/// The job with the positions of codes 1 and 9 by another rule.
unsafe extern "C" fn ruled<R: Rule>(
    a: *const u8, an: usize, b: *const u8, bn: usize, c: *mut u32, cn: usize,
    d: *mut f64, dn: usize, e: *mut u8, en: usize, g: *mut u64, gn: usize,
) -> u64 {
    let result = hookyellow_job(a, an, b, bn, c, cn, d, dn, e, en, g, gn);
    let (requests, answers) = (from_raw_parts(b, bn), from_raw_parts_mut(g, gn));
    if result != 0 {
        return result;
    }
    let case = read_case(from_raw_parts(a, an)).ok().expect("a served case").case;
    let twin = with_room(&case, Order::Rust, &mut Stats::default(), |room, _| room.twin.clone()).ok().flatten();
    let mut at = 0;
    for request in requests.chunks_exact(128) {
        let asks = [1, 9].iter().any(|code: &u64| request[..8] == code.to_le_bytes());
        if let (true, 2, Some(twin)) = (asks, answers[at + 1], &twin) {
            let float = |k: usize| f64::from_le_bytes(request[8 * k..8 * k + 8].try_into().unwrap());
            let cell = answers[at + 2];
            if cell != u64::MAX {
                answers[at + 3] = R::position(&twin.polygons, cell as usize, (float(1), float(2)));
            }
        }
        at += 2 + answers[at + 1] as usize;
    }
    result
}

/// A wrong rule is seen in the second word.
fn seen<R: Rule>() {
    let why = first_difference_in(Mode::Edges, ruled::<R>).2;
    assert!(why.contains("): word 1 (position): "), "{why}");
}

/// Inside, where no side is one that the point is on by this rule.
fn by_sides(polygon: &[Vertex], on: impl Fn(Vertex, Vertex) -> bool) -> u64 {
    let n = polygon.len();
    if (0..n).any(|i| on(polygon[i], polygon[(i + 1) % n])) { 1 } else { 2 }
}

fn turn(p: Vertex, a: Vertex, b: Vertex) -> f64 {
    ((b.0 - a.0) * (p.1 - a.1) - (b.1 - a.1) * (p.0 - a.0)).abs()
}

/// Is the point between the ends of a side, in x and in y?
fn between(p: Vertex, a: Vertex, b: Vertex, by: f64) -> bool {
    let one = |x: f64, s: f64, t: f64| x >= s.min(t) - by && x <= s.max(t) + by;
    one(p.0, a.0, b.0) && one(p.1, a.1, b.1)
}

struct Inside;
impl Rule for Inside {
    fn position(_: &[Vec<Vertex>], _: usize, _: Vertex) -> u64 {
        2
    }
}

struct OnEdge;
impl Rule for OnEdge {
    fn position(_: &[Vec<Vertex>], _: usize, _: Vertex) -> u64 {
        1
    }
}

struct NotSaid;
impl Rule for NotSaid {
    fn position(_: &[Vec<Vertex>], _: usize, _: Vertex) -> u64 {
        0
    }
}

/// Where the crossings are odd the point is inside, whatever side it is on.
struct Crossings;
impl Rule for Crossings {
    fn position(polygons: &[Vec<Vertex>], cell: usize, p: Vertex) -> u64 {
        let polygon = &polygons[cell];
        let crosses = |a: Vertex, b: Vertex| {
            (a.1 > p.1) != (b.1 > p.1) && p.0 < (b.0 - a.0) * (p.1 - a.1) / (b.1 - a.1) + a.0
        };
        let n = (0..polygon.len()).filter(|&i| crosses(polygon[i], polygon[(i + 1) % polygon.len()])).count();
        if n % 2 == 1 { 2 } else { 1 }
    }
}

/// What the point is in the highest cell that contains it.
struct HighestCell;
impl Rule for HighestCell {
    fn position(polygons: &[Vec<Vertex>], _: usize, p: Vertex) -> u64 {
        polygons.iter().rev().map(|polygon| standing(p, polygon)).find(|&s| s > 0).expect("located")
    }
}

/// Inside, where it is inside any cell.
struct InsideAny;
impl Rule for InsideAny {
    fn position(polygons: &[Vec<Vertex>], _: usize, p: Vertex) -> u64 {
        polygons.iter().map(|polygon| standing(p, polygon)).max().expect("located")
    }
}

/// On a side alone, without the tolerance.
struct Exact;
impl Rule for Exact {
    fn position(polygons: &[Vec<Vertex>], cell: usize, p: Vertex) -> u64 {
        by_sides(&polygons[cell], |a, b| turn(p, a, b) == 0.0 && between(p, a, b, 0.0))
    }
}

/// A tolerance that its limit is not part of.
struct Below;
impl Rule for Below {
    fn position(polygons: &[Vec<Vertex>], cell: usize, p: Vertex) -> u64 {
        by_sides(&polygons[cell], |a, b| turn(p, a, b) < 1e-12 && between(p, a, b, 1e-12))
    }
}

/// The tolerance on the distance and not on the distance times the length of the side.
struct Distance;
impl Rule for Distance {
    fn position(polygons: &[Vec<Vertex>], cell: usize, p: Vertex) -> u64 {
        let length = |a: Vertex, b: Vertex| (b.0 - a.0).hypot(b.1 - a.1);
        by_sides(&polygons[cell], |a, b| turn(p, a, b) <= 1e-12 * length(a, b) && between(p, a, b, 1e-12))
    }
}

/// No tolerance beyond the ends of a side.
struct BetweenTheEnds;
impl Rule for BetweenTheEnds {
    fn position(polygons: &[Vec<Vertex>], cell: usize, p: Vertex) -> u64 {
        by_sides(&polygons[cell], |a, b| turn(p, a, b) <= 1e-12 && between(p, a, b, 0.0))
    }
}

/// The line through a side, endless.
struct Endless;
impl Rule for Endless {
    fn position(polygons: &[Vec<Vertex>], cell: usize, p: Vertex) -> u64 {
        by_sides(&polygons[cell], |a, b| turn(p, a, b) <= 1e-12)
    }
}

/// The side from the last vertex to the first is left out.
struct Open;
impl Rule for Open {
    fn position(polygons: &[Vec<Vertex>], cell: usize, p: Vertex) -> u64 {
        let polygon = &polygons[cell];
        let on = |s: &[Vertex]| turn(p, s[0], s[1]) <= 1e-12 && between(p, s[0], s[1], 1e-12);
        if polygon.windows(2).any(on) { 1 } else { 2 }
    }
}

#[test]
fn one_position_for_all() {
    seen::<Inside>();
    seen::<OnEdge>();
    seen::<NotSaid>();
}

#[test]
fn crossings_or_another_cell() {
    seen::<Crossings>();
    seen::<HighestCell>();
    seen::<InsideAny>();
}

#[test]
fn another_tolerance() {
    seen::<Exact>();
    seen::<Below>();
    seen::<Distance>();
    seen::<BetweenTheEnds>();
    seen::<Endless>();
    seen::<Open>();
}

/// The right rule, written in the form of the wrong ones.
struct Right;
impl Rule for Right {
    fn position(polygons: &[Vec<Vertex>], cell: usize, p: Vertex) -> u64 {
        by_sides(&polygons[cell], |a, b| turn(p, a, b) <= 1e-12 && between(p, a, b, 1e-12))
    }
}

/// The rules above differ from the library where they are wrong and nowhere else.
#[test]
#[should_panic(expected = "5,000 pairs do not show the fault")]
fn the_right_rule_is_not_seen() {
    first_difference_in(Mode::Edges, ruled::<Right>);
}

/// The edge of the unit square's left side reaches 1e-12 to both sides of it, that included; at the
/// middle of the square there is none.
#[test]
fn the_rim_of_a_square() {
    let square = [(0.0, 0.0), (1.0, 0.0), (1.0, 1.0), (0.0, 1.0)];
    assert_eq!(rim(&square, [0.0, 0.5], 0, false), [-1e-12, (-1e-12f64).next_down()]);
    assert_eq!(rim(&square, [0.0, 0.5], 0, true), [1e-12, 1e-12f64.next_up()]);
    assert_eq!(rim(&square, [0.5, 0.5], 1, true), [0.5, 0.5f64.next_up()]);
}

/// Of the points that are made a good part is on an edge, inside and nowhere, by both locators.
#[test]
fn all_positions_come() {
    let (mut found, mut served) = ([[0; 3]; 2], 0);
    for seed in 1..=200 {
        let pair = made(seed, Mode::Edges);
        let out = reference::job(&pair.case, &pair.requests, pair.lens, Order::Rust, &mut Stats::default());
        let JobOut::Done { answers, .. } = out else { continue };
        served += 1;
        for (i, answer) in answers.iter().enumerate().filter(|(_, answer)| answer.refusal == 0) {
            if let Some(k) = [1, 9].iter().position(|&code| pair.code(i) == code) {
                found[k][answer.words[1] as usize] += 1;
            }
        }
    }
    assert!(served > 150, "{served}");
    for [none, edge, inside] in found {
        let least = (none + edge + inside) / 10;
        assert!(none > least && edge > least && inside > least, "{found:?}");
    }
}

/// The answers of two requests at a point, by its bin and among all cells, each of a cell and a
/// position.
fn answers(words: [[u64; 2]; 2]) -> Vec<u64> {
    words.iter().flat_map(|w| [0, 2, w[0], w[1]]).collect()
}

#[test]
fn a_position_is_0_exactly_where_there_is_no_cell() {
    let none = u64::MAX;
    let of = |words| Positions::of(&twice(), &answers(words));
    assert_eq!(of([[none, 0], [3, 1]]), Ok(Positions { none: 1, edge: 1, inside: 0 }));
    assert_eq!(of([[3, 2], [3, 2]]), Ok(Positions { none: 0, edge: 0, inside: 2 }));
    assert_eq!(Positions::of(&twice(), &[44, 0, 44, 0]), Ok(Positions::default()));
    assert!(of([[none, 0], [3, 0]]).unwrap_err().ends_with("request 1: cell 3, and 0 for a position"));
    assert!(of([[3, 3], [3, 2]]).unwrap_err().ends_with("request 0: cell 3, and 3 for a position"));
    assert!(of([[none, 1], [3, 2]]).unwrap_err().ends_with("request 0: no cell, and a position"));
    assert!(Positions::of(&twice(), &[0, 1, 3, 0, 1, 3]).unwrap_err().ends_with("1 words, not a cell and a position"));
}

#[test]
fn one_cell_has_one_position() {
    let of = |words| Located::of(&twice(), &answers(words));
    assert_eq!(of([[3, 1], [3, 1]]), Ok(Located { same: 1, ..Located::default() }));
    assert_eq!(of([[3, 2], [1, 1]]), Ok(Located { lower: 1, ..Located::default() }));
    assert!(of([[3, 1], [3, 2]]).unwrap_err().ends_with("in cell 3 both times, position 1 and 2"));
}

/// (1.5, 0.5) of Pair: nowhere by its bin and in cell 1 of all. The second word is not FLURSYS's.
#[test]
fn cells_are_held_to_flursys() {
    let none = u64::MAX;
    assert_eq!(held(&twice(), &answers([[none, 0], [1, 2]])), Ok(2));
    assert_eq!(held(&twice(), &answers([[none, 7], [1, 7]])), Ok(2));
    assert_eq!(held(&twice(), &[44, 0, 44, 0]), Ok(0));
    let wrong = [([[1, 2], [1, 2]], "request 0 (code 1)"), ([[none, 0], [0, 2]], "request 1 (code 9)")];
    for (words, place) in wrong {
        let why = held(&twice(), &answers(words)).unwrap_err();
        assert!(why.contains(place) && why.contains("FLURSYS's cell"), "{why}");
    }
}
