//! 01's Pair by both locators, libraries whose locators are wrong, and the law that holds the two
//! together.
use crate::located::Located;
use crate::pairs::Pair;
use crate::tests::first_difference;
use hookyellow::raw::hookyellow_job;
use hookyellow::{job, Answer, Case, Cell, Dimension, Direction, LineOptions, Request};
use hookyellow::{Located as Found, Position, Sheet, Streamline, Vector, Workspace};
use reference::refair::ref02::standing;
use reference::read_case;
use reference::refair::{with_room, Lens, Order, Stats, Twin};
use std::slice::{from_raw_parts, from_raw_parts_mut};

/// 01's room: two unit squares side by side.
fn pair() -> Case {
    Case::builder(Dimension::Two)
        .points([[0., 0., 0.], [1., 0., 0.], [2., 0., 0.], [0., 1., 0.], [1., 1., 0.], [2., 1., 0.]])
        .cells([Cell::Polygon(vec![0, 1, 4, 3]), Cell::Polygon(vec![1, 2, 5, 4])])
        .velocities([[1., 0., 0.], [3., 0., 0.]])
        .pressures([0., 0.])
        .build()
        .unwrap()
}

pub fn asked(request: Request) -> Answer {
    job(&pair(), &[request], &mut Workspace::new()).unwrap().answers[0].clone().unwrap()
}

/// By the bins 01's starred table, among all cells the lowest cell whose polygon contains the
/// point; x = 1 is a side of both squares, x = 2 the right one's far side.
#[test]
fn pair_is_located_as_01_and_02_say() {
    let inside = |cell| Some(Found { cell, position: Position::Inside });
    let edge = |cell| Some(Found { cell, position: Position::Edge });
    let found = [(0.5, inside(0), inside(0)), (1.0, edge(0), edge(0)), (1.5, None, inside(1)), (2.0, None, edge(1))];
    for (x, bin, all) in found.into_iter().chain([(2.5, None, None)]) {
        let point = Vector::new(x, 0.5, 0.0);
        assert_eq!(asked(Request::Locate { point, all_cells: false }), Answer::Locate(bin), "{x}");
        assert_eq!(asked(Request::Locate { point, all_cells: true }), Answer::Locate(all), "{x}");
    }
}

/// Steps of a quarter along x, from the left square's centre: by the bins up to the side that both
/// squares share, among all cells up to the far border; and the same in millimetres.
#[test]
fn lines_of_pair_reach_the_far_border() {
    let (seed, direction) = (Vector::new(0.5, 0.5, 0.0), Direction::Forward);
    for (all_cells, xs) in [(false, &[0.5, 0.75, 1.0][..]), (true, &[0.5, 0.75, 1.0, 1.25, 1.5, 1.75, 2.0])] {
        let options = LineOptions { step_size: 0.25, max_steps: 10, max_length: 9.0, stagnation_speed: 0.0, all_cells };
        let line = Streamline { points: xs.iter().map(|&x| Vector::new(x, 0.5, 0.0)).collect() };
        assert_eq!(asked(Request::Streamline { seed, direction, options }), Answer::Streamline(line));
        let sheet = Sheet { points: xs.iter().map(|&x| ((x * 1000.0) as i64, 500)).collect() };
        assert_eq!(asked(Request::Sheet { seed, direction, options }), Answer::Sheet(sheet));
    }
}

/// The job in which requests of code FROM are served as those of code TO.
unsafe extern "C" fn served_as<const FROM: u64, const TO: u64>(
    a: *const u8, an: usize, b: *const u8, bn: usize, c: *mut u32, cn: usize,
    d: *mut f64, dn: usize, e: *mut u8, en: usize, g: *mut u64, gn: usize,
) -> u64 {
    let mut requests = from_raw_parts(b, bn).to_vec();
    for request in requests.chunks_exact_mut(128).filter(|request| request[..8] == FROM.to_le_bytes()) {
        request[..8].copy_from_slice(&TO.to_le_bytes());
    }
    hookyellow_job(a, an, requests.as_ptr(), bn, c, cn, d, dn, e, en, g, gn)
}

/// Where one code is served by the other locator, its answers or the marks are seen to differ.
fn seen_as<const FROM: u64, const TO: u64>() {
    let why = first_difference(served_as::<FROM, TO>).2;
    assert!(why.contains(&format!("(code {FROM}, from word")), "{why}");
}

#[test]
fn all_cells_by_the_bins() {
    seen_as::<9, 1>();
    seen_as::<10, 2>();
    seen_as::<11, 3>();
    seen_as::<12, 4>();
    seen_as::<14, 13>();
}

#[test]
fn the_bins_by_all_cells() {
    seen_as::<1, 9>();
    seen_as::<2, 10>();
    seen_as::<3, 11>();
    seen_as::<4, 12>();
    seen_as::<13, 14>();
}

/// A wrong rule for code 9.
trait Rule {
    fn locate(twin: &Twin, p: (f64, f64)) -> Option<usize>;
}

fn contains(twin: &Twin, cell: usize, p: (f64, f64)) -> bool {
    standing(p, &twin.polygons[cell]) > 0
}

/// The highest cell that contains the point.
struct Highest;
impl Rule for Highest {
    fn locate(twin: &Twin, p: (f64, f64)) -> Option<usize> {
        (0..twin.polygons.len()).rev().find(|&c| contains(twin, c, p))
    }
}

/// Points on a side belong to no cell.
struct Inside;
impl Rule for Inside {
    fn locate(twin: &Twin, p: (f64, f64)) -> Option<usize> {
        (0..twin.polygons.len()).find(|&c| standing(p, &twin.polygons[c]) == 2)
    }
}

/// Cells whose limits do not hold the point are passed over, the tolerance forgotten.
struct NarrowLimits;
impl Rule for NarrowLimits {
    fn locate(twin: &Twin, p: (f64, f64)) -> Option<usize> {
        let holds = |c: usize| {
            let (xs, ys) = (|| twin.polygons[c].iter().map(|v| v.0), || twin.polygons[c].iter().map(|v| v.1));
            let between = |x: f64, low: f64, high: f64| low <= x && x <= high;
            between(p.0, xs().fold(f64::INFINITY, f64::min), xs().fold(f64::NEG_INFINITY, f64::max))
                && between(p.1, ys().fold(f64::INFINITY, f64::min), ys().fold(f64::NEG_INFINITY, f64::max))
        };
        (0..twin.polygons.len()).find(|&c| holds(c) && contains(twin, c, p))
    }
}

/// The cell by the point's bin and, where that finds none, the lowest of all.
struct BinFirst;
impl Rule for BinFirst {
    fn locate(twin: &Twin, p: (f64, f64)) -> Option<usize> {
        let point = reference::flursys::Vec3::new(p.0, p.1, 0.0);
        twin.locate(point).or_else(|| (0..twin.polygons.len()).find(|&c| contains(twin, c, p)))
    }
}

/// Bins in which a coordinate on the far border falls into the last bin and not into bin 0.
struct LastBin;
impl Rule for LastBin {
    fn locate(twin: &Twin, p: (f64, f64)) -> Option<usize> {
        let b = twin.bounds;
        let share = |x: f64, low: f64, high: f64| ((x - low) / (high - low)).clamp(0.0, 1.0);
        let bin = |x: f64, low: f64, high: f64, n: usize| ((share(x, low, high) * n as f64) as usize).min(n - 1);
        let bins = |p: (f64, f64)| (bin(p.0, b.0, b.2, twin.bins_x), bin(p.1, b.1, b.3, twin.bins_y));
        let at = bins(p);
        let listed = |c: usize| {
            let all = || twin.polygons[c].iter().map(|&v| bins(v));
            let (xs, ys) = (|| all().map(|v| v.0), || all().map(|v| v.1));
            xs().min() <= Some(at.0) && Some(at.0) <= xs().max() && ys().min() <= Some(at.1) && Some(at.1) <= ys().max()
        };
        (0..twin.polygons.len()).find(|&c| listed(c) && contains(twin, c, p))
    }
}

/// The job with another rule for the cell of code 9; the position stays.
unsafe extern "C" fn ruled<R: Rule>(
    a: *const u8, an: usize, b: *const u8, bn: usize, c: *mut u32, cn: usize,
    d: *mut f64, dn: usize, e: *mut u8, en: usize, g: *mut u64, gn: usize,
) -> u64 {
    let result = hookyellow_job(a, an, b, bn, c, cn, d, dn, e, en, g, gn);
    let (requests, answers) = (from_raw_parts(b, bn), from_raw_parts_mut(g, gn));
    let asks = |request: &[u8]| request[..8] == 9u64.to_le_bytes();
    if result != 0 || !requests.chunks_exact(128).any(asks) {
        return result;
    }
    let case = read_case(from_raw_parts(a, an)).ok().expect("a served case").case;
    let twin = with_room(&case, Order::Rust, &mut Stats::default(), |room, _| room.twin.clone()).ok().flatten();
    let mut at = 0;
    for request in requests.chunks_exact(128) {
        if let (true, 2, Some(twin)) = (asks(request), answers[at + 1], &twin) {
            let float = |k: usize| f64::from_le_bytes(request[8 * k..8 * k + 8].try_into().unwrap());
            let p = (float(1), float(2));
            let cell = if p.0.is_finite() && p.1.is_finite() { R::locate(twin, p) } else { None };
            answers[at + 2] = cell.map_or(u64::MAX, |c| c as u64);
        }
        at += 2 + answers[at + 1] as usize;
    }
    result
}

/// The right rule: the lowest cell that contains the point.
struct Lowest;
impl Rule for Lowest {
    fn locate(twin: &Twin, p: (f64, f64)) -> Option<usize> {
        (0..twin.polygons.len()).find(|&c| contains(twin, c, p))
    }
}

#[test]
fn other_rules_for_all_cells() {
    let rules = [ruled::<Highest>, ruled::<Inside>, ruled::<NarrowLimits>, ruled::<BinFirst>, ruled::<LastBin>];
    for why in rules.map(|library| first_difference(library).2) {
        assert!(why.contains("(code 9, from word"), "{why}");
    }
}

/// The rules above differ from the library where they are wrong and nowhere else.
#[test]
#[should_panic(expected = "5,000 pairs do not show the fault")]
fn the_right_rule_is_not_seen() {
    first_difference(ruled::<Lowest>);
}

/// Two requests at a point, by its bin and among all cells.
pub fn twice() -> Pair {
    let words = |code: u64| [code, 1.5f64.to_bits(), 0.5f64.to_bits()].into_iter().chain([0; 13]);
    let requests = words(1).chain(words(9)).flat_map(u64::to_le_bytes).collect();
    Pair { case: pair().into_bytes(), requests, lens: Lens::default(), sort: String::new() }
}

/// The law on their answers, inside wherever there is a cell.
fn law(cells: [u64; 2]) -> Result<Located, String> {
    let [bin, all] = cells.map(|cell| [0, 2, cell, if cell == u64::MAX { 0 } else { 2 }]);
    Located::of(&twice(), &[bin, all].concat())
}

#[test]
fn a_cell_by_the_bin_is_no_lower_than_among_all_cells() {
    let none = u64::MAX;
    let nothing = Located::default();
    assert_eq!(law([none, none]), Ok(Located { nowhere: 1, ..nothing }));
    assert_eq!(law([none, 7]), Ok(Located { alone: 1, ..nothing }));
    assert_eq!(law([7, 7]), Ok(Located { same: 1, ..nothing }));
    assert_eq!(law([7, 3]), Ok(Located { lower: 1, ..nothing }));
    assert!(law([7, none]).unwrap_err().ends_with("at (1.5e0, 5e-1): by its bin in cell 7, among all cells nowhere"));
    assert!(law([3, 7]).unwrap_err().ends_with("by its bin in cell 3, among all cells in 7, a higher one"));
}
