//! Each number has its words, and rooms or requests that are refused.
mod common;
use common::*;
use hookyellow::*;
use std::collections::HashSet;

#[test]
fn numbers_are_those_of_01_and_02() {
    let jobs: Vec<u64> = Refusal::ALL.iter().map(|refusal| refusal.number()).collect();
    let requests: Vec<u64> = RequestRefusal::ALL.iter().map(|refusal| refusal.number()).collect();
    let listed = |number: &u64| (1..=19).contains(number) || (45..=47).contains(number);
    assert_eq!(jobs, (1..100).filter(listed).collect::<Vec<_>>());
    assert_eq!(requests, (30..=44).collect::<Vec<_>>());
    for number in 0..100 {
        assert_eq!(Refusal::from_number(number).number(), number);
        assert_eq!(RequestRefusal::from_number(number).number(), number);
        assert_eq!(matches!(Refusal::from_number(number), Refusal::Unknown(_)), !listed(&number));
        assert_eq!(matches!(RequestRefusal::from_number(number), RequestRefusal::Unknown(_)), !(30..=44).contains(&number));
    }
}

#[test]
fn each_has_words_of_its_own() {
    let jobs = Refusal::ALL.iter().map(|refusal| refusal.meaning());
    let meanings: Vec<&str> = jobs.chain(RequestRefusal::ALL.iter().map(|refusal| refusal.meaning())).collect();
    assert!(meanings.iter().all(|meaning| meaning.contains(' ')));
    assert_eq!(meanings.iter().collect::<HashSet<_>>().len(), 22 + 15);
    let error: Box<dyn std::error::Error> = Box::new(RequestRefusal::FewSeeds);
    assert_eq!(error.to_string(), "refusal 32: a rake of fewer than 2 seeds");
}

/// A case of triangles over these points, with values that are all zero.
fn triangles(points: &[[f64; 3]], cells: &[[u32; 3]]) -> Case {
    Case::builder(Dimension::Two)
        .points(points.iter().copied())
        .cells(cells.iter().map(|points| Cell::Polygon(points.to_vec())))
        .velocities(cells.iter().map(|_| Vector::default()))
        .pressures(cells.iter().map(|_| 0.0))
        .build()
        .unwrap()
}

/// One 2D cell of these words over so many points at the origin, laid out plainly: nothing refuses
/// to write it.
fn one_cell(points: usize, words: &[u32], zone: Option<u32>) -> Case {
    let edition = if zone.is_some() { 2 } else { 1 };
    let counts = Counts { edition, dimension: 2, points, words: words.len(), cells: 1 };
    let (points, zones) = (vec![0; 3 * points], [zone.unwrap_or(0)]);
    let parts = CaseParts { counts, points: &points, words, velocities: &[0; 3], pressures: &[0], zones: &zones };
    Case::from_bytes(laid_out(&parts))
}

/// The words of a polygon of the first n points.
fn polygon(n: u32) -> Vec<u32> {
    [0, n].into_iter().chain(0..n).collect()
}

#[test]
fn cases_are_refused_by_the_fault_they_have() {
    let (o, a, b) = ([0., 0., 0.], [1., 0., 0.], [0., 1., 0.]);
    let (far, flat, nan) = ([1_048_577., 0., 0.], [2., 0., 0.], [f64::NAN, 0., 0.]);
    let two_apart = triangles(&[o, a, b, [5., 5., 0.], [6., 5., 0.], [5., 6., 0.]], &[[0, 1, 2], [3, 4, 5]]);
    let cases = [
        (Case::from_bytes(vec![]), Refusal::Trailer),
        (one_cell(65_537, &polygon(3), None), Refusal::Counts),
        (one_cell(0, &polygon(25), None), Refusal::Definitions),
        (triangles(&[o], &[]), Refusal::NoCells),
        (triangles(&[o, a, nan], &[[0, 1, 2]]), Refusal::NonFinitePoint),
        (triangles(&[o, far, b], &[[0, 1, 2]]), Refusal::FarPoint),
        (one_cell(0, &polygon(2), None), Refusal::InvalidCell),
        (one_cell(0, &[1, 0, 0, 0, 0], None), Refusal::InvalidCell),
        (one_cell(0, &polygon(24), None), Refusal::PointNumber),
        (triangles(&[o, a, b], &[[0, 0, 1]]), Refusal::DegenerateFace),
        (triangles(&[o, a, b], &[[0, 1, 2]; 3]), Refusal::NonManifoldFace),
        (triangles(&[o, a, flat], &[[0, 1, 2]]), Refusal::ZeroVolume),
        (two_apart, Refusal::Disconnected),
        (one_cell(0, &polygon(24), Some(255)), Refusal::PointNumber),
        (one_cell(0, &polygon(24), Some(256)), Refusal::Zone),
        (one_cell(0, &polygon(25), Some(256)), Refusal::Definitions),
    ];
    let mut workspace = Workspace::new();
    for (case, refusal) in cases {
        assert_eq!(job(&case, &[], &mut workspace), Err(refusal));
        let of_the_file = refusal.number() <= 3 || refusal == Refusal::Zone;
        assert_eq!(needs(&case).err(), of_the_file.then_some(refusal));
    }
}

fn refused(case: &Case, request: Request) -> (RequestRefusal, Vec<usize>) {
    let outcome = job(case, &[request], &mut Workspace::new()).unwrap();
    (outcome.answers[0].clone().unwrap_err(), outcome.cells_read().to_vec())
}

#[test]
fn lines_are_refused_before_a_cell_is_read() {
    let room = square(X);
    let rake = |count, options| Request::Rake {
        start: at(0.25, 0.25, 0.),
        end: at(0.25, 0.75, 0.),
        count,
        direction: Direction::Forward,
        options,
    };
    let good = quarters(1.0);
    let all = LineOptions { all_cells: true, ..good };
    let seed = |x, options| Request::Streamline { seed: at(x, 0.5, 0.), direction: Direction::Forward, options };
    let sheet = |x, options| Request::Sheet { seed: at(x, 0.5, 0.), direction: Direction::Forward, options };
    let cases = [
        (Request::Section { plane: level(0.5) }, RequestRefusal::Dimension),
        (rake(1, good), RequestRefusal::FewSeeds),
        (rake(65, good), RequestRefusal::Limit),
        (rake(2, LineOptions { max_steps: 65_537, ..good }), RequestRefusal::Limit),
        (rake(2, LineOptions { step_size: 0.0, ..good }), RequestRefusal::LineOptions),
        (rake(2, LineOptions { max_steps: 0, ..good }), RequestRefusal::LineOptions),
        (rake(2, LineOptions { stagnation_speed: f64::NAN, ..good }), RequestRefusal::LineOptions),
        (seed(2.0, good), RequestRefusal::Seed),
        (rake(1, all), RequestRefusal::FewSeeds),
        (rake(65, all), RequestRefusal::Limit),
        (rake(2, LineOptions { max_length: 0.0, ..all }), RequestRefusal::LineOptions),
        (seed(0.25, LineOptions { max_steps: 65_537, ..all }), RequestRefusal::Limit),
        (seed(2.0, all), RequestRefusal::Seed),
        (seed(f64::NAN, all), RequestRefusal::Seed),
        (sheet(0.25, LineOptions { max_steps: 65_537, ..good }), RequestRefusal::Limit),
        (sheet(0.25, LineOptions { max_length: f64::INFINITY, ..good }), RequestRefusal::LineOptions),
        (sheet(2.0, good), RequestRefusal::Seed),
        (sheet(0.25, LineOptions { step_size: f64::NAN, ..all }), RequestRefusal::LineOptions),
        (sheet(2.0, all), RequestRefusal::Seed),
    ];
    for (request, refusal) in cases {
        assert_eq!(refused(&room, request), (refusal, vec![]), "{request:?}");
    }
}

#[test]
fn sections_are_refused_with_the_cells_they_read() {
    let (good, bad) = ((X, 0.0), (X, f64::INFINITY));
    let room = cubes(&[good, bad, good]);
    let section = |origin, u| Request::Section { plane: SectionPlane::new(origin, u, Y) };
    let all = LineOptions { all_cells: true, ..quarters(1.0) };
    let line = |direction, options| Request::Streamline { seed: X, direction, options };
    let cases = [
        (Request::Locate { point: X, all_cells: false }, RequestRefusal::Dimension, vec![]),
        (Request::Locate { point: X, all_cells: true }, RequestRefusal::Dimension, vec![]),
        (Request::Velocity { point: X, all_cells: true }, RequestRefusal::Dimension, vec![]),
        (line(Direction::Forward, quarters(1.0)), RequestRefusal::Dimension, vec![]),
        (line(Direction::Backward, all), RequestRefusal::Dimension, vec![]),
        (Request::Sheet { seed: X, direction: Direction::Forward, options: quarters(1.0) }, RequestRefusal::Dimension, vec![]),
        (Request::Sheet { seed: X, direction: Direction::Forward, options: all }, RequestRefusal::Dimension, vec![]),
        (section(at(0., 0., 0.5), at(2., 0., 0.)), RequestRefusal::Plane, vec![]),
        (section(at(0., 0., f64::NAN), X), RequestRefusal::Plane, vec![]),
        (section(at(0., 0., 1_048_577.), X), RequestRefusal::FarOrigin, vec![]),
        (section(at(0., 0., 0.5), X), RequestRefusal::NonFiniteSample, vec![0, 1]),
        (Request::Statistics { plane: level(5.0), field: Field::Speed }, RequestRefusal::NoStatistics, vec![]),
        (Request::Integrals { plane: level(5.0) }, RequestRefusal::NoIntegrals, vec![]),
    ];
    for (request, refusal, cells) in cases {
        assert_eq!(refused(&room, request), (refusal, cells), "{request:?}");
    }
}
