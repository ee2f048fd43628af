//! One room for each kind of request whose answer can be told by hand; the request alone gives the same as the job.
mod common;
use common::*;
use hookyellow::*;

/// The answer and the cells of a job of one request.
fn ask(case: &Case, request: Request) -> (Result<Answer, RequestRefusal>, Vec<usize>) {
    let outcome = job(case, &[request], &mut Workspace::new()).unwrap();
    (outcome.answers[0].clone(), outcome.cells_read().to_vec())
}

/// What a request alone gives, in the same form.
fn alone<T>(single: Single<T>, answer: fn(T) -> Answer) -> (Result<Answer, RequestRefusal>, Vec<usize>) {
    (single.answer.map(answer), single.cells_read)
}

/// On a side of a cell, and inside it.
fn edge(cell: usize) -> Option<Located> {
    Some(Located { cell, position: Position::Edge })
}

fn inside(cell: usize) -> Option<Located> {
    Some(Located { cell, position: Position::Inside })
}

/// Points of Pair at y = 0.5 and where they locate. No value is read.
fn locate_is(all_cells: bool, due: &[(f64, Option<Located>)]) {
    let (case, workspace) = (pair(), &mut Workspace::new());
    for &(x, located) in due {
        let point = at(x, 0.5, 0.0);
        let expected = (Ok(Answer::Locate(located)), vec![]);
        assert_eq!(ask(&case, Request::Locate { point, all_cells }), expected, "{x}");
        assert_eq!(alone(locate(&case, point, all_cells, workspace).unwrap(), Answer::Locate), expected, "{x}");
    }
}

/// 01's starred points of Pair: x = 1 is the left square's right side.
#[test]
fn locate_in_pair() {
    locate_is(false, &[(0.5, inside(0)), (1.0, edge(0)), (1.5, None), (2.0, None)]);
}

/// The lowest cell whose polygon contains the point, the tolerance of 1e-12 included: the right
/// square is cell 1, and its left side is cell 0's too.
#[test]
fn locate_in_pair_among_all_cells() {
    locate_is(true, &[(0.5, inside(0)), (1.0, edge(0)), (1.5, inside(1)), (2.0, edge(1)), (2.0 + 5e-13, edge(1))]);
    locate_is(true, &[(2.0 + 1e-9, None), (-1e-9, None), (f64::NAN, None), (f64::INFINITY, None), (-f64::INFINITY, None)]);
}

/// Within the tolerance of the left square's side a point is on its edge, on both sides of it: one
/// that lies in the right square too. Further away it is inside the square that it lies in.
#[test]
fn the_lowest_cell_says_whether_a_point_is_on_an_edge() {
    locate_is(true, &[(1.0 - 1e-9, inside(0)), (1.0 - 5e-13, edge(0)), (1.0 + 5e-13, edge(0)), (1.0 + 1e-9, inside(1))]);
    locate_is(true, &[(-5e-13, edge(0)), (0.0, edge(0)), (5e-13, edge(0)), (1e-9, inside(0))]);
    locate_is(true, &[(2.0 - 1e-9, inside(1)), (2.0 - 5e-13, edge(1))]);
}

/// In one square of uniform flow the velocity is that of the square; outside there is none and nothing is read.
#[test]
fn velocity_of_a_uniform_flow() {
    let flow = at(1.0, -2.0, 0.0);
    let (case, workspace) = (square(flow), &mut Workspace::new());
    for (x, found, cells) in [(0.3, Some(flow), vec![0]), (1.0, Some(flow), vec![0]), (1.25, None, vec![])] {
        let point = at(x, 0.6, 0.0);
        let expected = (Ok(Answer::Velocity(found)), cells);
        for all_cells in [false, true] {
            assert_eq!(ask(&case, Request::Velocity { point, all_cells }), expected);
            assert_eq!(alone(velocity(&case, point, all_cells, workspace).unwrap(), Answer::Velocity), expected);
        }
    }
}

/// In Pair it goes from 1 at the left centre, x = 0.5, evenly to 3 at the right one, x = 1.5, and
/// does not change beyond them. Where the point locates nowhere nothing is read: by the bins in all
/// of the right square but its left side.
#[test]
fn velocity_in_pair() {
    let (case, workspace) = (pair(), &mut Workspace::new());
    for (x, speed) in [(0.25, 1.0), (0.75, 1.5), (1.25, 2.5), (1.5, 3.0), (2.0, 3.0)] {
        for all_cells in [false, true] {
            let (point, found) = (at(x, 0.5, 0.0), x <= 1.0 || all_cells);
            let flow = found.then_some(at(speed, 0.0, 0.0));
            let expected = (Ok(Answer::Velocity(flow)), if found { vec![0, 1] } else { vec![] });
            assert_eq!(ask(&case, Request::Velocity { point, all_cells }), expected, "{x}");
            assert_eq!(alone(velocity(&case, point, all_cells, workspace).unwrap(), Answer::Velocity), expected, "{x}");
        }
    }
}

/// Points in quarters from a height.
fn straight(xs: &[f64], y: f64) -> Streamline {
    Streamline { points: xs.iter().map(|&x| at(x, y, 0.0)).collect() }
}

/// A uniform flow along x gives a straight line up to the border, whatever its speed.
#[test]
fn streamline_of_a_uniform_flow() {
    let (case, workspace) = (square(at(7.0, 0.0, 0.0)), &mut Workspace::new());
    let cases = [
        (0.25, Direction::Forward, 9.0, &[0.25, 0.5, 0.75, 1.0][..]),
        (0.75, Direction::Backward, 9.0, &[0.75, 0.5, 0.25, 0.0]),
        (0.25, Direction::Forward, 0.5, &[0.25, 0.5, 0.75]),
        (0.25, Direction::Forward, 0.25, &[0.25, 0.5]),
    ];
    for (x, direction, length, xs) in cases {
        let (seed, options) = (at(x, 0.5, 0.0), quarters(length));
        let expected = (Ok(Answer::Streamline(straight(xs, 0.5))), vec![0]);
        assert_eq!(ask(&case, Request::Streamline { seed, direction, options }), expected);
        let single = streamline(&case, seed, direction, options, workspace).unwrap();
        assert_eq!(alone(single, Answer::Streamline), expected);
    }
}

/// 01: in Pair a stagnation speed of 1 leaves the seed alone.
#[test]
fn streamline_that_stagnates() {
    let options = LineOptions { stagnation_speed: 1.0, ..quarters(0.5) };
    let single = streamline(&pair(), at(0.25, 0.5, 0.0), Direction::Forward, options, &mut Workspace::new()).unwrap();
    assert_eq!(single.answer, Ok(straight(&[0.25], 0.5)));
}

/// Three seeds from a quarter to three quarters of the height, each with its straight line.
#[test]
fn rake_of_a_uniform_flow() {
    let case = square(X);
    let (start, end, options) = (at(0.25, 0.25, 0.0), at(0.25, 0.75, 0.0), quarters(9.0));
    for (direction, xs) in [(Direction::Forward, &[0.25, 0.5, 0.75, 1.0][..]), (Direction::Backward, &[0.25, 0.0])] {
        let lines = [0.25, 0.5, 0.75].map(|y| straight(xs, y)).to_vec();
        let expected = (Ok(Answer::Rake(lines)), vec![0]);
        assert_eq!(ask(&case, Request::Rake { start, end, count: 3, direction, options }), expected);
        let single = rake(&case, start, end, 3, direction, options, &mut Workspace::new()).unwrap();
        assert_eq!(alone(single, Answer::Rake), expected);
    }
}

/// The line of a job and of the request alone, in Pair at y = 0.5.
fn line_is(x: f64, direction: Direction, all_cells: bool, expected: Result<&[f64], RequestRefusal>) {
    let (seed, options) = (at(x, 0.5, 0.0), LineOptions { all_cells, ..quarters(9.0) });
    let cells = if expected.is_ok() { vec![0, 1] } else { vec![] };
    let expected = (expected.map(|xs| Answer::Streamline(straight(xs, 0.5))), cells);
    assert_eq!(ask(&pair(), Request::Streamline { seed, direction, options }), expected);
    let single = streamline(&pair(), seed, direction, options, &mut Workspace::new()).unwrap();
    assert_eq!(alone(single, Answer::Streamline), expected);
}

/// Steps of a quarter along x: by the bins a line ends at the left square's right side, and none
/// starts beyond it; among all cells lines go through both squares.
#[test]
fn lines_reach_the_far_border_among_all_cells() {
    let (forward, backward) = (Direction::Forward, Direction::Backward);
    line_is(0.25, forward, false, Ok(&[0.25, 0.5, 0.75, 1.0]));
    line_is(0.25, forward, true, Ok(&[0.25, 0.5, 0.75, 1.0, 1.25, 1.5, 1.75, 2.0]));
    line_is(1.75, backward, false, Err(RequestRefusal::Seed));
    line_is(1.75, backward, true, Ok(&[1.75, 1.5, 1.25, 1.0, 0.75, 0.5, 0.25, 0.0]));
    line_is(2.0, forward, true, Ok(&[2.0]));
    line_is(2.25, backward, true, Err(RequestRefusal::Seed));
}

#[test]
fn rake_reaches_the_far_border_among_all_cells() {
    let (start, end, direction) = (at(1.5, 0.25, 0.0), at(1.5, 0.75, 0.0), Direction::Forward);
    let lines = [0.25, 0.5, 0.75].map(|y| straight(&[1.5, 1.75, 2.0], y)).to_vec();
    let answers = [(false, (Err(RequestRefusal::Seed), vec![])), (true, (Ok(Answer::Rake(lines)), vec![0, 1]))];
    for (all_cells, expected) in answers {
        let options = LineOptions { all_cells, ..quarters(9.0) };
        assert_eq!(ask(&pair(), Request::Rake { start, end, count: 3, direction, options }), expected);
        let single = rake(&pair(), start, end, 3, direction, options, &mut Workspace::new()).unwrap();
        assert_eq!(alone(single, Answer::Rake), expected);
    }
}

/// The sheet of a job and of the request alone.
fn sheet_is(case: &Case, seed: Vector, direction: Direction, options: LineOptions, points: &[(i64, i64)], cells: &[usize]) {
    let expected = (Ok(Answer::Sheet(Sheet { points: points.to_vec() })), cells.to_vec());
    assert_eq!(ask(case, Request::Sheet { seed, direction, options }), expected);
    assert_eq!(alone(sheet(case, seed, direction, options, &mut Workspace::new()).unwrap(), Answer::Sheet), expected);
}

/// 01's 0.5 line of Pair, x = 0.25, 0.5 and 0.75 at y = 0.5, and its seed alone, in millimetres.
#[test]
fn sheet_of_pair() {
    let seed = at(0.25, 0.5, 0.0);
    sheet_is(&pair(), seed, Direction::Forward, quarters(0.5), &[(250, 500), (500, 500), (750, 500)], &[0, 1]);
    let still = LineOptions { stagnation_speed: 1.0, ..quarters(0.5) };
    sheet_is(&pair(), seed, Direction::Forward, still, &[(250, 500)], &[0, 1]);
}

/// The same line on to the far border, in millimetres.
#[test]
fn sheet_of_pair_among_all_cells() {
    let points = [250, 500, 750, 1000, 1250, 1500, 1750, 2000].map(|x| (x, 500));
    let (seed, by_bins) = (at(0.25, 0.5, 0.0), quarters(9.0));
    sheet_is(&pair(), seed, Direction::Forward, by_bins, &points[..4], &[0, 1]);
    sheet_is(&pair(), seed, Direction::Forward, LineOptions { all_cells: true, ..by_bins }, &points, &[0, 1]);
}

/// A unit square whose low corner is at (-0.5, -0.5).
fn square_about_zero(velocity: Vector) -> Case {
    Case::builder(Dimension::Two)
        .points([[-0.5, -0.5, 0.], [0.5, -0.5, 0.], [0.5, 0.5, 0.], [-0.5, 0.5, 0.]])
        .cells([Cell::Polygon(vec![0, 1, 2, 3])])
        .velocities([velocity])
        .pressures([0.])
        .build()
        .unwrap()
}

/// A sixteenth of a metre is 62.5 mm: away from zero on both sides. The floats beside it are no halves.
#[test]
fn sheet_sends_halves_away_from_zero() {
    let eighths = LineOptions { step_size: 0.125, ..quarters(0.375) };
    let (case, seed) = (square_about_zero(X), at(-0.1875, 0.0625, 0.0));
    sheet_is(&case, seed, Direction::Forward, eighths, &[(-188, 63), (-63, 63), (63, 63), (188, 63)], &[0]);
    let one = LineOptions { max_steps: 1, ..quarters(0.1) };
    for (y, millimetres) in [(0.0625_f64, 63), (-0.0625, -63), (0.000_5, 1), (0.000_499, 0), (5e-324, 0), (-0.0, 0)] {
        sheet_is(&case, at(0.25, y, 0.0), Direction::Forward, one, &[(250, millimetres)], &[0]);
    }
    let (above, below) = (0.0625_f64.next_up(), 0.0625_f64.next_down());
    for (y, millimetres) in [(above, 63), (below, 62), (-above, -63), (-below, -62)] {
        sheet_is(&case, at(0.25, y, 0.0), Direction::Forward, one, &[(250, millimetres)], &[0]);
    }
}

/// Steps of 1/2048 m are 0.488 mm: 250, 250.5, 251.0, 251.5, .. a little less each, and so two points to a millimetre.
#[test]
fn sheet_drops_a_point_that_equals_the_one_before() {
    let options = LineOptions { step_size: 1.0 / 2048.0, max_steps: 8, ..quarters(1.0) };
    let listed = [250, 251, 252, 253, 254].map(|x| (x, 500));
    sheet_is(&square(X), at(0.25, 0.5, 0.0), Direction::Forward, options, &listed, &[0]);
    let short = LineOptions { step_size: 1.0 / 65_536.0, ..options };
    sheet_is(&square(X), at(0.25, 0.5, 0.0), Direction::Forward, short, &[(250, 500)], &[0]);
}

/// 01's unit cube: the square at half its height, from the corner nearest the origin around.
#[test]
fn section_of_the_unit_cube() {
    let velocity = at(0.0, 0.0, 2.0);
    let case = cubes(&[(velocity, 3.0)]);
    let vertices = [(0., 0.), (1., 0.), (1., 1.), (0., 1.)].map(|(x, y)| at(x, y, 0.5)).to_vec();
    let polygon = SectionPolygon { cell: 0, centre: at(0.5, 0.5, 0.5), vertices, velocity, pressure: 3.0 };
    let expected = (Ok(Answer::Section(vec![polygon])), vec![0]);
    assert_eq!(ask(&case, Request::Section { plane: level(0.5) }), expected);
    assert_eq!(alone(section(&case, level(0.5), &mut Workspace::new()).unwrap(), Answer::Section), expected);
}

/// A plane beside the room cuts nothing; one through x = 0.5 cuts the first of three cubes alone.
#[test]
fn section_reads_the_cells_it_cuts() {
    let case = cubes(&[(X, 0.0); 3]);
    let cut = |x| SectionPlane::new(at(x, 0.0, 0.0), Y, at(0.0, 0.0, 1.0));
    for (x, cells) in [(-1.0, vec![]), (0.5, vec![0]), (2.5, vec![2])] {
        let single = section(&case, cut(x), &mut Workspace::new()).unwrap();
        assert_eq!(single.cells_read, cells);
        assert_eq!(single.answer.unwrap().iter().map(|polygon| polygon.cell).collect::<Vec<_>>(), cells);
    }
}

/// Two cubes: up at speed 2 with pressure 4, down at speed 1 with pressure 1. Each has the area 1, so that the fluxes are 2 and -1.
fn up_and_down() -> Case {
    cubes(&[(at(0.0, 0.0, 2.0), 4.0), (at(0.0, 0.0, -1.0), 1.0)])
}

/// The values of a field in the two cubes are given. Weighted by 2 and 1 their mean is (2a + b) / 3; a third goes downward.
fn expected_statistics(a: f64, b: f64) -> Statistics {
    Statistics {
        used: 2,
        area: 2.0,
        minimum: a.min(b),
        maximum: a.max(b),
        mean: (a + b) / 2.0,
        integral: a + b,
        flux: 1.0,
        positive_flux: 2.0,
        negative_flux: -1.0,
        absolute_flux: 3.0,
        weighted: Some(FluxWeighted { value: (2.0 * a + b) / 3.0, reverse_fraction: 1.0 / 3.0 }),
    }
}

#[test]
fn statistics_of_two_cubes() {
    let (case, plane) = (up_and_down(), level(0.5));
    let values = [(2.0, 1.0), (4.0, 1.0), (0.0, 0.0), (0.0, 0.0), (2.0, -1.0), (2.0, -1.0)];
    for (field, (a, b)) in Field::ALL.into_iter().zip(values) {
        let expected = (Ok(Answer::Statistics(expected_statistics(a, b))), vec![0, 1]);
        assert_eq!(ask(&case, Request::Statistics { plane, field }), expected, "{field:?}");
        let single = statistics(&case, plane, field, &mut Workspace::new()).unwrap();
        assert_eq!(alone(single, Answer::Statistics), expected, "{field:?}");
    }
}

/// Flow along the plane has no flux, and nothing to weight by.
#[test]
fn statistics_without_flux() {
    let single = statistics(&cubes(&[(X, 3.0)]), level(0.5), Field::Pressure, &mut Workspace::new()).unwrap();
    let statistics = single.answer.unwrap();
    assert_eq!((statistics.absolute_flux, statistics.weighted), (0.0, None));
    assert_eq!((statistics.area, statistics.mean), (1.0, 3.0));
}

#[test]
fn integrals_of_two_cubes() {
    let (case, plane) = (up_and_down(), level(0.5));
    let sums = Integrals { area: 2.0, mean_pressure: 2.5, mean_speed: 1.5, flux: 1.0 };
    let expected = (Ok(Answer::Integrals(sums)), vec![0, 1]);
    assert_eq!(ask(&case, Request::Integrals { plane }), expected);
    assert_eq!(alone(integrals(&case, plane, &mut Workspace::new()).unwrap(), Answer::Integrals), expected);
}

/// 01's unit cube: area 1, flux 2.
#[test]
fn integrals_of_the_unit_cube() {
    let single = integrals(&cubes(&[(at(0.0, 0.0, 2.0), 3.0)]), level(0.5), &mut Workspace::new()).unwrap();
    assert_eq!(single.answer, Ok(Integrals { area: 1.0, mean_pressure: 3.0, mean_speed: 2.0, flux: 2.0 }));
}

/// A probe reads the whole section, finds the cell at a point of the plane and none off the plane or outside the room.
#[test]
fn probe_of_two_cubes() {
    let (case, plane) = (up_and_down(), level(0.5));
    let sample = Sample { cell: 1, velocity: at(0.0, 0.0, -1.0), pressure: 1.0 };
    for (point, found) in [(at(1.5, 0.5, 0.5), Some(sample)), (at(1.5, 0.5, 0.75), None), (at(2.5, 0.5, 0.5), None)] {
        let expected = (Ok(Answer::Probe(found)), vec![0, 1]);
        assert_eq!(ask(&case, Request::Probe { plane, point }), expected);
        assert_eq!(alone(probe(&case, plane, point, &mut Workspace::new()).unwrap(), Answer::Probe), expected);
    }
}

/// A request that is refused does not stop the others.
#[test]
fn requests_are_served_in_order() {
    let requests = [
        Request::Velocity { point: at(0.25, 0.5, 0.0), all_cells: false },
        Request::Section { plane: level(0.5) },
        Request::Locate { point: at(0.5, 0.5, 0.0), all_cells: false },
    ];
    let outcome = job(&pair(), &requests, &mut Workspace::new()).unwrap();
    let velocity = Answer::Velocity(Some(X));
    assert_eq!(outcome.answers, [Ok(velocity), Err(RequestRefusal::Dimension), Ok(Answer::Locate(inside(0)))]);
    assert_eq!(outcome.cells_read(), [0, 1]);
}
