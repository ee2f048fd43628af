//! Buffers of any length, and how they grow.
mod common;
use common::*;
use hookyellow::*;

/// Pair has 2 cells and 8 faces counted singly: 16 * 8 + 96 * 2 words, 12 * 8 + 64 * 2 floats.
const NEEDS: Needs = Needs { words: 320, floats: 224, marks: 2 };

/// Buffers that are filled with what a job could not leave there.
fn filled(words: usize, floats: usize, marks: usize, answers: usize) -> Workspace {
    Workspace::from_buffers(vec![9; words], vec![f64::NAN; floats], vec![77; marks], vec![u64::MAX - 5; answers])
}

fn velocity_bytes() -> Vec<u8> {
    Request::Velocity { point: at(0.75, 0.5, 0.0), all_cells: false }.to_bytes().to_vec()
}

#[test]
fn pair_needs_what_the_formula_says() {
    assert_eq!(needs(&pair()), Ok(NEEDS));
    assert_eq!(needs(&Case::from_bytes(vec![0; 31])), Err(Refusal::Trailer));
}

#[test]
fn one_less_is_refused_and_nothing_changes() {
    let (w, f, m) = (NEEDS.words, NEEDS.floats, NEEDS.marks);
    let many = Request::Locate { point: X, all_cells: false }.to_bytes().repeat(4_097);
    let cases = [
        (filled(w - 1, f, m, 2), velocity_bytes(), Refusal::WorkArea),
        (filled(w, f - 1, m, 2), velocity_bytes(), Refusal::WorkArea),
        (filled(0, 0, 0, 0), vec![], Refusal::WorkArea),
        (filled(w, f, m - 1, 2), velocity_bytes(), Refusal::Marks),
        (filled(w, f, m, 2), velocity_bytes()[1..].to_vec(), Refusal::Requests),
        (filled(w, f, m, 9_000), many, Refusal::Requests),
        (filled(w, f, m, 1), velocity_bytes(), Refusal::Answers),
    ];
    for (mut workspace, requests, refusal) in cases {
        assert_eq!(workspace.run(&pair(), &requests), Err(refusal));
        assert!(workspace.marks().iter().all(|&mark| mark == 77), "{refusal}");
        assert!(workspace.answers().iter().all(|&word| word == u64::MAX - 5), "{refusal}");
    }
}

/// The velocity has 4 words and 2 before them; marks beyond the cells keep theirs.
#[test]
fn just_enough_is_accepted() {
    let mut workspace = filled(NEEDS.words, NEEDS.floats, NEEDS.marks + 1, 6);
    assert_eq!(workspace.run(&pair(), &velocity_bytes()), Ok(()));
    assert_eq!(workspace.answers(), [0, 4, 1, 1.5_f64.to_bits(), 0, 0]);
    assert_eq!(workspace.marks(), [1, 1, 77]);
    let mut workspace = filled(NEEDS.words, NEEDS.floats, NEEDS.marks, 5);
    assert_eq!(workspace.run(&pair(), &velocity_bytes()), Ok(()));
    assert_eq!(workspace.answers(), [44, 0, 0, 0, 0]);
    assert_eq!(workspace.marks(), [1, 1]);
}

/// A cell has 2 words: itself and its position.
#[test]
fn a_located_point_has_two_words() {
    let request = Request::Locate { point: at(1.0, 0.5, 0.0), all_cells: true }.to_bytes();
    for (length, due) in [(4, vec![0, 2, 0, 1]), (3, vec![44, 0, 0])] {
        let mut workspace = filled(NEEDS.words, NEEDS.floats, NEEDS.marks, length);
        assert_eq!(workspace.run(&pair(), &request), Ok(()));
        assert_eq!(workspace.answers(), due);
    }
}

/// From x = 0.125 to 1 in steps of 2^-13: 7,168 steps, and 2 + 1 + 3 * 7,169 words.
fn long_line() -> (Vector, LineOptions) {
    let options = LineOptions { step_size: 1.0 / 8192.0, max_steps: 65_536, ..quarters(2.0) };
    (at(0.125, 0.5, 0.0), options)
}

#[test]
fn answers_grow_until_they_fit() {
    let ((seed, options), case) = (long_line(), square(X));
    let mut workspace = Workspace::for_case(&case).unwrap();
    let line = streamline(&case, seed, Direction::Forward, options, &mut workspace).unwrap();
    let points = line.answer.unwrap().points;
    assert_eq!((points.len(), points[7_168]), (7_169, at(1.0, 0.5, 0.0)));
    assert_eq!(line.cells_read, [0]);
    assert!(workspace.answers().len() >= 21_510);
}

#[test]
fn answers_grow_to_the_limit_only() {
    let ((seed, options), case) = (long_line(), square(X));
    let request = Request::Streamline { seed, direction: Direction::Forward, options };
    for (limit, fits) in [(0, false), (21_509, false), (21_510, true)] {
        let mut workspace = Workspace::new();
        workspace.set_answer_limit(limit);
        let outcome = job(&case, &[request], &mut workspace).unwrap();
        assert_eq!(outcome.answers[0].clone().err(), (!fits).then_some(RequestRefusal::AnswerSpace), "{limit}");
        assert_eq!(outcome.cells_read(), [0], "{limit}");
        assert_eq!(workspace.answers().len(), limit.max(2));
    }
}

/// The same line as a sheet: each whole millimetre from 125 to 1,000, and 2 + 1 + 2 * 876 words.
#[test]
fn a_sheet_counts_its_own_words() {
    let ((seed, options), case) = (long_line(), square(X));
    let request = Request::Sheet { seed, direction: Direction::Forward, options };
    for (limit, fits) in [(1_754, false), (1_755, true)] {
        let mut workspace = Workspace::new();
        workspace.set_answer_limit(limit);
        let outcome = job(&case, &[request], &mut workspace).unwrap();
        let points = (125..=1_000).map(|x| (x, 500)).collect();
        let due = if fits { Ok(Answer::Sheet(Sheet { points })) } else { Err(RequestRefusal::AnswerSpace) };
        assert_eq!(outcome.answers, [due], "{limit}");
        assert_eq!(outcome.cells_read(), [0], "{limit}");
    }
}

/// One workspace for a large room, a small one, a refused one and the small one again.
#[test]
fn a_workspace_serves_any_case() {
    let mut workspace = Workspace::new();
    let large = cubes(&vec![(at(0.0, 0.0, 1.0), 1.0); 50]);
    let flux = integrals(&large, level(0.5), &mut workspace).unwrap();
    assert_eq!((flux.answer.unwrap().flux, flux.cells_read.len()), (50.0, 50));
    let small = || square(X);
    for _ in 0..2 {
        let found = velocity(&small(), at(0.5, 0.5, 0.0), false, &mut workspace).unwrap();
        assert_eq!((found.answer, found.cells_read), (Ok(Some(X)), vec![0]));
        assert_eq!(locate(&Case::from_bytes(vec![1]), X, true, &mut workspace), Err(Refusal::Trailer));
        assert_eq!(locate(&small(), X, false, &mut workspace).unwrap().cells_read, []);
    }
}

#[test]
fn more_than_4096_requests_are_refused() {
    let request = Request::Locate { point: at(0.5, 0.5, 0.0), all_cells: true };
    let outcome = job(&pair(), &[request; 4_096], &mut Workspace::new()).unwrap();
    let located = Located { cell: 0, position: Position::Inside };
    assert_eq!(outcome.answers, vec![Ok(Answer::Locate(Some(located))); 4_096]);
    assert_eq!(job(&pair(), &[request; 4_097], &mut Workspace::new()), Err(Refusal::Requests));
}
