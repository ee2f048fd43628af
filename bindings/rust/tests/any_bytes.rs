//! Bytes and lengths in no order: a job ends with answers or a listed refusal, and a refused one changes nothing.
mod common;
use common::*;
use hookyellow::*;

/// A room with some bytes changed, cut or added, or bytes in no order.
fn case(random: &mut Random) -> Case {
    let cubes = [cubes, zoned_cubes][random.below(2)](&[(X, 1.0), (Y, 2.0)]);
    let zoned = patched(zoned_pair([0, 1]), 256, [0, 1, 7, 255, 256][random.below(5)]);
    let room = [pair(), zoned, square(X), cubes][random.below(4)].clone();
    let mut bytes = room.into_bytes();
    match random.below(4) {
        0 => bytes = (0..random.below(400)).map(|_| random.next() as u8).collect(),
        1 => bytes.truncate(random.below(400)),
        2 => (0..random.below(4)).for_each(|_| bytes.push(random.next() as u8)),
        _ => (0..random.below(4)).for_each(|_| {
            let place = random.below(bytes.len());
            bytes[place] = [0, 1, 2, 0xff, random.next() as u8][random.below(5)];
        }),
    }
    Case::from_bytes(bytes)
}

/// Requests whose arguments are mostly small floats, with a length that is not always a multiple of 128.
fn requests(random: &mut Random) -> Vec<u8> {
    let mut bytes = Vec::new();
    for _ in 0..random.below(4) {
        let used = random.below(16);
        for place in 0..16 {
            let float = ((random.below(9) as f64) * 0.25).to_bits();
            let word = [float, float, 1, random.next()][random.below(4)];
            let word = if place == 0 { random.below(16) as u64 } else { word * u64::from(place <= used) };
            bytes.extend(word.to_le_bytes());
        }
    }
    bytes.truncate(bytes.len() - usize::from(random.below(20) == 0).min(bytes.len()));
    bytes
}

#[test]
fn any_job_ends() {
    let mut random = Random(2);
    let mut refusals = [0; 46];
    for _ in 0..20_000 {
        let (case, requests) = (case(&mut random), requests(&mut random));
        let (words, floats) = (random.below(1_600), random.below(1_200));
        let (marks, answers) = (vec![77; random.below(6)], vec![5; random.below(100)]);
        let mut workspace = Workspace::from_buffers(vec![1; words], vec![0.5; floats], marks.clone(), answers.clone());
        let Err(refusal) = workspace.run(&case, &requests) else {
            refusals[0] += 1;
            continue;
        };
        assert!(Refusal::ALL.contains(&refusal), "{refusal}");
        assert_eq!((workspace.marks(), workspace.answers()), (&marks[..], &answers[..]), "{refusal}");
        refusals[refusal.number() as usize] += 1;
    }
    assert!([0, 1, 3, 4, 5, 6, 7, 45].iter().all(|&number| refusals[number] > 0), "{refusals:?}");
}

/// A float of any size or none.
fn float(random: &mut Random) -> f64 {
    [0.5, random.below(9) as f64 * 0.25, -1.0, f64::NAN, f64::INFINITY, f64::from_bits(random.next())][random.below(6)]
}

/// A point of a room at every other call, else anything.
fn vector(random: &mut Random) -> Vector {
    let inside = at(random.below(5) as f64 * 0.25, random.below(5) as f64 * 0.25, 0.5);
    [inside, at(float(random), float(random), float(random))][random.below(2)]
}

fn request(random: &mut Random) -> Request {
    let (point, end) = (vector(random), vector(random));
    let planes = [level(0.5), SectionPlane::new(vector(random), vector(random), vector(random))];
    let (plane, field) = (planes[random.below(2)], Field::ALL[random.below(6)]);
    let direction = [Direction::Forward, Direction::Backward][random.below(2)];
    let options = LineOptions {
        step_size: [0.25, float(random)][random.below(2)],
        max_steps: random.below(50),
        max_length: [4.0, float(random)][random.below(2)],
        stagnation_speed: [0.0, float(random)][random.below(2)],
        all_cells: random.below(2) == 1,
    };
    let all_cells = options.all_cells;
    match random.below(9) {
        0 => Request::Locate { point, all_cells },
        1 => Request::Velocity { point, all_cells },
        2 => Request::Streamline { seed: point, direction, options },
        3 => Request::Rake { start: point, end, count: random.below(5), direction, options },
        4 => Request::Section { plane },
        5 => Request::Statistics { plane, field },
        6 => Request::Integrals { plane },
        7 => Request::Sheet { seed: point, direction, options },
        _ => Request::Probe { plane, point },
    }
}

/// Typed requests have an answer of their kind or a listed refusal, and never 30 or 38, which no typed request can cause.
#[test]
fn any_typed_job_ends() {
    let mut random = Random(3);
    let mut workspace = Workspace::new();
    let mut answered = [0; 15];
    for _ in 0..10_000 {
        let requests: Vec<Request> = (0..random.below(5)).map(|_| request(&mut random)).collect();
        let Ok(outcome) = job(&case(&mut random), &requests, &mut workspace) else { continue };
        assert_eq!(outcome.answers.len(), requests.len());
        for (request, answer) in requests.iter().zip(&outcome.answers) {
            match answer {
                Ok(answer) => {
                    assert!(Answer::from_words(request.code(), &answer.to_words()).is_some());
                    answered[request.code() as usize] += 1;
                }
                Err(refusal) => {
                    assert!(RequestRefusal::ALL.contains(refusal), "{refusal}");
                    assert!(![30, 38].contains(&refusal.number()), "{request:?}");
                }
            }
        }
    }
    assert!(CODES.iter().all(|&code| answered[code as usize] > 0), "{answered:?}");
}

/// The words of an answer, which NaNs do not make unequal, or its refusal; and the cells.
type Given = (Result<Vec<u64>, RequestRefusal>, Vec<usize>);

fn given<T>(single: Single<T>, answer: fn(T) -> Answer) -> Given {
    (single.answer.map(|value| answer(value).to_words()), single.cells_read)
}

/// The function of a request.
fn alone(case: &Case, request: Request, w: &mut Workspace) -> Result<Given, Refusal> {
    Ok(match request {
        Request::Locate { point, all_cells } => given(locate(case, point, all_cells, w)?, Answer::Locate),
        Request::Velocity { point, all_cells } => given(velocity(case, point, all_cells, w)?, Answer::Velocity),
        Request::Streamline { seed, direction, options } => {
            given(streamline(case, seed, direction, options, w)?, Answer::Streamline)
        }
        Request::Rake { start, end, count, direction, options } => {
            given(rake(case, start, end, count, direction, options, w)?, Answer::Rake)
        }
        Request::Section { plane } => given(section(case, plane, w)?, Answer::Section),
        Request::Statistics { plane, field } => given(statistics(case, plane, field, w)?, Answer::Statistics),
        Request::Integrals { plane } => given(integrals(case, plane, w)?, Answer::Integrals),
        Request::Probe { plane, point } => given(probe(case, plane, point, w)?, Answer::Probe),
        Request::Sheet { seed, direction, options } => given(sheet(case, seed, direction, options, w)?, Answer::Sheet),
    })
}

/// "Each request can also be called alone, as a job of one."
#[test]
fn a_request_alone_is_a_job_of_one() {
    let mut random = Random(4);
    let (mut one, mut other) = (Workspace::new(), Workspace::new());
    let mut answered = [0; 15];
    for _ in 0..10_000 {
        let (case, request) = (case(&mut random), request(&mut random));
        let whole = job(&case, &[request], &mut one).map(|outcome| {
            let answer = outcome.answers[0].as_ref().map(Answer::to_words).map_err(|refusal| *refusal);
            (answer, outcome.cells_read().to_vec())
        });
        answered[request.code() as usize] += u32::from(matches!(whole, Ok((Ok(_), _))));
        assert_eq!(alone(&case, request, &mut other), whole, "{request:?}");
    }
    assert!(CODES.iter().all(|&code| answered[code as usize] > 0), "{answered:?}");
}
