//! A job, and each request alone.
use crate::answer::{self, whole, Words};
use crate::{
    Answer, Case, Direction, Field, Integrals, LineOptions, Located, Refusal, Request, RequestRefusal, Sample, SectionPlane,
    SectionPolygon, Sheet, Statistics, Streamline, Vector, Workspace,
};

/// What an accepted job gives.
#[derive(Clone, Debug, PartialEq)]
pub struct Outcome {
    /// The answer or the refusal of each request, in order.
    pub answers: Vec<Result<Answer, RequestRefusal>>,
    cells_read: Vec<usize>,
}

impl Outcome {
    /// The cells whose values the job read, rising. A value of any other cell had no part in the answers.
    pub fn cells_read(&self) -> &[usize] {
        &self.cells_read
    }
}

/// What an accepted request alone gives.
#[derive(Clone, Debug, PartialEq)]
pub struct Single<T> {
    /// The answer or the refusal of the request.
    pub answer: Result<T, RequestRefusal>,
    /// The cells whose values the request read, rising. A value of any other cell had no part in the answer.
    pub cells_read: Vec<usize>,
}

/// Builds the mesh of a case and serves requests in order.
///
/// The buffers of the workspace are lengthened first as [`Workspace`] says: to what the case needs (unless it is refused with 1,
/// 2, 3 or 45), and to the answer words of the requests. Under a refusal they stay that long, and marks and answers hold what they held.
pub fn job(case: &Case, requests: &[Request], workspace: &mut Workspace) -> Result<Outcome, Refusal> {
    let bytes: Vec<u8> = requests.iter().flat_map(Request::to_bytes).collect();
    let cells_read =
        workspace.serve(case, requests.len(), |buffers| call!(hookyellow_job, case, buffers, bytes.as_ptr(), bytes.len()))?;
    let answers = requests.iter().zip(workspace.answer_words(requests.len()));
    let answers = answers.map(|(request, (refusal, words))| match refusal {
        0 => Answer::from_words(request.code(), words).ok_or(RequestRefusal::Unknown(0)),
        number => Err(RequestRefusal::from_number(number)),
    });
    Ok(Outcome { answers: answers.collect(), cells_read })
}

/// Makes a call that serves one request, and reads its answer.
fn single<T>(
    case: &Case,
    workspace: &mut Workspace,
    read: fn(&mut Words) -> Option<T>,
    call: impl Fn(&mut Workspace) -> u64,
) -> Result<Single<T>, Refusal> {
    let cells_read = workspace.serve(case, 1, call)?;
    let answer = match workspace.answer_words(1).next() {
        Some((0, words)) => whole(words, read).ok_or(RequestRefusal::Unknown(0)),
        Some((number, _)) => Err(RequestRefusal::from_number(number)),
        None => Err(RequestRefusal::Unknown(0)),
    };
    Ok(Single { answer, cells_read })
}

/// The cell that a point locates in, and whether on an edge of it or inside; or none where it
/// locates nowhere. `all_cells` is that of [`Request::Locate`].
pub fn locate(
    case: &Case,
    point: Vector,
    all_cells: bool,
    workspace: &mut Workspace,
) -> Result<Single<Option<Located>>, Refusal> {
    single(case, workspace, answer::locate, |buffers| call!(hookyellow_locate, case, buffers, point, all_cells))
}

/// The velocity at a point, or none where it locates nowhere; `all_cells` is that of
/// [`Request::Velocity`].
pub fn velocity(
    case: &Case,
    point: Vector,
    all_cells: bool,
    workspace: &mut Workspace,
) -> Result<Single<Option<Vector>>, Refusal> {
    single(case, workspace, answer::velocity, |buffers| call!(hookyellow_velocity, case, buffers, point, all_cells))
}

/// The streamline from a seed. In a case with zones it ends before its first point in another zone.
pub fn streamline(
    case: &Case,
    seed: Vector,
    direction: Direction,
    options: LineOptions,
    workspace: &mut Workspace,
) -> Result<Single<Streamline>, Refusal> {
    let backward = direction == Direction::Backward;
    single(case, workspace, answer::streamline, |buffers| call!(hookyellow_streamline, case, buffers, seed, backward, options))
}

/// The streamlines from `count` seeds that are spread evenly from `start` to `end`. In a case with zones each ends before its
/// first point in another zone than its own seed's.
pub fn rake(
    case: &Case,
    start: Vector,
    end: Vector,
    count: usize,
    direction: Direction,
    options: LineOptions,
    workspace: &mut Workspace,
) -> Result<Single<Vec<Streamline>>, Refusal> {
    let backward = direction == Direction::Backward;
    single(case, workspace, answer::rake, |buffers| call!(hookyellow_rake, case, buffers, start, end, count, backward, options))
}

/// The polygons that a plane cuts.
pub fn section(case: &Case, plane: SectionPlane, workspace: &mut Workspace) -> Result<Single<Vec<SectionPolygon>>, Refusal> {
    single(case, workspace, answer::section, |buffers| call!(hookyellow_section, case, buffers, plane))
}

/// The statistics of a field over a section.
pub fn statistics(
    case: &Case,
    plane: SectionPlane,
    field: Field,
    workspace: &mut Workspace,
) -> Result<Single<Statistics>, Refusal> {
    let field = field.number();
    single(case, workspace, answer::statistics, |buffers| call!(hookyellow_statistics, case, buffers, plane, field))
}

/// The integrals over a section.
pub fn integrals(case: &Case, plane: SectionPlane, workspace: &mut Workspace) -> Result<Single<Integrals>, Refusal> {
    single(case, workspace, answer::integrals, |buffers| call!(hookyellow_integrals, case, buffers, plane))
}

/// The sample at a point of a section, if the point lies in a polygon of it.
pub fn probe(
    case: &Case,
    plane: SectionPlane,
    point: Vector,
    workspace: &mut Workspace,
) -> Result<Single<Option<Sample>>, Refusal> {
    single(case, workspace, answer::probe, |buffers| call!(hookyellow_probe, case, buffers, plane, point))
}

/// The streamline from a seed, in whole millimetres.
pub fn sheet(
    case: &Case,
    seed: Vector,
    direction: Direction,
    options: LineOptions,
    workspace: &mut Workspace,
) -> Result<Single<Sheet>, Refusal> {
    let backward = direction == Direction::Backward;
    single(case, workspace, answer::sheet, |buffers| call!(hookyellow_sheet, case, buffers, seed, backward, options))
}
