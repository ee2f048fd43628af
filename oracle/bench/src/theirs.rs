//! The unchanged Rust: FLURSYS's own functions, as a caller who keeps the mesh and the streamline
//! field uses them. It has no locator among all cells: for codes 9 to 12 and 14 it does what 1 to 4
//! and 13 ask for. It does not say whether a point is on an edge: the reference does, after the
//! clock has stopped.
use crate::rows::Request;
use reference::flursys::workbench::plane_integrals;
use reference::flursys::workbench::plane_monitor::{self, FlowPlaneMonitor, PlaneSnapshot};
use reference::flursys::workbench::results::streamlines::*;
use reference::flursys::workbench::results::ResultDataset;
use reference::flursys::{CellDefinition, MeshDimension, Point, UnstructuredMesh, Vec3};
use reference::by_bins;
use reference::refair::ref02::{millimetres, standing};
use reference::refair::{self, bits, mesh01, plane_of, Case, Order, Stats, Twin, NONE};
use std::cell::OnceCell;

/// A request in FLURSYS's own types, ready before the clock starts.
pub enum Call {
    Locate(Vec3),
    Velocity(Vec3),
    Line(Vec3, StreamlineOptions),
    Rake(Vec3, Vec3, usize, StreamlineOptions),
    Sheet(Vec3, StreamlineOptions),
    Section(FlowPlaneMonitor),
    Statistics(FlowPlaneMonitor, usize),
    Integrals(FlowPlaneMonitor),
    Probe(FlowPlaneMonitor, Vec3),
}

/// What FLURSYS gives back; snapshots go along so that they are dropped after the clock has stopped.
#[allow(dead_code)]
pub enum Output {
    Cell(Option<usize>),
    Velocity(Option<Vec3>),
    Line(StreamlinePath),
    Rake(Vec<StreamlinePath>),
    /// FLURSYS has no sheet: its line, which is not put into millimetres before the answers are compared
    Sheet(StreamlinePath),
    Section(Box<PlaneSnapshot>),
    Statistics(Box<PlaneSnapshot>, usize, String),
    Integrals(Box<PlaneSnapshot>, Box<plane_integrals::Sample>),
    Probe(Box<PlaneSnapshot>, Option<Box<(usize, Vec3, f64)>>),
}

pub type Lists = (MeshDimension, Vec<Point>, Vec<CellDefinition>);

/// The case as lists.
pub struct Ready {
    case: Case,
}

/// The lists with the mesh and, in 2D, the streamline field.
pub struct Theirs {
    pub ready: Ready,
    mesh: UnstructuredMesh,
    field: Option<StreamlineField>,
    /// The field's polygons, for the position of a located point; made where one is asked for, so
    /// that what is timed or counted runs as it would without them.
    polygons: OnceCell<Vec<Vec<(f64, f64)>>>,
}

fn vector(request: &Request, at: usize) -> Vec3 {
    let [x, y, z] = [0, 1, 2].map(|i| f64::from_bits(request[at + i]));
    Vec3::new(x, y, z)
}

/// The words after the direction, which is forward in every row.
fn options(request: &Request, at: usize) -> StreamlineOptions {
    let number = |i: usize| f64::from_bits(request[at + i]);
    StreamlineOptions {
        step_size: number(1),
        max_steps: request[at + 2] as usize,
        max_length: number(3),
        stagnation_speed: number(4),
    }
}

impl Call {
    pub fn of(request: &Request) -> Self {
        match by_bins(request[0]) {
            1 => Call::Locate(vector(request, 1)),
            2 => Call::Velocity(vector(request, 1)),
            3 => Call::Line(vector(request, 1), options(request, 4)),
            4 => Call::Rake(vector(request, 1), vector(request, 4), request[7] as usize, options(request, 8)),
            5 => Call::Section(plane_of(request)),
            6 => Call::Statistics(plane_of(request), request[10] as usize),
            7 => Call::Integrals(plane_of(request)),
            8 => Call::Probe(plane_of(request), vector(request, 10)),
            13 => Call::Sheet(vector(request, 1), options(request, 4)),
            code => panic!("no row asks for {code}"),
        }
    }
}

pub fn build(lists: Lists) -> UnstructuredMesh {
    UnstructuredMesh::from_cells(lists.0, lists.1, lists.2).expect("FLURSYS accepts the mesh")
}

pub fn field(data: &ResultDataset) -> StreamlineField {
    StreamlineField::from_dataset(data).expect("FLURSYS accepts the field")
}

fn polygons(mesh: &UnstructuredMesh, ready: &Ready) -> Vec<Vec<(f64, f64)>> {
    Twin::build(&mesh01::from_rust(mesh), &ready.velocities(), Order::Rust).expect("a field").polygons
}

impl Ready {
    pub fn new(case: &[u8]) -> Self {
        Self { case: refair::read_case(case).ok().expect("the case is read") }
    }

    /// What `from_cells` takes.
    pub fn lists(&self) -> Lists {
        let dimension = if self.case.dimension == 2 { MeshDimension::TwoD } else { MeshDimension::ThreeD };
        let points = self.case.points.iter().map(|p| Point::new(p.x, p.y, p.z)).collect();
        (dimension, points, self.case.defs.clone())
    }

    pub fn velocities(&self) -> Vec<Vec3> {
        self.case.velocity.clone()
    }
}

impl Theirs {
    pub fn new(case: &[u8]) -> Self {
        let ready = Ready::new(case);
        let mesh = build(ready.lists());
        let two = mesh.dimension() == MeshDimension::TwoD;
        let field = two.then(|| field(&ResultDataset::stub(mesh.clone(), ready.velocities())));
        Self { ready, mesh, field, polygons: OnceCell::new() }
    }

    /// The words of code 1: the cell, and the position of the request's point in its polygon.
    fn located(&self, request: &Request, cell: Option<usize>) -> [u64; 2] {
        let point = vector(request, 1);
        let polygons = self.polygons.get_or_init(|| polygons(&self.mesh, &self.ready));
        cell.map_or([NONE, 0], |cell| [cell as u64, standing((point.x, point.y), &polygons[cell])])
    }

    /// FLURSYS cuts the whole mesh anew for each plane it is asked about: `intersect` keeps no index between calls.
    fn snapshot(&self, plane: &FlowPlaneMonitor) -> Box<PlaneSnapshot> {
        let cells = plane_monitor::intersect(&self.mesh, plane).expect("a valid plane");
        let Case { velocity, pressure, .. } = &self.ready.case;
        Box::new(plane_monitor::sample(plane, &cells, 1, velocity, pressure).expect("finite samples"))
    }

    pub fn serve(&self, call: &Call) -> Output {
        let field = || self.field.as_ref().expect("a 2D case");
        match call {
            Call::Locate(point) => Output::Cell(field().locate_cell(*point)),
            Call::Velocity(point) => Output::Velocity(field().velocity_at(*point)),
            Call::Line(seed, options) => {
                Output::Line(field().integrate(*seed, StreamlineDirection::Forward, *options).expect("a line"))
            }
            Call::Sheet(seed, options) => {
                Output::Sheet(field().integrate(*seed, StreamlineDirection::Forward, *options).expect("a line"))
            }
            Call::Rake(start, end, count, options) => Output::Rake(
                field().integrate_rake(*start, *end, *count, StreamlineDirection::Forward, *options).expect("a rake"),
            ),
            Call::Section(plane) => Output::Section(self.snapshot(plane)),
            Call::Statistics(plane, scalar) => {
                let snapshot = self.snapshot(plane);
                let text = plane_monitor::section_statistics_csv(&snapshot, *scalar).expect("statistics");
                Output::Statistics(snapshot, *scalar, text)
            }
            Call::Integrals(plane) => {
                let snapshot = self.snapshot(plane);
                let sample = plane_integrals::sample(&snapshot).expect("integrals");
                Output::Integrals(snapshot, Box::new(sample))
            }
            Call::Probe(plane, point) => {
                let snapshot = self.snapshot(plane);
                let found = plane_monitor::probe_world(&snapshot, *point);
                let found = found.map(|s| Box::new((s.geometry.cell, s.velocity, s.pressure)));
                Output::Probe(snapshot, found)
            }
        }
    }
}

fn put(words: &mut Vec<u64>, v: Vec3) {
    words.extend([v.x, v.y, v.z].map(bits));
}

fn put_line(words: &mut Vec<u64>, line: &StreamlinePath) {
    words.push(line.points.len() as u64);
    line.points.iter().for_each(|&p| put(words, p));
}

fn put_sheet(words: &mut Vec<u64>, line: &StreamlinePath) {
    let mut list: Vec<_> = line.points.iter().map(|p| [p.x, p.y].map(|x| millimetres(x, false) as u64)).collect();
    list.dedup();
    words.push(list.len() as u64);
    words.extend(list.concat());
}

fn put_section(words: &mut Vec<u64>, snapshot: &PlaneSnapshot) {
    words.push(snapshot.samples.len() as u64);
    for sample in &snapshot.samples {
        words.extend([sample.geometry.cell as u64, sample.geometry.polygon.len() as u64]);
        put(words, sample.geometry.point);
        sample.geometry.polygon.iter().for_each(|&p| put(words, p));
        put(words, sample.velocity);
        words.push(bits(sample.pressure));
    }
}

impl Output {
    /// The same answer to a request as ours: refusal, number of words, words.
    pub fn answer(&self, request: &Request, theirs: &Theirs) -> Vec<u64> {
        let mut words = vec![0, 0];
        match self {
            Output::Cell(cell) => words.extend(theirs.located(request, *cell)),
            Output::Velocity(None) => words.extend([0; 4]),
            Output::Velocity(Some(v)) => {
                words.push(1);
                put(&mut words, *v);
            }
            Output::Line(line) => put_line(&mut words, line),
            Output::Sheet(line) => put_sheet(&mut words, line),
            Output::Rake(lines) => {
                words.push(lines.len() as u64);
                lines.iter().for_each(|line| put_line(&mut words, line));
            }
            Output::Section(snapshot) => put_section(&mut words, snapshot),
            // the text has too few digits: the numbers behind it, which `statistics` checks against FLURSYS's text with 18 digits
            Output::Statistics(snapshot, scalar, _) => {
                words.extend(refair::statistics(snapshot, *scalar, &mut Stats::default()).expect("statistics"))
            }
            Output::Integrals(_, s) => words.extend([s.area, s.mean_pressure, s.mean_speed, s.volume_flux].map(bits)),
            Output::Probe(_, None) => words.extend([NONE, 0, 0, 0, 0]),
            Output::Probe(_, Some(found)) => {
                words.push(found.0 as u64);
                put(&mut words, found.1);
                words.push(bits(found.2));
            }
        }
        words[1] = words.len() as u64 - 2;
        words
    }
}
