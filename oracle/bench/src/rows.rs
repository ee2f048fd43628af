//! The rows of the table, and their requests as the 16 words of docs/FORMAT.md.
use crate::rooms::Shape;
use reference::{among_all, by_bins};

pub type Request = [u64; 16];

#[derive(Clone, Copy)]
pub enum Work {
    /// FLURSYS: `UnstructuredMesh::from_cells`.
    Build,
    /// FLURSYS: `from_cells`, then `StreamlineField::from_dataset`, which codes 1 to 4 need.
    BuildField,
    /// `list(units)` is the request list; `whole` units are asked for, and `counted` under callgrind.
    Requests { list: fn(usize) -> Vec<Request>, whole: usize, counted: usize },
}

pub struct Row {
    pub name: &'static str,
    pub shape: Shape,
    pub work: Work,
}

/// What the name of a row has whose case is of edition 2 for us; the Rust has none of these.
const ZONES: &str = "-zones";

impl Row {
    pub fn has_zones(&self) -> bool {
        self.name.ends_with(ZONES)
    }
    /// The case that we get.
    pub fn case(&self) -> Vec<u8> {
        if self.has_zones() { self.shape.zoned_case() } else { self.shape.case() }
    }
    pub fn key(&self) -> String {
        format!("{}-{}", self.name, self.shape.cells())
    }
    /// Units of the row under callgrind, where the Rust's mesh of a plane row has to be built each time: at most 4,096 hexahedra.
    pub fn counted(&self) -> Option<usize> {
        match self.work {
            Work::Requests { counted, .. } => (self.shape.dimension() == 2 || self.shape.cells() <= 4096).then_some(counted),
            _ => Some(1),
        }
    }
}

const QUADS: [Shape; 4] = [Shape::Quads(8), Shape::Quads(32), Shape::Quads(64), Shape::Quads(128)];
const HEXAHEDRA: [Shape; 4] =
    [Shape::Hexahedra(4, 4, 4), Shape::Hexahedra(16, 8, 8), Shape::Hexahedra(16, 16, 16), Shape::Hexahedra(32, 32, 16)];

pub fn all() -> Vec<Row> {
    let mut rows = Vec::new();
    let mut add = |name, shapes: &[Shape], work: Work| {
        rows.extend(shapes.iter().map(|&shape| Row { name, shape, work }));
    };
    let request = |list, whole, counted| Work::Requests { list, whole, counted };
    add("build-quads", &QUADS, Work::Build);
    add("build-quads-field", &QUADS, Work::BuildField);
    add("build-hexahedra", &HEXAHEDRA, Work::Build);
    let (quads, hexahedra) = ([QUADS[0], QUADS[3]], [HEXAHEDRA[0], HEXAHEDRA[2], HEXAHEDRA[3]]);
    add("locate", &quads, request(locates, 4096, 256));
    add("velocity", &quads, request(velocities, 4096, 256));
    add("line", &quads, request(line, 65_536, 64));
    add("rake", &quads, request(rake, 1024, 1));
    add("sheet", &quads, request(sheet, 65_536, 64));
    add("locate-all", &quads, request(|n| all_cells(locates(n)), 4096, 256));
    add("velocity-all", &quads, request(|n| all_cells(velocities(n)), 4096, 256));
    add("line-all", &quads, request(|n| all_cells(line(n)), 65_536, 64));
    add("rake-all", &quads, request(|n| all_cells(rake(n)), 1024, 1));
    add("sheet-all", &quads, request(|n| all_cells(sheet(n)), 65_536, 64));
    add("build-quads-field-zones", &quads, Work::BuildField);
    add("line-zones", &quads, request(line, 65_536, 64));
    add("rake-zones", &quads, request(rake, 1024, 1));
    add("line-all-zones", &quads, request(|n| all_cells(line(n)), 65_536, 64));
    add("rake-all-zones", &quads, request(|n| all_cells(rake(n)), 1024, 1));
    add("section-few", &hexahedra, request(|_| vec![section(FEW)], 1, 1));
    add("section-many", &hexahedra, request(|_| vec![section(MANY)], 1, 1));
    add("statistics-few", &hexahedra, request(|_| vec![statistics(FEW)], 1, 1));
    add("statistics-many", &hexahedra, request(|_| vec![statistics(MANY)], 1, 1));
    add("integrals-few", &hexahedra, request(|_| vec![integrals(FEW)], 1, 1));
    add("integrals-many", &hexahedra, request(|_| vec![integrals(MANY)], 1, 1));
    add("probe-few", &hexahedra, request(|_| vec![probe(FEW)], 1, 1));
    add("probe-many", &hexahedra, request(|_| vec![probe(MANY)], 1, 1));
    rows
}

/// Requests that show that both sides built the same mesh.
pub fn witnesses(shape: Shape) -> Vec<Request> {
    match shape.dimension() {
        2 => [locates(256), velocities(256), line(256)].concat(),
        _ => [section, statistics, integrals, probe].iter().flat_map(|ask| [ask(FEW), ask(MANY)]).collect(),
    }
}

/// Where the plane x + y + z = 3 ORIGIN meets the cube: a corner, or the middle.
const FEW: f64 = 0.017;
const MANY: f64 = 0.493;

fn request(code: u64, arguments: &[u64]) -> Request {
    let mut words = [0; 16];
    words[0] = code;
    words[1..=arguments.len()].copy_from_slice(arguments);
    words
}

/// The same requests among all cells.
fn all_cells(mut list: Vec<Request>) -> Vec<Request> {
    list.iter_mut().for_each(|request| request[0] = among_all(request[0]));
    list
}

/// The same requests by the bins, where these ask for something else.
pub fn by_the_bins(list: &[Request]) -> Option<Vec<Request>> {
    let mut same = list.to_vec();
    same.iter_mut().for_each(|request| request[0] = by_bins(request[0]));
    (same != list).then_some(same)
}

/// Points spread over the square but for its far eighths, whose cells are listed in no bin: both
/// locators find them.
fn spread(i: usize) -> [u64; 3] {
    let (x, y) = (i as f64 * 0.618_033_988_749_894_9 % 1.0, i as f64 * 0.414_213_562_373_095_05 % 1.0);
    [x * 0.875, y * 0.875, 0.0].map(f64::to_bits)
}

fn locates(count: usize) -> Vec<Request> {
    (0..count).map(|i| request(1, &spread(i))).collect()
}

fn velocities(count: usize) -> Vec<Request> {
    (0..count).map(|i| request(2, &spread(i))).collect()
}

/// Direction, step size, steps, length, stagnation speed.
fn options(steps: usize) -> [u64; 5] {
    [0, 1e-4f64.to_bits(), steps as u64, 1e9f64.to_bits(), 0]
}

fn line(steps: usize) -> Vec<Request> {
    let seed = [0.7f64, 0.5, 0.0].map(f64::to_bits);
    vec![request(3, &[&seed[..], &options(steps)].concat())]
}

/// The same line in millimetres: a step is a tenth of one.
fn sheet(steps: usize) -> Vec<Request> {
    let mut list = line(steps);
    list[0][0] = 13;
    list
}

/// 64 seeds, each followed for as many steps.
fn rake(steps: usize) -> Vec<Request> {
    let ends = [0.55f64, 0.5, 0.0, 0.8, 0.5, 0.0].map(f64::to_bits);
    vec![request(4, &[&ends[..], &[64], &options(steps)].concat())]
}

fn plane(at: f64) -> [f64; 9] {
    let (a, b) = (0.5f64.sqrt(), (1.0f64 / 6.0).sqrt());
    [at, at, at, a, -a, 0.0, b, b, -2.0 * b]
}

fn section(at: f64) -> Request {
    request(5, &plane(at).map(f64::to_bits))
}

fn statistics(at: f64) -> Request {
    request(6, &[&plane(at).map(f64::to_bits)[..], &[0]].concat())
}

fn integrals(at: f64) -> Request {
    request(7, &plane(at).map(f64::to_bits))
}

/// At the plane's origin, which lies in the room.
fn probe(at: f64) -> Request {
    request(8, &[plane(at).map(f64::to_bits).as_slice(), &[at.to_bits(); 3]].concat())
}
