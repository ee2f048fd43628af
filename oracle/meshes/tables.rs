//! Prints what the program crate test_mesh_tables is due for each case of a file (crates/test_mesh_tables/src/main.rt
//! says in which form), from FLURSYS's own `UnstructuredMesh::from_cells`.
//!
//! It is built in the workspace of the reference job, as a binary of its package `refair` (src/bin/tables.rs),
//! where `flursys` has FLURSYS's unchanged mesh.rs and `refair::read_case` reads a case's records (refusals 1
//! to 3). Refusals 4 and 10 are those that the records add. Run: tables cases >stdout; make.py does.
//!
//! mesh.rs sorts a cell's neighbours; the tables have them in face order, first of each kept, so they are
//! taken from its faces here.
use flursys::{MeshDimension, MeshError, Point, UnstructuredMesh, Vec3};
use refair::{bits, mesh_number, read_case, LIMIT};
use std::io::Write;

struct Digest {
    hash: u64,
    line: String,
}
impl Digest {
    fn put(&mut self, x: u64) {
        for b in x.to_le_bytes() {
            self.hash = (self.hash ^ b as u64).wrapping_mul(0x100_0000_01b3);
        }
        self.line += &format!(" {x:016x}");
    }
    fn vec(&mut self, v: Vec3) {
        for x in [v.x, v.y, v.z] {
            self.put(bits(x));
        }
    }
    fn list(&mut self, l: &[usize]) {
        self.put(l.len() as u64);
        for &x in l {
            self.put(x as u64);
        }
    }
}

fn neighbours(mesh: &UnstructuredMesh, cell: usize) -> Vec<usize> {
    let mut list = Vec::new();
    for &f in &mesh.cells()[cell].faces {
        let face = &mesh.faces()[f];
        if let Some(n) = face.neighbour {
            let other = if face.owner == cell { n } else { face.owner };
            if !list.contains(&other) {
                list.push(other);
            }
        }
    }
    list
}

fn tables(mesh: &UnstructuredMesh) -> Digest {
    let mut d = Digest { hash: 0xcbf2_9ce4_8422_2325, line: String::new() };
    for face in mesh.faces() {
        d.list(&face.vertices);
        d.put(face.owner as u64);
        match face.neighbour {
            Some(n) => {
                d.put(1);
                d.put(n as u64);
            }
            None => d.put(0),
        }
        d.vec(face.center);
        d.put(bits(face.area));
        d.vec(face.normal);
        d.vec(face.area_vector);
        d.line += "\n";
    }
    for (i, cell) in mesh.cells().iter().enumerate() {
        d.list(&cell.faces);
        let list = neighbours(mesh, i);
        let mut sorted = list.clone();
        sorted.sort();
        assert_eq!(sorted, cell.neighbours);
        d.list(&list);
        d.vec(cell.center);
        d.put(bits(cell.volume));
        d.line += "\n";
    }
    d
}

fn build(case: &[u8], words: u64, floats: u64) -> Result<UnstructuredMesh, u32> {
    let case = read_case(case)?;
    let (f, c) = (case.faces, case.defs.len() as u64);
    if words < 16 * f + 96 * c || floats < 12 * f + 64 * c {
        return Err(4);
    }
    let dimension = if case.dimension == 2 { MeshDimension::TwoD } else { MeshDimension::ThreeD };
    let points = case.points.iter().map(|p| Point::new(p.x, p.y, p.z)).collect();
    let made = UnstructuredMesh::from_cells(dimension, points, case.defs);
    let beyond = case.points.iter().any(|p| [p.x, p.y, p.z].iter().any(|x| x.abs() > LIMIT));
    match made {
        Err(e @ (MeshError::EmptyMesh | MeshError::NonFinitePoint { .. })) => Err(mesh_number(&e)),
        _ if beyond => Err(10),
        Err(e) => Err(mesh_number(&e)),
        Ok(mesh) => Ok(mesh),
    }
}

fn main() {
    let file = std::fs::read(std::env::args().nth(1).expect("the file of cases")).expect("cases");
    let mut at = 0;
    let mut take = |n: usize| {
        at += n;
        &file[at - n..at]
    };
    let number = |b: &[u8]| u32::from_le_bytes(b.try_into().unwrap()) as usize;
    let mut out = std::io::stdout().lock();
    for _ in 0..number(take(4)) {
        let n = number(take(4));
        out.write_all(take(n)).unwrap();
        let shown = number(take(4)) == 1;
        let (words, floats) = (number(take(4)) as u64, number(take(4)) as u64);
        let n = number(take(4));
        match build(take(n), words, floats) {
            Err(k) => writeln!(out, ": refused {k}").unwrap(),
            Ok(mesh) => {
                let d = tables(&mesh);
                writeln!(out, ": {} {} {:016x}", mesh.face_count(), mesh.cell_count(), d.hash).unwrap();
                if shown {
                    out.write_all(d.line.as_bytes()).unwrap();
                }
            }
        }
    }
}
