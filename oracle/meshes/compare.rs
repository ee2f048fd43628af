//! Builds generated cases by crates/test_mesh_exports and by FLURSYS's own `UnstructuredMesh::from_cells` in one
//! process, and compares refusals, faces and cells by their bits; then times both on two large meshes.
//!
//! It is built in the workspace of the reference job, as a binary of its package `refair` (src/bin/compare.rs,
//! whose `gen` makes the cases), and linked with target/staticlib/libtest_mesh_exports.a of `tools/staticlib
//! test_mesh_exports`:
//!     RUSTFLAGS="-L native=TARGET/staticlib -l static=test_mesh_exports" cargo build --offline --release --bin compare
//! Run: compare FIRST COUNT.
use flursys::{CellDefinition, MeshDimension, MeshError, Point, UnstructuredMesh, Vec3};
use refair::{bits, gen, mesh_number, read_case, LIMIT};
use std::collections::BTreeMap;
use std::time::Instant;

unsafe extern "C" {
    fn hookyellow_from_cells(
        case: *const u8,
        case_length: usize,
        words: *mut u32,
        words_length: usize,
        floats: *mut f64,
        floats_length: usize,
        sizes: *mut usize,
        sizes_length: usize,
    ) -> u64;
}

struct Area {
    words: Vec<u32>,
    floats: Vec<f64>,
    sizes: [usize; 3],
}
impl Area {
    fn build(&mut self, case: &[u8], words: usize, floats: usize) -> u64 {
        let (w, f) = (&mut self.words[..words], &mut self.floats[..floats]);
        unsafe {
            hookyellow_from_cells(
                case.as_ptr(), case.len(), w.as_mut_ptr(), w.len(), f.as_mut_ptr(), f.len(), self.sizes.as_mut_ptr(), 3,
            )
        }
    }
    fn word(&self, i: usize) -> usize {
        self.words[i] as usize
    }
    fn vec(&self, i: usize) -> Vec3 {
        Vec3::new(self.floats[i], self.floats[i + 1], self.floats[i + 2])
    }
}

fn same(a: Vec3, b: Vec3) -> bool {
    bits(a.x) == bits(b.x) && bits(a.y) == bits(b.y) && bits(a.z) == bits(b.z)
}

fn neighbours(mesh: &UnstructuredMesh, cell: usize) -> Vec<usize> {
    let mut list = Vec::new();
    for &f in &mesh.cells()[cell].faces {
        let face = &mesh.faces()[f];
        if let Some(n) = face.neighbour {
            let other = if face.owner == cell { n } else { face.owner };
            if !list.contains(&other) {
                list.push(other);
            }
        }
    }
    list
}

/// Where the area has what is said in crates/mesh_area/specs/Layout.antt.
fn equal(mesh: &UnstructuredMesh, a: &Area) -> Result<(), String> {
    let [slots, faces, cells] = a.sizes;
    if faces != mesh.face_count() || cells != mesh.cell_count() {
        return Err("counts".into());
    }
    for (f, face) in mesh.faces().iter().enumerate() {
        let n = a.word(12 * f);
        let vertices: Vec<usize> = (0..n).map(|k| a.word(12 * f + 1 + k)).collect();
        let ok = vertices == face.vertices
            && a.word(12 * f + 9) == face.owner
            && a.word(12 * f + 10) == face.neighbour.map_or(0, |n| n + 1)
            && same(a.vec(12 * f), face.center)
            && bits(a.floats[12 * f + 3]) == bits(face.area)
            && same(a.vec(12 * f + 4), face.normal)
            && same(a.vec(12 * f + 7), face.area_vector);
        if !ok {
            return Err(format!("face {f}"));
        }
    }
    for (i, cell) in mesh.cells().iter().enumerate() {
        let at = 16 * slots + 8 * i;
        let first = a.word(at + 1);
        let list = |from: usize, n: usize| (0..n).map(|k| a.word(from + first + k)).collect::<Vec<usize>>();
        let ok = list(13 * slots, a.word(at + 2)) == cell.faces
            && list(14 * slots, a.word(at + 3)) == neighbours(mesh, i)
            && same(a.vec(12 * slots + 4 * i), cell.center)
            && bits(a.floats[12 * slots + 4 * i + 3]) == bits(cell.volume);
        if !ok {
            return Err(format!("cell {i}"));
        }
    }
    Ok(())
}

fn reference(case: &[u8], words: u64, floats: u64) -> Result<UnstructuredMesh, u32> {
    let case = read_case(case)?;
    let (f, c) = (case.faces, case.defs.len() as u64);
    if words < 16 * f + 96 * c || floats < 12 * f + 64 * c {
        return Err(4);
    }
    let beyond = case.points.iter().any(|p| [p.x, p.y, p.z].iter().any(|x| x.abs() > LIMIT));
    match made(case.dimension, &case.points, case.defs) {
        Err(e @ (MeshError::EmptyMesh | MeshError::NonFinitePoint { .. })) => Err(mesh_number(&e)),
        _ if beyond => Err(10),
        Err(e) => Err(mesh_number(&e)),
        Ok(mesh) => Ok(mesh),
    }
}

fn made(dimension: u32, points: &[Vec3], defs: Vec<CellDefinition>) -> Result<UnstructuredMesh, MeshError> {
    let dimension = if dimension == 2 { MeshDimension::TwoD } else { MeshDimension::ThreeD };
    UnstructuredMesh::from_cells(dimension, points.iter().map(|p| Point::new(p.x, p.y, p.z)).collect(), defs)
}

fn time(name: &str, m: gen::Mesh, a: &mut Area) {
    let n = m.cells.len();
    let case = gen::case_bytes(m.dim, &m.pts, &gen::mesh_words(&m), &vec![[0.0; 3]; n], &vec![0.0; n]);
    let read = read_case(&case).unwrap_or_else(|k| panic!("{k}"));
    let f = read.faces as usize;
    let (words, floats) = (16 * f + 96 * n, 12 * f + 64 * n);
    let (mut ours, mut theirs) = (Vec::new(), Vec::new());
    for _ in 0..31 {
        let start = Instant::now();
        let k = a.build(&case, words, floats);
        ours.push(start.elapsed());
        assert_eq!(k, 0);
        let points: Vec<Point> = read.points.iter().map(|p| Point::new(p.x, p.y, p.z)).collect();
        let defs = read.defs.clone();
        let dimension = if m.dim == 2 { MeshDimension::TwoD } else { MeshDimension::ThreeD };
        let start = Instant::now();
        let mesh = UnstructuredMesh::from_cells(dimension, points, defs).unwrap();
        theirs.push(start.elapsed());
        equal(&mesh, a).unwrap();
    }
    ours.sort();
    theirs.sort();
    let (x, y) = (ours[15].as_secs_f64() * 1e3, theirs[15].as_secs_f64() * 1e3);
    println!("{name}: {n} cells, ours {x:.2} ms, Rust {y:.2} ms, ratio {:.3}", x / y);
}

fn main() {
    let arg = |i| std::env::args().nth(i).and_then(|x| x.parse::<u64>().ok()).expect("compare FIRST COUNT");
    let (first, count) = (arg(1), arg(2));
    let mut a = Area { words: vec![0; 4_000_000], floats: vec![0.0; 4_000_000], sizes: [0; 3] };
    let (mut seen, mut differ) = (BTreeMap::<u64, u64>::new(), 0u64);
    let (mut faces, mut cells) = (0u64, 0u64);
    for seed in first..first + count {
        let p = gen::pair(seed);
        let (words, floats) = (p.lens.words.min(4_000_000), p.lens.floats.min(4_000_000));
        let got = a.build(&p.case, words as usize, floats as usize);
        *seen.entry(got).or_default() += 1;
        let why = match reference(&p.case, words, floats) {
            Err(k) if k as u64 == got => continue,
            Ok(mesh) if got == 0 => {
                faces += mesh.face_count() as u64;
                cells += mesh.cell_count() as u64;
                match equal(&mesh, &a) {
                    Ok(()) => continue,
                    Err(why) => why,
                }
            }
            other => format!("{got} for {:?}", other.err()),
        };
        differ += 1;
        println!("seed {seed} ({}): {why}", p.sort);
    }
    println!("{count} cases, {differ} differ; by refusal {seen:?}; {faces} faces and {cells} cells equal");
    time("quads", gen::grid2(128, 128, 0.5, 0.25), &mut a);
    time("hexahedra", gen::grid3(25, 25, 26, [0.5, 0.25, 1.0]), &mut a);
}
