//! Meshes that the reference's own generator does not make, and other numbers for the points of any.
use crate::vectors::{along, beside, P3};
use reference::refair::gen::{self, Cell, Mesh, Rng};

/// The mean of the named points.
pub fn mean(m: &Mesh, numbers: &[u32]) -> P3 {
    let mut q = [0.0; 3];
    for &i in numbers {
        q = along(q, m.pts[i as usize % m.pts.len()], 1.0 / numbers.len() as f64);
    }
    q
}

/// Other numbers for the points, unused points, another order of the cells.
pub fn renumber(m: &mut Mesh, r: &mut Rng) {
    if r.one_in(3) {
        let far = r.pick(&[5.0, 5.0, 5e3, 1e6]);
        for _ in 0..r.below(3) {
            m.pts.push(std::array::from_fn(|_| r.range(-far, far)));
        }
        let n = m.pts.len();
        let mut place: Vec<u32> = (0..n as u32).collect();
        r.shuffle(&mut place);
        let old = m.pts.clone();
        for i in 0..n {
            m.pts[place[i] as usize] = old[i];
        }
        for c in &mut m.cells {
            for v in c.v.iter_mut().chain(c.faces.iter_mut().flatten()) {
                *v = place[*v as usize];
            }
        }
    }
    if r.one_in(3) {
        r.shuffle(&mut m.cells);
    }
}

/// The faces of a solid, in the Rust's order.
pub fn faces_of(c: &Cell) -> Vec<Vec<u32>> {
    let table: &[&[usize]] = match c.kind {
        1 => &[&[0, 2, 1], &[0, 1, 3], &[1, 2, 3], &[2, 0, 3]],
        2 => &[&[0, 3, 2, 1], &[4, 5, 6, 7], &[0, 1, 5, 4], &[1, 2, 6, 5], &[2, 3, 7, 6], &[3, 0, 4, 7]],
        3 => &[&[0, 2, 1], &[3, 4, 5], &[0, 1, 4, 3], &[1, 2, 5, 4], &[2, 0, 3, 5]],
        4 => &[&[0, 3, 2, 1], &[0, 1, 4], &[1, 2, 4], &[2, 3, 4], &[3, 0, 4]],
        _ => return c.faces.clone(),
    };
    table.iter().map(|f| f.iter().map(|&i| c.v[i]).collect()).collect()
}

/// A block of hexahedra in which some columns are prisms, and other cells polyhedra or six pyramids, those on the border
/// in two tetrahedra each: all five kinds in one mesh.
pub fn mixed(r: &mut Rng) -> Mesh {
    let n = [1 + r.below(3), 1 + r.below(3), 1 + r.below(2)];
    let d = if r.one_in(2) { [1.0; 3] } else { std::array::from_fn(|_| r.range(0.2, 2.0)) };
    let mut m = gen::grid3(n[0], n[1], n[2], d);
    if r.one_in(3) {
        let by = d[0].min(d[1]).min(d[2]) * 0.1;
        for x in m.pts.iter_mut().flatten() {
            *x += r.range(-by, by);
        }
    }
    let column: Vec<bool> = (0..n[0] * n[1]).map(|_| r.one_in(3)).collect();
    for (at, h) in std::mem::take(&mut m.cells).into_iter().enumerate() {
        let (i, j, k) = (at % n[0], at / n[0] % n[1], at / (n[0] * n[1]));
        if column[i + n[0] * j] {
            for t in [[0, 1, 2, 4, 5, 6], [0, 2, 3, 4, 6, 7]] {
                m.cells.push(Cell::of(3, t.map(|x: usize| h.v[x]).to_vec()));
            }
            continue;
        }
        let border = [k == 0, k + 1 == n[2], j == 0, i + 1 == n[0], j + 1 == n[1], i == 0];
        match r.below(4) {
            0 => m.cells.push(h),
            1 => {
                let mut f = faces_of(&h);
                r.shuffle(&mut f);
                m.cells.push(Cell::poly(f));
            }
            _ => pyramids(&mut m, &h, border, r),
        }
    }
    place(&mut m, r);
    m
}

/// A hexahedron in six pyramids, some of those on the border in two tetrahedra.
fn pyramids(m: &mut Mesh, h: &Cell, border: [bool; 6], r: &mut Rng) {
    let apex = m.pts.len() as u32;
    let mut c = [0.0; 3];
    for &v in &h.v {
        c = along(c, m.pts[v as usize], 0.125);
    }
    m.pts.push(c);
    for (f, edge) in faces_of(h).into_iter().zip(border) {
        if edge && r.one_in(2) {
            m.cells.push(Cell::of(1, vec![f[0], f[1], f[2], apex]));
            m.cells.push(Cell::of(1, vec![f[0], f[2], f[3], apex]));
        } else {
            m.cells.push(Cell::of(4, vec![f[0], f[1], f[2], f[3], apex]));
        }
    }
}

/// Another size, turn and place.
fn place(m: &mut Mesh, r: &mut Rng) {
    let scale = r.pick(&[1.0, 1.0, 0.125, 3.0, 1000.0]);
    let turn = r.one_in(3).then(|| gen::frame(r));
    let far = r.pick(&[0.0, 0.0, 2.0, 500.0]);
    let t: P3 = std::array::from_fn(|_| r.range(-far, far));
    for p in &mut m.pts {
        let q = p.map(|x| x * scale);
        let q = match turn {
            Some((u, v, w)) => std::array::from_fn(|k| u[k] * q[0] + v[k] * q[1] + w[k] * q[2]),
            None => q,
        };
        *p = along(q, t, 1.0);
    }
}

/// 01's room Pair and rows like it, on the quarter grid.
pub fn rooms(r: &mut Rng) -> Mesh {
    let (nx, ny) = r.pick(&[(1, 1), (2, 1), (2, 1), (1, 2), (2, 2), (3, 2), (4, 4)]);
    let mut m = gen::grid2(nx, ny, r.pick(&[1.0, 0.25, 0.75]), r.pick(&[1.0, 0.5]));
    let (x, y) = (r.below(9) as f64 * 0.25 - 1.0, r.below(9) as f64 * 0.25 - 1.0);
    for p in &mut m.pts {
        *p = [p[0] + x, p[1] + y, 0.0];
    }
    m
}

/// A row of rooms whose longer bin count is 65,536 or one beside it (19).
pub fn long_room(r: &mut Rng) -> Mesh {
    let n = r.pick(&[1usize, 1, 4, 16]);
    // (n * aspect).sqrt() is 65,536 where the room is `width` long and `height` high
    let width = r.pick(&[1_048_576.0, 65_536.0, 2_097_152.0]);
    let mut height = width * n as f64 / 4_294_967_296.0;
    match r.below(4) {
        0 => height = beside(height, true),
        1 => height = beside(height, false),
        2 => height *= r.range(0.9999, 1.0001),
        _ => {}
    }
    let mut m = gen::grid2(n, 1, width / n as f64, height);
    for p in &mut m.pts {
        p[0] -= if width > 1_048_576.0 { 1_048_576.0 } else { 0.0 };
        if n == 4 {
            p.swap(0, 1);
        }
    }
    m
}
