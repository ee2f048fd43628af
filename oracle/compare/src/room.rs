//! A mesh with what the requests are aimed at: bounds, bins, cells that locate their points, centres.
use crate::meshes::mean;
use crate::vectors::{mix, P3};
use reference::refair::gen::{self, Cell, Mesh, Rng};
use reference::refair::{build_mesh, read_case};

pub struct Room<'a> {
    pub m: &'a Mesh,
    pub vel: &'a [P3],
    pub lo: P3,
    pub hi: P3,
    pub bins: [f64; 2],
    pub size: f64,
    /// cells that do not reach the far borders, where the bins lose them
    inner: Vec<usize>,
    /// the others
    far: Vec<usize>,
    /// the cells' centres as the Rust has them, where they were asked for
    pub centres: Vec<P3>,
}

impl<'a> Room<'a> {
    pub fn of(m: &'a Mesh, vel: &'a [P3]) -> Self {
        let (mut lo, mut hi) = ([f64::INFINITY; 3], [f64::NEG_INFINITY; 3]);
        for v in m.cells.iter().flat_map(|c| c.numbers()) {
            let p = m.pts[v as usize];
            for k in 0..3 {
                lo[k] = lo[k].min(p[k]);
                hi[k] = hi[k].max(p[k]);
            }
        }
        let aspect = (hi[0] - lo[0]) / (hi[1] - lo[1]);
        let n = m.cells.len() as f64;
        let bins = [(n * aspect).sqrt().ceil().max(1.0), (n / aspect).sqrt().ceil().max(1.0)];
        let size = (0..3).fold(0f64, |s, k| s.max(hi[k] - lo[k]));
        let (inner, far) = (0..m.cells.len())
            .partition(|&i| m.cells[i].numbers().iter().all(|&v| (0..2).all(|k| m.pts[v as usize][k] < hi[k])));
        Self { m, vel, lo, hi, bins, size, inner, far, centres: Vec::new() }
    }

    pub fn with_centres(mut self) -> Self {
        let n = self.m.cells.len();
        let case = gen::case_bytes(self.m.dim, &self.m.pts, &gen::mesh_words(self.m), &vec![[0.0; 3]; n], &vec![0.0; n]);
        if let Some(mesh) = read_case(&case).ok().and_then(|c| build_mesh(&c).ok()) {
            self.centres = mesh.cells().iter().map(|c| [c.center.x, c.center.y, c.center.z]).collect();
        }
        self
    }

    pub fn corner(&self, c: &Cell, i: usize) -> P3 {
        let v = c.numbers();
        self.m.pts[v[i % v.len()] as usize]
    }

    pub fn any_cell(&self, r: &mut Rng) -> &'a Cell {
        &self.m.cells[r.below(self.m.cells.len())]
    }

    /// Mostly a cell that locates its points.
    pub fn listed_cell(&self, r: &mut Rng) -> &'a Cell {
        if self.inner.is_empty() || r.one_in(6) {
            return self.any_cell(r);
        }
        &self.m.cells[r.pick(&self.inner)]
    }

    /// A cell that reaches a far border.
    pub fn far_cell(&self, r: &mut Rng) -> &'a Cell {
        &self.m.cells[r.pick(&self.far)]
    }

    /// The index's bin of a coordinate: bins of the same size, half of one further down.
    fn index_bin(&self, x: f64, axis: usize) -> f64 {
        let share = ((x - self.lo[axis]) / (self.hi[axis] - self.lo[axis])).clamp(0.0, 1.0);
        (share * self.bins[axis] + 0.5).floor()
    }

    /// The words of the index: a head to a bin, two words to a cell in a bin. It stands where there
    /// are no more than 72 to a cell (crates/lines_bins); the tolerance of the limits is left out.
    pub fn has_index(&self) -> bool {
        let mut words = (self.bins[0] + 1.0) * (self.bins[1] + 1.0);
        for c in &self.m.cells {
            let count = |axis: usize| {
                let list = || c.numbers().into_iter().map(|v| self.m.pts[v as usize][axis]);
                let (low, high) = (list().fold(f64::INFINITY, f64::min), list().fold(f64::NEG_INFINITY, f64::max));
                self.index_bin(high, axis) - self.index_bin(low, axis) + 1.0
            };
            words += 2.0 * count(0) * count(1);
        }
        words <= 72.0 * self.m.cells.len() as f64
    }

    /// A point well inside a (convex) cell.
    pub fn within(&self, c: &Cell, r: &mut Rng) -> P3 {
        let v = c.numbers();
        let q = mean(self.m, &v);
        mix(q, self.corner(c, r.below(v.len())), r.range(0.0, 0.9))
    }
}
