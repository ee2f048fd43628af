//! Velocities and pressures: smooth, random, whole, tiny, huge, signed zeros, and values that are not finite.
use crate::meshes::mean;
use crate::vectors::{sub, P3};
use reference::refair::gen::{Mesh, Rng};

pub fn fields(m: &Mesh, r: &mut Rng) -> (Vec<P3>, Vec<f64>) {
    let mode = r.below(10);
    let mut vel = velocities(m, mode, r);
    let mut pre = pressures(m.cells.len(), mode, r);
    not_finite(m.dim, &mut vel, &mut pre, r);
    (vel, pre)
}

fn velocities(m: &Mesh, mode: usize, r: &mut Rng) -> Vec<P3> {
    let base: P3 = std::array::from_fn(|k| if k < 2 || m.dim == 3 || r.one_in(4) { r.range(-2.0, 2.0) } else { 0.0 });
    let scale = r.pick(&[5e-324, 1e-310, 1e-170, 1e-160, 1e150, 1e160, 1e300, 1e307]);
    let centre = mean(m, &(0..m.pts.len() as u32).collect::<Vec<_>>());
    let mut vel = Vec::new();
    for (i, c) in m.cells.iter().enumerate() {
        let q = sub(mean(m, &c.numbers()), centre);
        let z = if m.dim == 3 { r.range(-1.0, 1.0) } else { 0.0 };
        vel.push(match mode {
            0 => base,
            1 => [r.range(-1.0, 1.0), r.range(-1.0, 1.0), z],
            2 => [-q[1], q[0], z * 0.1],
            3 => [1.0 + q[0].abs(), 0.0, 0.0],
            4 => [1.0, 0.0, -0.0],
            5 => [r.below(5) as f64 - 2.0, r.below(5) as f64 - 2.0, (r.below(3) as f64 - 1.0) * (m.dim - 2) as f64],
            6 if i % 2 == 0 => base,
            6 => base.map(|x| -x),
            7 => [r.range(-1.0, 1.0) * scale, r.range(-1.0, 1.0) * scale, r.range(-1.0, 1.0) * scale],
            8 if r.one_in(3) => [0.0, -0.0, 0.0],
            8 => base,
            _ => [1.0 + (i % 3) as f64, 0.25 * (i % 2) as f64, 0.0],
        });
    }
    vel
}

fn pressures(n: usize, mode: usize, r: &mut Rng) -> Vec<f64> {
    let pre = (0..n)
        .map(|_| match r.below(12) {
            0 => -0.0,
            1 => 0.0,
            2 if mode == 7 => 1e308,
            3 => r.below(3) as f64,
            _ => r.range(-3.0, 3.0),
        })
        .collect();
    if !r.one_in(6) {
        return pre;
    }
    let zero = r.pick(&[0.0, -0.0]);
    (0..n).map(|_| if r.one_in(3) { -zero } else { zero }).collect()
}

/// Values that are not finite, subnormal or huge: in no cell, a few, many, all.
fn not_finite(dim: u32, vel: &mut [P3], pre: &mut [f64], r: &mut Rng) {
    let n = vel.len();
    let odd = match r.below(20) {
        0..=12 => 0,
        13..=16 => 1 + r.below(2),
        17 | 18 => 1 + r.below(n),
        _ => 4 * n,
    };
    for _ in 0..odd {
        let i = r.below(n);
        if dim == 3 && r.one_in(3) {
            pre[i] = r.odd_float();
        } else {
            vel[i][r.below(3)] = r.odd_float();
        }
    }
}
