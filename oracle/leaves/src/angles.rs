//! The angle order and its sort against atan2.
use crate::exports::{hookyellow_turns_before, sort};
use crate::values::Direction;
use crate::Tally;

/// Angles nearer than this are passed over.
const NEAR: f64 = 1.0 / (1u64 << 39) as f64;

/// The most points that the sort takes.
pub const MOST: usize = 192;

fn finite(d: Direction) -> bool {
    d.0.is_finite() && d.1.is_finite()
}

fn bits(d: Direction) -> [u64; 2] {
    [d.0.to_bits(), d.1.to_bits()]
}

fn angle(d: Direction) -> f64 {
    d.1.atan2(d.0)
}

/// The directions are the same, or their angles differ by so much that atan2 orders them.
fn comparable(d: Direction, e: Direction) -> bool {
    bits(d) == bits(e) || (angle(d) - angle(e)).abs() >= NEAR
}

pub fn compare_angles(tally: &mut Tally, d: Direction, e: Direction) {
    let fit = finite(d) && finite(e) && comparable(d, e);
    let rusts = fit.then(|| angle(d).total_cmp(&angle(e)).is_lt() as u64);
    let ours = hookyellow_turns_before(d.0, d.1, e.0, e.1);
    tally.compare(ours as u64, rusts, &[bits(d), bits(e)].concat());
}

/// The first 192 of the points whose angles can be compared with each other.
fn sortable(points: &[Direction]) -> Vec<Direction> {
    let mut kept: Vec<(Direction, f64)> = Vec::with_capacity(MOST);
    for &d in points.iter().filter(|&&d| finite(d)) {
        let a = angle(d);
        let near = |&(e, b): &(Direction, f64)| (a - b).abs() < NEAR && bits(d) != bits(e);
        if kept.len() < MOST && !kept.iter().any(near) {
            kept.push((d, a));
        }
    }
    kept.into_iter().map(|(d, _)| d).collect()
}

/// Compares the places of all points; each place counts as one value.
pub fn compare_sorts(tally: &mut Tally, points: &[Direction]) {
    let kept = sortable(points);
    tally.passed_over += (points.len() - kept.len()) as u64;
    let (dx, dy): (Vec<f64>, Vec<f64>) = kept.iter().copied().unzip();
    let angles: Vec<f64> = kept.iter().map(|&d| angle(d)).collect();
    let mut rusts: Vec<usize> = (0..kept.len()).collect();
    rusts.sort_by(|&i, &j| angles[i].total_cmp(&angles[j]));
    let mut ours = vec![usize::MAX; kept.len()];
    let sorted = sort(&dx, &dy, &mut ours);
    if sorted && ours == rusts {
        tally.compared += kept.len() as u64;
        return;
    }
    let inputs: Vec<u64> = kept.iter().flat_map(|&d| bits(d)).collect();
    tally.compare(sorted as u64, Some(1), &inputs);
    for (&i, &j) in ours.iter().zip(&rusts) {
        tally.compare(i as u64, Some(j as u64), &inputs);
    }
}

/// Slices of these lengths are refused, and the places are left.
pub fn compare_refused_sort(tally: &mut Tally, lengths: (usize, usize, usize)) {
    let mut places = vec![7; lengths.2];
    let sorted = sort(&vec![1.0; lengths.0], &vec![1.0; lengths.1], &mut places);
    let refused = !sorted && places.iter().all(|&place| place == 7);
    let inputs = [lengths.0 as u64, lengths.1 as u64, lengths.2 as u64];
    tally.compare(refused as u64, Some(1), &inputs);
}
