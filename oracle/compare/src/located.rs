//! Laws over the answers of codes 1 and 9, judged on the library's own words. Wherever a point
//! locates by its bin (code 1) it locates among all cells (code 9), in that cell or a lower one; in
//! the same cell it has the same position. A position is 0 exactly where there is no cell, else 1
//! (on an edge) or 2 (inside).
use crate::pairs::Pair;
use reference::by_bins;

/// No cell.
const NONE: u64 = u64::MAX;

/// What came of the points that were asked for by their bin and then among all cells.
#[derive(Default, Clone, Copy, Debug, PartialEq)]
pub struct Located {
    /// in the same cell both times
    pub same: u64,
    /// among all cells in a lower one
    pub lower: u64,
    /// among all cells alone
    pub alone: u64,
    pub nowhere: u64,
}

/// Where the requests of a job stand, and their answers.
fn places(p: &Pair, answers: &[u64]) -> Vec<usize> {
    let next = |at: &mut usize, _| {
        let here = *at;
        *at += 2 + answers[here + 1] as usize;
        Some(here)
    };
    (0..p.requests.len() / 128).scan(0, next).collect()
}

impl Located {
    /// Of a pair and its answers, one for each request; an error names the point that breaks the
    /// law.
    pub fn of(p: &Pair, answers: &[u64]) -> Result<Self, String> {
        let mut count = Self::default();
        let at = places(p, answers);
        for i in 1..at.len() {
            let codes = p.code(i - 1) == 1 && p.code(i) == 9;
            let asked_twice = codes && (1..16).all(|k| p.word(i - 1, k) == p.word(i, k));
            if asked_twice && answers[at[i - 1] + 1] == 2 && answers[at[i] + 1] == 2 {
                let [x, y] = [1, 2].map(|k| f64::from_bits(p.word(i, k)));
                let place = format!("requests {} and {i} (codes 1 and 9) at ({x:e}, {y:e})", i - 1);
                let [bin, all] = [at[i - 1], at[i]].map(|at| [answers[at + 2], answers[at + 3]]);
                count.take(bin, all).map_err(|e| format!("{place}: {e}"))?;
            }
        }
        Ok(count)
    }

    /// One point: the cell by its bin and the one among all cells, each with the position.
    fn take(&mut self, [bin, by_bin]: [u64; 2], [all, by_all]: [u64; 2]) -> Result<(), String> {
        match (bin, all) {
            (NONE, NONE) => self.nowhere += 1,
            (NONE, _) => self.alone += 1,
            (_, NONE) => return Err(format!("by its bin in cell {bin}, among all cells nowhere")),
            _ if all > bin => return Err(format!("by its bin in cell {bin}, among all cells in {all}, a higher one")),
            _ if all < bin => self.lower += 1,
            _ if by_bin != by_all => return Err(format!("in cell {bin} both times, position {by_bin} and {by_all}")),
            _ => self.same += 1,
        }
        Ok(())
    }

    pub fn add(&mut self, other: &Self) {
        self.same += other.same;
        self.lower += other.lower;
        self.alone += other.alone;
        self.nowhere += other.nowhere;
    }

    pub fn line(&self) -> String {
        format!(
            "points asked for by their bin and among all cells: {} in the same cell, {} among all cells in a lower \
             one, {} among all cells alone, {} nowhere",
            self.same, self.lower, self.alone, self.nowhere
        )
    }
}

/// What the points of codes 1 and 9 are: nowhere, on an edge of a cell, inside one.
#[derive(Default, Clone, Copy, Debug, PartialEq)]
pub struct Positions {
    pub none: u64,
    pub edge: u64,
    pub inside: u64,
}

impl Positions {
    /// Of a pair and its answers; an error names the answer that has no such position.
    pub fn of(p: &Pair, answers: &[u64]) -> Result<Self, String> {
        let mut count = Self::default();
        for (i, at) in places(p, answers).into_iter().enumerate() {
            if by_bins(p.code(i)) != 1 || answers[at] != 0 {
                continue;
            }
            match answers[at + 2..at + 2 + answers[at + 1] as usize] {
                [NONE, 0] => count.none += 1,
                [NONE, _] => return Err(format!("answer of request {i}: no cell, and a position")),
                [_, 1] => count.edge += 1,
                [_, 2] => count.inside += 1,
                [cell, word] => return Err(format!("answer of request {i}: cell {cell}, and {word} for a position")),
                _ => return Err(format!("answer of request {i}: {} words, not a cell and a position", answers[at + 1])),
            }
        }
        Ok(count)
    }

    pub fn add(&mut self, other: &Self) {
        self.none += other.none;
        self.edge += other.edge;
        self.inside += other.inside;
    }
}
