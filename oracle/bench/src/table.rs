//! The table and its last line.
use crate::files::FileRow;
use crate::measure::{Measured, MeasuredFile};
use crate::rows::Row;

const HEADER: &str = "\
The proved code (ours) and the unchanged Rust in one process, on the same inputs: medians, over rounds in which they run in turn,
of the time that the thread has a core. The answers of both were compared before, bit for bit.
build-*: ours is a job without requests on the case bytes; the Rust's is FLURSYS's from_cells on ready lists, its quality report included,
which is part of that function. build-quads-field: the Rust's also makes the streamline field, without which it serves no code 1 to 4.
Other rows: ours is a job with the requests less a job without any, of the same round (short requests stand in the job up to 64 times);
the Rust's mesh and streamline field are ready, and a plane is cut through the whole mesh at each call, as FLURSYS does.
The Rust's statistics include its text, which is part of that function. Its results are dropped outside the time.
locate, velocity: 4,096 points. line, sheet: 65,536 steps of a tenth of a millimetre; the Rust has no sheet, and its time is that of
the line. rake: 64 seeds of 1,024 steps. few, many: a plane by a corner of the room, by its middle. *: fewer points or steps were run
and both times multiplied. ~: half of our rounds lie more than a quarter apart.
locate-all, velocity-all, line-all, rake-all, sheet-all: the same points, among all cells (codes 9 to 12 and 14). The
Rust has no such locator, and its time is that by the bins. To bins: the time over ours by the bins, in the same rounds;
at most 1.30 is due.
*-zones: ours is on the case of edition 2 with the same contents, all cells in one zone; the Rust has no zones and is on edition 1.
To first: the time over ours on the case of edition 1, in the same rounds.
Growth: the time over that of the same row on its smallest mesh.";

/// What a row among all cells may take of its row by the bins.
const TO_BINS: f64 = 1.3;

pub fn print_header() {
    println!("{HEADER}\n");
    println!(
        "{:<23} {:>7} {:>14} {:>12} {:>10}   {:>11} {:>11} {:>8} {:>8}",
        "row", "cells", "ours (us)", "Rust (us)", "ratio", "growth ours", "growth Rust", "to bins", "to first"
    );
}

/// Ours over the Rust's; none where the difference of the jobs is not above zero.
pub fn ratio(m: &Measured) -> Option<f64> {
    (m.ours > 0.0).then(|| m.ours / m.theirs)
}

/// A row among all cells over ours by the bins.
fn to_bins(m: &Measured) -> Option<f64> {
    m.bins.filter(|bins| *bins > 0.0).map(|bins| m.ours / bins)
}

/// A row with zones over ours on the edition 1 case.
fn to_first(m: &Measured) -> Option<f64> {
    m.first.filter(|first| *first > 0.0).map(|first| m.ours / first)
}

pub fn print_row(row: &Row, m: &Measured, smallest: &Measured) {
    let marks = format!("{}{}", if m.scaled { "*" } else { "" }, if m.uneven { "~" } else { "" });
    let ratio = ratio(m).map_or("noise".into(), |r| format!("{r:.2}"));
    let beside = |r: Option<f64>| r.map_or(String::new(), |r| format!("{r:.2}"));
    println!(
        "{:<23} {:>7} {:>14.1} {:>12.1} {:>10}{:<2} {:>11.2} {:>11.2} {:>8} {:>8}",
        row.name,
        row.shape.cells(),
        m.ours,
        m.theirs,
        ratio,
        marks,
        m.ours / smallest.ours,
        m.theirs / smallest.theirs,
        beside(to_bins(m)),
        beside(to_first(m))
    );
}

fn worst(rows: &[(Row, Measured)], of: fn(&Measured) -> Option<f64>) -> Option<(f64, String)> {
    rows.iter().filter_map(|(row, m)| Some((of(m)?, row.key()))).max_by(|a, b| a.0.total_cmp(&b.0))
}

pub fn print_worst(rows: &[(Row, Measured)]) {
    if let Some((ratio, key)) = worst(rows, to_bins) {
        let verdict = if ratio <= TO_BINS { "at most" } else { "MORE THAN" };
        println!("among all cells {ratio:.2} of the time by the bins in {key}: {verdict} {TO_BINS:.2}");
    }
    if let Some((ratio, key)) = worst(rows, to_first) {
        println!("with zones {ratio:.2} of the time on edition 1 in {key}");
    }
    if let Some((ratio, key)) = worst(rows, ratio) {
        println!("worst ratio {ratio:.2} in {key}");
    }
}

const FILE_HEADER: &str = "\
A case file made (ours) and copied by a plain loop of the same language, into the same buffer: the shortest, of rounds in which they
run in turn, of the time that the thread has a core. The files were compared before.
write-*: from the parts in memory; convert-*: from the file of the other edition, zones 0. first, second: the edition of the file that is
made. At most 1.50 is due.";

/// What making a file may take of copying it.
const TO_COPY: f64 = 1.5;

pub fn print_file_header() {
    println!("{FILE_HEADER}\n");
    println!("{:<25} {:>7} {:>9} {:>11} {:>11} {:>8}", "row", "cells", "bytes", "ours (us)", "copy (us)", "ratio");
}

pub fn print_file_row(row: &FileRow, m: &MeasuredFile) {
    let (cells, ratio) = (row.shape.cells(), m.ours / m.copy);
    println!("{:<25} {cells:>7} {:>9} {:>11.3} {:>11.3} {ratio:>8.2}", row.name, m.bytes, m.ours, m.copy);
}

pub fn print_worst_file(rows: &[(FileRow, MeasuredFile)]) {
    let ratios = rows.iter().map(|(row, m)| (m.ours / m.copy, row.key()));
    if let Some((ratio, key)) = ratios.max_by(|a, b| a.0.total_cmp(&b.0)) {
        let verdict = if ratio <= TO_COPY { "at most" } else { "MORE THAN" };
        println!("worst writer ratio {ratio:.2} in {key}: {verdict} {TO_COPY:.2}");
    }
}
