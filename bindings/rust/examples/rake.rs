//! A 2D room of 8 x 4 square cells. Air comes in at the left wall (x = 0), sinks, and leaves at the right wall (x = 8).
//! A rake of five streamlines starts near the inlet.
//!
//! A rake is one request, and a job names the cells of all that it served together. So each line is traced once more alone: a job
//! of one line names the cells that this line was made from. The sheet of the first line is what the drill crew marks.
//!
//! By the bins a line ends at the floor or before x = 7: cells that reach the right or the upper
//! wall are found by no point (docs/DIFFERENCES.md). The same rake among all cells goes on to the
//! wall; with the right half of the room in a zone of its own it ends at the border between the two.
use hookyellow::*;

const COLUMNS: u32 = 8;
const ROWS: u32 = 4;

fn main() -> Result<(), Box<dyn std::error::Error>> {
    let case = room().build()?;
    let mut workspace = Workspace::for_case(&case)?;
    let options = LineOptions { step_size: 0.25, max_steps: 100, max_length: 20.0, stagnation_speed: 0.0, all_cells: false };
    let (start, end) = (Vector::new(0.5, 0.75, 0.0), Vector::new(0.5, 2.75, 0.0));
    let lines = rake(&case, start, end, 5, Direction::Forward, options, &mut workspace)?.answer?;
    for line in &lines {
        let (seed, last) = (line.points[0], line.points[line.points.len() - 1]);
        let alone = streamline(&case, seed, Direction::Forward, options, &mut workspace)?;
        assert_eq!(alone.answer.as_ref(), Ok(line));
        let cell = locate(&case, last, false, &mut workspace)?.answer?;
        println!(
            "from ({:.2}, {:.2}): {} points, ends at ({:.3}, {:.3}) in cell {}, made from cells {:?}",
            seed.x,
            seed.y,
            line.points.len(),
            last.x,
            last.y,
            cell.map_or("none".into(), |located| located.cell.to_string()),
            alone.cells_read
        );
    }
    let marks = sheet(&case, start, Direction::Forward, options, &mut workspace)?.answer?.points;
    println!(
        "the first line has {} marks on the floor, in millimetres from {:?} to {:?}",
        marks.len(),
        marks[0],
        marks[marks.len() - 1]
    );
    let all = LineOptions { all_cells: true, ..options };
    let lines = rake(&case, start, end, 5, Direction::Forward, all, &mut workspace)?.answer?;
    println!("among all cells the lines end at {}", ends(&lines));
    let zoned = room().zones((0..ROWS * COLUMNS).map(|cell| u32::from(cell % COLUMNS >= COLUMNS / 2))).build()?;
    let lines = rake(&zoned, start, end, 5, Direction::Forward, all, &mut workspace)?.answer?;
    println!("in the left half they end at {}", ends(&lines));
    Ok(())
}

fn ends(lines: &[Streamline]) -> String {
    let ends = lines.iter().map(|line| line.points[line.points.len() - 1]);
    ends.map(|last| format!("({:.3}, {:.3})", last.x, last.y)).collect::<Vec<_>>().join(", ")
}

/// Cells row by row from the lower left. The velocity in each is (1, -x/16) at its centre.
fn room() -> CaseBuilder {
    let points = (0..=ROWS).flat_map(|j| (0..=COLUMNS).map(move |i| [f64::from(i), f64::from(j), 0.0]));
    let cells = || (0..ROWS).flat_map(|j| (0..COLUMNS).map(move |i| (i, j)));
    let square = |(i, j)| {
        let low = j * (COLUMNS + 1) + i;
        Cell::Polygon(vec![low, low + 1, low + COLUMNS + 2, low + COLUMNS + 1])
    };
    Case::builder(Dimension::Two)
        .points(points)
        .cells(cells().map(square))
        .velocities(cells().map(|(i, _)| [1.0, -(f64::from(i) + 0.5) / 16.0, 0.0]))
        .pressures(cells().map(|_| 0.0))
}
