//! A 3D room of 4 x 3 x 2 unit cubes, with air along x: 0.5 in the lower layer, and back at 0.25 in the upper one.
//! The section x = 1.5 cuts it across; its normal is along x.
use hookyellow::*;

const LONG: u32 = 4;
const WIDE: u32 = 3;
const HIGH: u32 = 2;

fn main() -> Result<(), Box<dyn std::error::Error>> {
    let case = room()?;
    let mut workspace = Workspace::for_case(&case)?;
    let plane = SectionPlane::new(Vector::new(1.5, 0.0, 0.0), Vector::new(0.0, 1.0, 0.0), Vector::new(0.0, 0.0, 1.0));
    let polygons = section(&case, plane, &mut workspace)?;
    for polygon in &polygons.answer? {
        let Vector { x, y, z } = polygon.centre;
        println!("cell {:2}: {} vertices around ({x}, {y}, {z})", polygon.cell, polygon.vertices.len());
    }
    println!("cells read: {:?}", polygons.cells_read);
    let sums = integrals(&case, plane, &mut workspace)?.answer?;
    println!("area {}, flux {}, mean speed {}", sums.area, sums.flux, sums.mean_speed);
    let pressure = statistics(&case, plane, Field::Pressure, &mut workspace)?.answer?;
    println!("pressure {} to {}, mean {}", pressure.minimum, pressure.maximum, pressure.mean);
    if let Some(weighted) = pressure.weighted {
        println!("part of the flux that goes back: {:.3}", weighted.reverse_fraction);
    }
    Ok(())
}

/// Cubes row by row along x, then y, then z. The pressure falls by 1 from cube to cube along y.
fn room() -> Result<Case, BuildError> {
    let grid = |x: u32, y: u32, z: u32| (0..z).flat_map(move |k| (0..y).flat_map(move |j| (0..x).map(move |i| (i, j, k))));
    let cells = || grid(LONG, WIDE, HIGH);
    let number = |i, j, k| (k * (WIDE + 1) + j) * (LONG + 1) + i;
    let cube = |(i, j, k)| {
        let around = [(i, j), (i + 1, j), (i + 1, j + 1), (i, j + 1)];
        Cell::Hexahedron(std::array::from_fn(|n| number(around[n % 4].0, around[n % 4].1, k + n as u32 / 4)))
    };
    Case::builder(Dimension::Three)
        .points(grid(LONG + 1, WIDE + 1, HIGH + 1).map(|(i, j, k)| [i, j, k].map(f64::from)))
        .cells(cells().map(cube))
        .velocities(cells().map(|(_, _, k)| [if k == 0 { 0.5 } else { -0.25 }, 0.0, 0.0]))
        .pressures(cells().map(|(_, j, _)| 3.0 - f64::from(j)))
        .build()
}
