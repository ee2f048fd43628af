//! The requests and their 16 words.
use crate::{SectionPlane, Vector};

/// Which way a streamline is followed.
#[derive(Clone, Copy, Debug, PartialEq, Eq)]
pub enum Direction {
    /// With the flow.
    Forward,
    /// Against the flow.
    Backward,
}

impl Direction {
    /// The number in a request.
    pub fn number(self) -> u64 {
        u64::from(self == Self::Backward)
    }
}

/// The field of section statistics.
#[derive(Clone, Copy, Debug, PartialEq, Eq)]
pub enum Field {
    /// The size of the velocity.
    Speed,
    /// The pressure.
    Pressure,
    /// The velocity along x.
    VelocityX,
    /// The velocity along y.
    VelocityY,
    /// The velocity along z.
    VelocityZ,
    /// The velocity along the normal of the plane.
    NormalVelocity,
}

impl Field {
    /// All six, in the order of their numbers.
    pub const ALL: [Self; 6] =
        [Self::Speed, Self::Pressure, Self::VelocityX, Self::VelocityY, Self::VelocityZ, Self::NormalVelocity];

    /// The number in a request, 0 to 5.
    pub fn number(self) -> u64 {
        self as u64
    }
}

/// How a streamline is followed. What is not finite, not above 0 (`stagnation_speed`: below 0) gives 34.
#[repr(C)]
#[derive(Clone, Copy, Debug, PartialEq)]
pub struct LineOptions {
    /// The length of a step.
    pub step_size: f64,
    /// The greatest number of steps, at most 65,536 (else 33).
    pub max_steps: usize,
    /// The line ends before the step that would make it longer than this.
    pub max_length: f64,
    /// The line ends where the speed is this or less.
    pub stagnation_speed: f64,
    /// Whether the points of the line are located among all cells (codes 11, 12 and 14), or among
    /// those of their bin (3, 4 and 13).
    pub all_cells: bool,
}

/// One request. [`Request::Locate`] to [`Request::Rake`] and [`Request::Sheet`] need a 2D case, the others a 3D one (else 31).
///
/// A point locates in the lowest cell whose polygon contains it: with `all_cells` of all cells, so
/// that a line goes on up to the border; without it of those that are listed in the point's bin, as
/// in FLURSYS, where some cells at the far border are listed in none (docs/DIFFERENCES.md, "Bins
/// lose the far border").
#[derive(Clone, Copy, Debug, PartialEq)]
pub enum Request {
    /// 1 or, among all cells, 9: the cell that a point locates in, and whether on an edge of it or
    /// inside.
    Locate {
        /// The point.
        point: Vector,
        /// Whether all cells are searched, or those of the point's bin.
        all_cells: bool,
    },
    /// 2 or, among all cells, 10: the velocity at a point.
    Velocity {
        /// The point.
        point: Vector,
        /// Whether all cells are searched, or those of the point's bin.
        all_cells: bool,
    },
    /// 3 or, among all cells, 11: the streamline from a seed.
    Streamline {
        /// The first point of the line.
        seed: Vector,
        /// Which way the line is followed.
        direction: Direction,
        /// How the line is followed.
        options: LineOptions,
    },
    /// 4 or, among all cells, 12: the streamlines from seeds that are spread evenly over a segment.
    Rake {
        /// The first seed.
        start: Vector,
        /// The last seed.
        end: Vector,
        /// The number of seeds, 2 to 64 (else 32 or 33).
        count: usize,
        /// Which way the lines are followed.
        direction: Direction,
        /// How the lines are followed.
        options: LineOptions,
    },
    /// 5: the polygons that a plane cuts.
    Section {
        /// The plane.
        plane: SectionPlane,
    },
    /// 6: the statistics of a field over a section.
    Statistics {
        /// The plane.
        plane: SectionPlane,
        /// The field.
        field: Field,
    },
    /// 7: the integrals over a section.
    Integrals {
        /// The plane.
        plane: SectionPlane,
    },
    /// 8: the sample at a point of a section.
    Probe {
        /// The plane.
        plane: SectionPlane,
        /// The point, within 1e-8 of the plane.
        point: Vector,
    },
    /// 13 or, among all cells, 14: the streamline from a seed, in whole millimetres.
    Sheet {
        /// The first point of the line.
        seed: Vector,
        /// Which way the line is followed.
        direction: Direction,
        /// How the line is followed.
        options: LineOptions,
    },
}

impl Request {
    /// The code.
    pub fn code(&self) -> u64 {
        match self {
            Self::Locate { all_cells, .. } => [1, 9][usize::from(*all_cells)],
            Self::Velocity { all_cells, .. } => [2, 10][usize::from(*all_cells)],
            Self::Streamline { options, .. } => [3, 11][usize::from(options.all_cells)],
            Self::Rake { options, .. } => [4, 12][usize::from(options.all_cells)],
            Self::Section { .. } => 5,
            Self::Statistics { .. } => 6,
            Self::Integrals { .. } => 7,
            Self::Probe { .. } => 8,
            Self::Sheet { options, .. } => [13, 14][usize::from(options.all_cells)],
        }
    }

    /// The 16 words: the code, the arguments, zeros.
    pub fn to_words(&self) -> [u64; 16] {
        let mut words = Words { list: [0; 16], used: 0 };
        words.put(&[self.code()]);
        match *self {
            Self::Locate { point, .. } | Self::Velocity { point, .. } => words.put(&point.to_bits()),
            Self::Streamline { seed, direction, options } | Self::Sheet { seed, direction, options } => {
                words.put(&seed.to_bits());
                words.line(direction, options);
            }
            Self::Rake { start, end, count, direction, options } => {
                words.put(&start.to_bits());
                words.put(&end.to_bits());
                words.put(&[count as u64]);
                words.line(direction, options);
            }
            Self::Section { plane } | Self::Integrals { plane } => words.plane(plane),
            Self::Statistics { plane, field } => {
                words.plane(plane);
                words.put(&[field.number()]);
            }
            Self::Probe { plane, point } => {
                words.plane(plane);
                words.put(&point.to_bits());
            }
        }
        words.list
    }

    /// The 128 bytes of the words, little-endian.
    pub fn to_bytes(&self) -> [u8; 128] {
        let mut bytes = [0; 128];
        for (place, word) in bytes.chunks_exact_mut(8).zip(self.to_words()) {
            place.copy_from_slice(&word.to_le_bytes());
        }
        bytes
    }
}

/// The words of a request while they are written.
struct Words {
    list: [u64; 16],
    used: usize,
}

impl Words {
    fn put(&mut self, words: &[u64]) {
        self.list[self.used..self.used + words.len()].copy_from_slice(words);
        self.used += words.len();
    }

    fn plane(&mut self, plane: SectionPlane) {
        self.put(&plane.origin.to_bits());
        self.put(&plane.u.to_bits());
        self.put(&plane.v.to_bits());
    }

    fn line(&mut self, direction: Direction, options: LineOptions) {
        self.put(&[
            direction.number(),
            options.step_size.to_bits(),
            options.max_steps as u64,
            options.max_length.to_bits(),
            options.stagnation_speed.to_bits(),
        ]);
    }
}
