//! The bytes of a case, and a case from a mesh in memory.
use crate::{convert, write_case, CaseParts, Counts, Refusal, Vector};
use std::fmt;

/// The bytes of a case: a mesh with a velocity and a pressure in each cell, and in edition 2 a zone
/// (docs/FORMAT.md).
///
/// Any bytes will do: what is not a case, a job refuses.
#[derive(Clone, Debug, PartialEq, Eq)]
pub struct Case {
    bytes: Vec<u8>,
}

impl Case {
    /// The case with these bytes.
    pub fn from_bytes(bytes: Vec<u8>) -> Self {
        Self { bytes }
    }

    /// A writer of a case.
    pub fn builder(dimension: Dimension) -> CaseBuilder {
        CaseBuilder::new(dimension)
    }

    /// The bytes.
    pub fn as_bytes(&self) -> &[u8] {
        &self.bytes
    }

    /// The bytes, given back.
    pub fn into_bytes(self) -> Vec<u8> {
        self.bytes
    }

    /// The case in the other edition, which is given: in edition 2 with zones 0; in edition 1
    /// without its zones, which have to be 0 (else 46). All else is kept, floats by their bits. 1
    /// for a case of that edition already, and 1, 2, 3 or 45 for bytes that a job refuses with
    /// these.
    ///
    /// ```
    /// use hookyellow::{Case, Dimension, Refusal};
    /// let case = Case::builder(Dimension::Two).points([[0.5, 1.0, f64::NAN]]).build()?;
    /// let second = case.in_edition(2)?;
    /// assert_eq!(second.as_bytes().len(), case.as_bytes().len() + 4);
    /// assert_eq!(second.in_edition(1).as_ref(), Ok(&case));
    /// assert_eq!(case.in_edition(1), Err(Refusal::Trailer));
    /// # Ok::<(), Box<dyn std::error::Error>>(())
    /// ```
    pub fn in_edition(&self, edition: usize) -> Result<Self, Refusal> {
        // in edition 2 a cell has 4 bytes more, and in edition 1 it has 32 at least
        let mut bytes = vec![0; self.bytes.len() + self.bytes.len() / 8 + 4];
        let length = convert(&self.bytes, edition, &mut bytes)?;
        bytes.truncate(length);
        Ok(Self { bytes })
    }
}

/// The dimension of a mesh.
#[derive(Clone, Copy, Debug, PartialEq, Eq)]
pub enum Dimension {
    /// Polygons; for locate, velocity, streamline and rake.
    Two = 2,
    /// Solids; for section, statistics, integrals and probe.
    Three = 3,
}

/// A cell by the numbers of its points. The vertices of a solid are counted from the bottom up, as in the face tables.
#[derive(Clone, Debug, PartialEq, Eq)]
pub enum Cell {
    /// The points around, 3 to 24 of them.
    Polygon(Vec<u32>),
    /// Three points around the bottom, and the top.
    Tetrahedron([u32; 4]),
    /// Four points around the bottom, and the four above them.
    Hexahedron([u32; 8]),
    /// Three points around the bottom, and the three above them.
    Prism([u32; 6]),
    /// Four points around the bottom, and the top.
    Pyramid([u32; 5]),
    /// 4 to 24 faces, each by the points around it, at most 8.
    Polyhedron(Vec<Vec<u32>>),
}

/// Why a case cannot be written.
#[derive(Clone, Copy, Debug, PartialEq, Eq)]
pub enum BuildError {
    /// Not one velocity for each cell.
    Velocities,
    /// Not one pressure for each cell.
    Pressures,
    /// Zones, and not one for each cell.
    Zones,
    /// What a job would refuse too: more points, cells or words than the format's limits (2), a
    /// count of a cell over its limit (3), a zone above 255 (45).
    Refused(Refusal),
}

impl fmt::Display for BuildError {
    fn fmt(&self, f: &mut fmt::Formatter<'_>) -> fmt::Result {
        match self {
            Self::Velocities => f.write_str("the case has not one velocity for each cell"),
            Self::Pressures => f.write_str("the case has not one pressure for each cell"),
            Self::Zones => f.write_str("the case has zones, and not one for each cell"),
            Self::Refused(refusal) => refusal.fmt(f),
        }
    }
}

impl std::error::Error for BuildError {}

/// Writes a case from points, cells and values in memory: of edition 1, or with [`zones`](Self::zones) of edition 2.
///
/// The bytes are those of [`write_case`](crate::write_case), by the proved code; what it refuses is
/// not built. Whether the mesh is sound is for the job to say.
///
/// ```
/// use hookyellow::{Case, Cell, Dimension, Vector};
/// let triangle = Case::builder(Dimension::Two)
///     .points([[0.0, 0.0, 0.0], [1.0, 0.0, 0.0], [0.0, 1.0, 0.0]])
///     .cells([Cell::Polygon(vec![0, 1, 2])])
///     .velocities([Vector::new(1.0, 0.0, 0.0)])
///     .pressures([0.0]);
/// let case = triangle.clone().build()?;
/// assert_eq!(case.as_bytes().len(), 3 * 24 + 5 * 4 + 24 + 8 + 32);
/// let case = triangle.zones([7]).build()?;
/// assert_eq!(case.as_bytes().len(), 3 * 24 + 5 * 4 + 24 + 8 + 4 + 36);
/// # Ok::<(), hookyellow::BuildError>(())
/// ```
#[derive(Clone, Debug)]
pub struct CaseBuilder {
    dimension: Dimension,
    points: Vec<Vector>,
    cells: Vec<Cell>,
    velocities: Vec<Vector>,
    pressures: Vec<f64>,
    zones: Option<Vec<u32>>,
}

impl CaseBuilder {
    /// A writer without points or cells.
    pub fn new(dimension: Dimension) -> Self {
        let (points, cells, velocities, pressures) = (Vec::new(), Vec::new(), Vec::new(), Vec::new());
        Self { dimension, points, cells, velocities, pressures, zones: None }
    }

    /// Adds points. They are numbered from 0 in the order in which they come.
    pub fn points<P: Into<Vector>>(mut self, points: impl IntoIterator<Item = P>) -> Self {
        self.points.extend(points.into_iter().map(Into::into));
        self
    }

    /// Adds cells, numbered as the points are.
    pub fn cells(mut self, cells: impl IntoIterator<Item = Cell>) -> Self {
        self.cells.extend(cells);
        self
    }

    /// Adds velocities, one for each cell.
    pub fn velocities<V: Into<Vector>>(mut self, velocities: impl IntoIterator<Item = V>) -> Self {
        self.velocities.extend(velocities.into_iter().map(Into::into));
        self
    }

    /// Adds pressures, one for each cell.
    pub fn pressures(mut self, pressures: impl IntoIterator<Item = f64>) -> Self {
        self.pressures.extend(pressures);
        self
    }

    /// Adds zones, one for each cell, at most 255 (else 45): rooms, plenums and enclosures by their numbers. The case is then of
    /// edition 2, in which a line ends before its first point in another zone than its seed's. A case without zones is of
    /// edition 1, and its lines run on.
    pub fn zones(mut self, zones: impl IntoIterator<Item = u32>) -> Self {
        self.zones.get_or_insert_with(Vec::new).extend(zones);
        self
    }

    /// Writes the case.
    pub fn build(self) -> Result<Case, BuildError> {
        let cells = self.cells.len();
        if self.velocities.len() != cells {
            return Err(BuildError::Velocities);
        }
        if self.pressures.len() != cells {
            return Err(BuildError::Pressures);
        }
        if self.zones.as_ref().is_some_and(|zones| zones.len() != cells) {
            return Err(BuildError::Zones);
        }
        let (edition, zones) = self.zones.map_or_else(|| (1, vec![0; cells]), |zones| (2, zones));
        let words = definition_words(&self.cells);
        let (dimension, points) = (self.dimension as usize, self.points.len());
        let parts = CaseParts {
            counts: Counts { edition, dimension, points, words: words.len(), cells },
            points: &bits(&self.points),
            words: &words,
            velocities: &bits(&self.velocities),
            pressures: &self.pressures.iter().map(|pressure| pressure.to_bits()).collect::<Vec<_>>(),
            zones: &zones,
        };
        let mut bytes = vec![0; parts.counts.file_length()];
        let length = write_case(&parts, &mut bytes).map_err(BuildError::Refused)?;
        bytes.truncate(length);
        Ok(Case { bytes })
    }
}

fn bits(vectors: &[Vector]) -> Vec<u64> {
    vectors.iter().flat_map(|vector| vector.to_bits()).collect()
}

/// One record for each cell.
fn definition_words(cells: &[Cell]) -> Vec<u32> {
    let mut words = Vec::new();
    for cell in cells {
        match cell {
            Cell::Polygon(points) => {
                words.extend([0, count(points)]);
                words.extend(points);
            }
            Cell::Tetrahedron(points) => solid(&mut words, 1, points),
            Cell::Hexahedron(points) => solid(&mut words, 2, points),
            Cell::Prism(points) => solid(&mut words, 3, points),
            Cell::Pyramid(points) => solid(&mut words, 4, points),
            Cell::Polyhedron(faces) => {
                words.extend([5, count(faces)]);
                for face in faces {
                    words.push(count(face));
                    words.extend(face);
                }
            }
        }
    }
    words
}

fn solid(words: &mut Vec<u32>, kind: u32, points: &[u32]) {
    words.push(kind);
    words.extend(points);
}

/// A list beyond 32 bits has more words than the format's limit, whatever number stands before it.
fn count<T>(list: &[T]) -> u32 {
    u32::try_from(list.len()).unwrap_or(u32::MAX)
}
