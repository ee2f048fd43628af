//! The answers, read from their words.
use crate::Vector;

/// The word for no cell.
const NONE: u64 = u64::MAX;

/// An answer. Every float is the one whose bits the answer word holds.
#[derive(Clone, Debug, PartialEq)]
pub enum Answer {
    /// 1, 9: the cell that the point locates in, and whether on an edge of it or inside; none where
    /// it locates nowhere, as by code 1 some points of a cell do (docs/DIFFERENCES.md, "Bins lose
    /// the far border").
    Locate(Option<Located>),
    /// 2, 10: the velocity at the point; none where it locates nowhere.
    Velocity(Option<Vector>),
    /// 3, 11: the line from the seed.
    Streamline(Streamline),
    /// 4, 12: the lines, in the order of the seeds.
    Rake(Vec<Streamline>),
    /// 5: the polygons, by rising cell.
    Section(Vec<SectionPolygon>),
    /// 6: the statistics.
    Statistics(Statistics),
    /// 7: the integrals.
    Integrals(Integrals),
    /// 8: the sample at the point, if it lies in a polygon of the section.
    Probe(Option<Sample>),
    /// 13, 14: the line from the seed in whole millimetres.
    Sheet(Sheet),
}

/// Where a point locates.
#[derive(Clone, Copy, Debug, PartialEq, Eq)]
pub struct Located {
    /// The lowest cell whose polygon contains the point.
    pub cell: usize,
    /// Where the point stands in that polygon. What it is in a higher cell does not count.
    pub position: Position,
}

/// Where a point stands in a polygon that contains it.
#[derive(Clone, Copy, Debug, PartialEq, Eq)]
pub enum Position {
    /// On a side, by the polygon test's tolerance of 1e-12; so a little outside too.
    Edge,
    /// Inside, and on no side.
    Inside,
}

impl Position {
    /// The number in an answer, 1 or 2; 0 is for a point that locates nowhere.
    pub fn number(self) -> u64 {
        match self {
            Self::Edge => 1,
            Self::Inside => 2,
        }
    }
}

/// A line of flow.
#[derive(Clone, Debug, PartialEq)]
pub struct Streamline {
    /// The points, the seed first.
    pub points: Vec<Vector>,
}

/// A line of flow in whole millimetres, halves away from zero.
#[derive(Clone, Debug, PartialEq, Eq)]
pub struct Sheet {
    /// x and y of the points, the seed first. A point that equals the one before it is not listed.
    pub points: Vec<(i64, i64)>,
}

/// A cell's part of a section.
#[derive(Clone, Debug, PartialEq)]
pub struct SectionPolygon {
    /// The cell.
    pub cell: usize,
    /// The average of the vertices.
    pub centre: Vector,
    /// The vertices around the centre.
    pub vertices: Vec<Vector>,
    /// The velocity of the cell.
    pub velocity: Vector,
    /// The pressure of the cell.
    pub pressure: f64,
}

/// The statistics of a field over a section. A flux is the velocity along the normal times the area.
#[derive(Clone, Copy, Debug, PartialEq)]
pub struct Statistics {
    /// The number of polygons used.
    pub used: usize,
    /// Their area.
    pub area: f64,
    /// The least value.
    pub minimum: f64,
    /// The greatest value.
    pub maximum: f64,
    /// The integral divided by the area.
    pub mean: f64,
    /// The sum of value times area.
    pub integral: f64,
    /// The net flux along the normal.
    pub flux: f64,
    /// The flux along the normal.
    pub positive_flux: f64,
    /// The flux against the normal, zero or negative.
    pub negative_flux: f64,
    /// Both fluxes by their sizes.
    pub absolute_flux: f64,
    /// What is weighted by the flux, where the absolute flux is above 0.
    pub weighted: Option<FluxWeighted>,
}

/// Section statistics that are weighted by the size of the flux.
#[derive(Clone, Copy, Debug, PartialEq)]
pub struct FluxWeighted {
    /// The mean of the field.
    pub value: f64,
    /// The part of the absolute flux that goes against the normal.
    pub reverse_fraction: f64,
}

/// The integrals over a section.
#[derive(Clone, Copy, Debug, PartialEq)]
pub struct Integrals {
    /// The area.
    pub area: f64,
    /// The mean pressure over the area.
    pub mean_pressure: f64,
    /// The mean speed over the area.
    pub mean_speed: f64,
    /// The flux along the normal.
    pub flux: f64,
}

/// The values of a cell.
#[derive(Clone, Copy, Debug, PartialEq)]
pub struct Sample {
    /// The cell.
    pub cell: usize,
    /// Its velocity.
    pub velocity: Vector,
    /// Its pressure.
    pub pressure: f64,
}

impl Answer {
    /// The answer of a request with this code, from the words after the refusal and the count. None if they are not of the format.
    pub fn from_words(code: u64, words: &[u64]) -> Option<Self> {
        match code {
            1 | 9 => whole(words, locate).map(Self::Locate),
            2 | 10 => whole(words, velocity).map(Self::Velocity),
            3 | 11 => whole(words, streamline).map(Self::Streamline),
            4 | 12 => whole(words, rake).map(Self::Rake),
            5 => whole(words, section).map(Self::Section),
            6 => whole(words, statistics).map(Self::Statistics),
            7 => whole(words, integrals).map(Self::Integrals),
            8 => whole(words, probe).map(Self::Probe),
            13 | 14 => whole(words, sheet).map(Self::Sheet),
            _ => None,
        }
    }

    /// The words that the answer was read from.
    pub fn to_words(&self) -> Vec<u64> {
        match self {
            Self::Locate(None) => vec![NONE, 0],
            Self::Locate(Some(located)) => vec![located.cell as u64, located.position.number()],
            Self::Velocity(None) => vec![0; 4],
            Self::Velocity(Some(velocity)) => [&[1], &velocity.to_bits()[..]].concat(),
            Self::Streamline(line) => line_words(line),
            Self::Rake(lines) => counted(lines, line_words),
            Self::Section(polygons) => counted(polygons, polygon_words),
            Self::Statistics(statistics) => statistics_words(statistics),
            Self::Integrals(i) => [i.area, i.mean_pressure, i.mean_speed, i.flux].map(f64::to_bits).to_vec(),
            Self::Probe(None) => vec![NONE, 0, 0, 0, 0],
            Self::Probe(Some(sample)) => {
                let [x, y, z] = sample.velocity.to_bits();
                vec![sample.cell as u64, x, y, z, sample.pressure.to_bits()]
            }
            Self::Sheet(sheet) => counted(&sheet.points, |&(x, y)| vec![x as u64, y as u64]),
        }
    }
}

fn counted<T>(list: &[T], words: fn(&T) -> Vec<u64>) -> Vec<u64> {
    std::iter::once(list.len() as u64).chain(list.iter().flat_map(words)).collect()
}

fn line_words(line: &Streamline) -> Vec<u64> {
    counted(&line.points, |point| point.to_bits().to_vec())
}

fn polygon_words(polygon: &SectionPolygon) -> Vec<u64> {
    let mut words = vec![polygon.cell as u64, polygon.vertices.len() as u64];
    words.extend(polygon.centre.to_bits());
    words.extend(polygon.vertices.iter().flat_map(|vertex| vertex.to_bits()));
    words.extend(polygon.velocity.to_bits());
    words.push(polygon.pressure.to_bits());
    words
}

fn statistics_words(s: &Statistics) -> Vec<u64> {
    let mut words = vec![s.used as u64];
    words.extend([s.area, s.minimum, s.maximum, s.mean, s.integral].map(f64::to_bits));
    words.extend([s.flux, s.positive_flux, s.negative_flux, s.absolute_flux].map(f64::to_bits));
    words.extend(s.weighted.map_or([0; 3], |w| [1, w.value.to_bits(), w.reverse_fraction.to_bits()]));
    words
}

/// Words that are still to be read.
pub(crate) struct Words<'a>(&'a [u64]);

impl Words<'_> {
    fn word(&mut self) -> Option<u64> {
        let (first, rest) = self.0.split_first()?;
        self.0 = rest;
        Some(*first)
    }

    fn count(&mut self) -> Option<usize> {
        usize::try_from(self.word()?).ok()
    }

    fn float(&mut self) -> Option<f64> {
        self.word().map(f64::from_bits)
    }

    /// Two signed numbers, each the two's complement in a word.
    fn millimetres(&mut self) -> Option<(i64, i64)> {
        Some((self.word()? as i64, self.word()? as i64))
    }

    fn vector(&mut self) -> Option<Vector> {
        Some(Vector::from_bits([self.word()?, self.word()?, self.word()?]))
    }

    /// As many as counted. A count beyond the words ends at their end.
    fn list<T>(&mut self, count: usize, read: fn(&mut Self) -> Option<T>) -> Option<Vec<T>> {
        (0..count).map(|_| read(self)).collect()
    }
}

/// What is read from all the words.
pub(crate) fn whole<T>(words: &[u64], read: fn(&mut Words) -> Option<T>) -> Option<T> {
    let mut left = Words(words);
    let value = read(&mut left)?;
    left.0.is_empty().then_some(value)
}

/// A cell, or the word for none.
fn cell(words: &mut Words) -> Option<Option<usize>> {
    match words.word()? {
        NONE => Some(None),
        cell => Some(Some(usize::try_from(cell).ok()?)),
    }
}

pub(crate) fn locate(words: &mut Words) -> Option<Option<Located>> {
    match (cell(words)?, words.word()?) {
        (None, 0) => Some(None),
        (Some(cell), 1) => Some(Some(Located { cell, position: Position::Edge })),
        (Some(cell), 2) => Some(Some(Located { cell, position: Position::Inside })),
        _ => None,
    }
}

pub(crate) fn velocity(words: &mut Words) -> Option<Option<Vector>> {
    match (words.word()?, words.vector()?) {
        (1, velocity) => Some(Some(velocity)),
        (0, velocity) if velocity.to_bits() == [0; 3] => Some(None),
        _ => None,
    }
}

pub(crate) fn streamline(words: &mut Words) -> Option<Streamline> {
    let count = words.count()?;
    Some(Streamline { points: words.list(count, Words::vector)? })
}

pub(crate) fn sheet(words: &mut Words) -> Option<Sheet> {
    let count = words.count()?;
    Some(Sheet { points: words.list(count, Words::millimetres)? })
}

pub(crate) fn rake(words: &mut Words) -> Option<Vec<Streamline>> {
    let count = words.count()?;
    words.list(count, streamline)
}

pub(crate) fn section(words: &mut Words) -> Option<Vec<SectionPolygon>> {
    let count = words.count()?;
    words.list(count, polygon)
}

fn polygon(words: &mut Words) -> Option<SectionPolygon> {
    let (cell, count) = (words.count()?, words.count()?);
    Some(SectionPolygon {
        cell,
        centre: words.vector()?,
        vertices: words.list(count, Words::vector)?,
        velocity: words.vector()?,
        pressure: words.float()?,
    })
}

pub(crate) fn statistics(words: &mut Words) -> Option<Statistics> {
    Some(Statistics {
        used: words.count()?,
        area: words.float()?,
        minimum: words.float()?,
        maximum: words.float()?,
        mean: words.float()?,
        integral: words.float()?,
        flux: words.float()?,
        positive_flux: words.float()?,
        negative_flux: words.float()?,
        absolute_flux: words.float()?,
        weighted: weighted(words)?,
    })
}

fn weighted(words: &mut Words) -> Option<Option<FluxWeighted>> {
    match (words.word()?, words.word()?, words.word()?) {
        (0, 0, 0) => Some(None),
        (1, value, reverse) => {
            let (value, reverse_fraction) = (f64::from_bits(value), f64::from_bits(reverse));
            Some(Some(FluxWeighted { value, reverse_fraction }))
        }
        _ => None,
    }
}

pub(crate) fn integrals(words: &mut Words) -> Option<Integrals> {
    Some(Integrals { area: words.float()?, mean_pressure: words.float()?, mean_speed: words.float()?, flux: words.float()? })
}

pub(crate) fn probe(words: &mut Words) -> Option<Option<Sample>> {
    let cell = cell(words)?;
    let (velocity, pressure) = (words.vector()?, words.float()?);
    match cell {
        Some(cell) => Some(Some(Sample { cell, velocity, pressure })),
        None if velocity.to_bits() == [0; 3] && pressure.to_bits() == 0 => Some(None),
        None => None,
    }
}
