//! Points, vectors and planes, laid out as include/hookyellow.h says.

/// A point or a vector.
#[repr(C)]
#[derive(Clone, Copy, Debug, Default, PartialEq)]
pub struct Vector {
    /// Along x.
    pub x: f64,
    /// Along y.
    pub y: f64,
    /// Along z; a 2D case has its heights here.
    pub z: f64,
}

impl Vector {
    /// The vector of three numbers.
    pub const fn new(x: f64, y: f64, z: f64) -> Self {
        Self { x, y, z }
    }

    /// The bits of the three numbers: equal for equal NaNs, unlike for zeros of unlike sign.
    pub fn to_bits(self) -> [u64; 3] {
        [self.x.to_bits(), self.y.to_bits(), self.z.to_bits()]
    }

    pub(crate) fn from_bits([x, y, z]: [u64; 3]) -> Self {
        Self::new(f64::from_bits(x), f64::from_bits(y), f64::from_bits(z))
    }
}

impl From<[f64; 3]> for Vector {
    fn from([x, y, z]: [f64; 3]) -> Self {
        Self::new(x, y, z)
    }
}

/// The plane of a section: a point of it and two axes, orthonormal to 1e-7 (else 36). Its normal is `u` × `v`.
#[repr(C)]
#[derive(Clone, Copy, Debug, PartialEq)]
pub struct SectionPlane {
    /// A point of the plane, no coordinate beyond 1,048,576 in size (else 37).
    pub origin: Vector,
    /// The first axis.
    pub u: Vector,
    /// The second axis.
    pub v: Vector,
}

impl SectionPlane {
    /// The plane through `origin` with the axes `u` and `v`.
    pub const fn new(origin: Vector, u: Vector, v: Vector) -> Self {
        Self { origin, u, v }
    }
}
