//! The refusals, with their numbers and what they mean.
use std::fmt;

macro_rules! refusals {
    ($(#[$about:meta])* $name:ident { $($number:literal $variant:ident $meaning:literal,)* }) => {
        $(#[$about])*
        #[derive(Clone, Copy, Debug, PartialEq, Eq, Hash)]
        pub enum $name {
            $(#[doc = concat!(stringify!($number), ": ", $meaning, ".")] $variant,)*
            /// A number that is not listed, or 0 for an answer that is not of the format. The proved code gives neither: another
            /// library was linked.
            Unknown(u64),
        }

        impl $name {
            /// Every listed one, by rising number.
            pub const ALL: &'static [Self] = &[$(Self::$variant),*];

            /// The refusal with a number.
            pub fn from_number(number: u64) -> Self {
                match number {
                    $($number => Self::$variant,)*
                    other => Self::Unknown(other),
                }
            }

            /// The number.
            pub fn number(self) -> u64 {
                match self {
                    $(Self::$variant => $number,)*
                    Self::Unknown(number) => number,
                }
            }

            /// What it means, in words.
            pub fn meaning(self) -> &'static str {
                match self {
                    $(Self::$variant => $meaning,)*
                    Self::Unknown(_) => "not given by the proved code: another library was linked",
                }
            }
        }

        impl fmt::Display for $name {
            fn fmt(&self, f: &mut fmt::Formatter<'_>) -> fmt::Result {
                write!(f, "refusal {}: {}", self.number(), self.meaning())
            }
        }

        impl std::error::Error for $name {}
    };
}

refusals! {
    /// Why a whole job is refused, or a case file that was to be written or converted. A job then
    /// changes neither answers nor marks, and the others no byte of the output.
    Refusal {
        1 Trailer "the trailer is wrong: under 32 bytes, in edition 2 under 36, a dimension word other than 2, 3, 102 or 103, or offsets or a length that do not agree; to be written, an edition other than 1 and 2, a dimension other than 2 and 3, or a part that is not as long as its count says; to be converted, an edition other than 1 and 2, or the file's own",
        2 Counts "more than 65,536 points, 16,384 cells or 1,048,576 definition words",
        3 Definitions "an unknown kind of cell, an inner count over its limit, or words that are not exactly one record for each cell",
        4 WorkArea "too few words or floats in the work area",
        5 Marks "fewer marks than cells",
        6 Requests "request bytes that are no multiple of 128, or more than 4,096 requests",
        7 Answers "fewer than 2 answer words for each request",
        8 NoCells "a mesh without cells",
        9 NonFinitePoint "a coordinate that is not finite",
        10 FarPoint "a coordinate beyond 1,048,576 in size",
        11 InvalidCell "a polygon of fewer than 3 points, a polyhedron of fewer than 4 faces, or a kind of cell that is not of the dimension",
        12 PointNumber "a point number that is not below the number of points",
        13 DegenerateFace "a face without length or area, or of fewer than 3 points in a polyhedron",
        14 NonManifoldFace "a face that is used more than twice",
        15 ZeroVolume "a cell without area or volume",
        16 FaceOrientation "a face whose normal does not lead away from the centre of its owner, or not toward the centre of its neighbour",
        17 Disconnected "a mesh that is not connected",
        18 FlatBounds "a 2D mesh whose bounds are flat",
        19 BinCount "a 2D mesh that needs more than 65,536 bins along an axis",
        45 Zone "a zone above 255; it comes after 3 and before 4",
        46 NonzeroZone "a zone other than 0, and a file of edition 1 to be written",
        47 Output "fewer output bytes than the file has",
    }
}

refusals! {
    /// Why one request of an accepted job is refused. Under 30 to 38 it reads no cell; under 39 to 44 what it read counts.
    RequestRefusal {
        30 Malformed "an unknown code, an unused word that is not zero, or a direction above 1",
        31 Dimension "locate, velocity, streamline, rake and sheet need a 2D case, section, statistics, integrals and probe a 3D one",
        32 FewSeeds "a rake of fewer than 2 seeds",
        33 Limit "more than 64 seeds or 65,536 steps",
        34 LineOptions "a step size, maximum length or stagnation speed that is not finite or out of range, or no steps",
        35 Seed "a seed that locates nowhere",
        36 Plane "an origin that is not finite, or axes that are not finite and orthonormal",
        37 FarOrigin "an origin coordinate beyond 1,048,576 in size",
        38 Field "a field above 5",
        39 NonFiniteSample "a velocity or pressure on the section that is not finite",
        40 NonFiniteFlux "a polygon of the section whose flux is not finite",
        41 NoStatistics "no statistics: a section without area, or a sum over it that is not finite",
        42 InvalidSample "a polygon of the section whose area or speed is not finite",
        43 NoIntegrals "no integrals: a section without area, or a sum over it that is not finite",
        44 AnswerSpace "an answer that does not fit in the answer words that are left",
    }
}
