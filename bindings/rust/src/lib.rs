//! Streamlines and plane sections of the air flow in a room, and with each the cells that it was made from.
//!
//! A [`Case`] holds a mesh with a velocity and a pressure in each cell, and in edition 2 a zone; a [`Request`] asks for a cell,
//! a velocity, streamlines or a plane section, and [`job`] answers a list of requests. Each request can also be called alone:
//! [`locate`], [`velocity`], [`streamline`], [`rake`] and [`sheet`] on a 2D case, [`section`], [`statistics`], [`integrals`] and
//! [`probe`] on a 3D one.
//!
//! With the answers come the cells whose values were read ([`Outcome::cells_read`]). A value of any other cell had no part in
//! them: with another value there, every answer would be the same, bit for bit.
//!
//! Two unit squares side by side, with air that moves to the right at speed 1 and 3:
//!
//! ```
//! use hookyellow::{job, Answer, Case, Cell, Dimension, Request, Vector, Workspace};
//!
//! let case = Case::builder(Dimension::Two)
//!     .points([[0., 0., 0.], [1., 0., 0.], [2., 0., 0.], [0., 1., 0.], [1., 1., 0.], [2., 1., 0.]])
//!     .cells([Cell::Polygon(vec![0, 1, 4, 3]), Cell::Polygon(vec![1, 2, 5, 4])])
//!     .velocities([[1., 0., 0.], [3., 0., 0.]])
//!     .pressures([0., 0.])
//!     .build()?;
//! let request = Request::Velocity { point: Vector::new(0.75, 0.5, 0.), all_cells: false };
//! let outcome = job(&case, &[request], &mut Workspace::new())?;
//! assert_eq!(outcome.answers, [Ok(Answer::Velocity(Some(Vector::new(1.5, 0., 0.))))]);
//! assert_eq!(outcome.cells_read(), [0, 1]);
//! # Ok::<(), Box<dyn std::error::Error>>(())
//! ```
//!
//! Whatever the bytes of a case hold, a job ends with answers or with a numbered [`Refusal`], and a request that cannot be answered
//! has a [`RequestRefusal`]:
//!
//! ```
//! use hookyellow::{locate, Case, Refusal, Vector, Workspace};
//!
//! let refusal = locate(&Case::from_bytes(vec![7; 100]), Vector::default(), false, &mut Workspace::new()).unwrap_err();
//! assert_eq!(refusal, Refusal::Trailer);
//! assert_eq!(refusal.number(), 1);
//! ```
//!
//! Points are located by bins, as in FLURSYS, and some cells at the far border are listed in no
//! bin. With `all_cells` every cell is searched: (1.5, 0.5) lies inside the right square, and a
//! line from it goes on up to the far side. A point on a side of its cell is told apart from one
//! inside: (1, 0.5) is on the side that both squares share; it locates in the lower one, on an edge.
//!
//! ```
//! # use hookyellow::{Case, Cell, Dimension};
//! use hookyellow::{locate, streamline, Direction, LineOptions, Located, Position, Vector, Workspace};
//! # let case = Case::builder(Dimension::Two)
//! #     .points([[0., 0., 0.], [1., 0., 0.], [2., 0., 0.], [0., 1., 0.], [1., 1., 0.], [2., 1., 0.]])
//! #     .cells([Cell::Polygon(vec![0, 1, 4, 3]), Cell::Polygon(vec![1, 2, 5, 4])])
//! #     .velocities([[1., 0., 0.], [3., 0., 0.]])
//! #     .pressures([0., 0.])
//! #     .build()?;
//!
//! let (point, workspace) = (Vector::new(1.5, 0.5, 0.), &mut Workspace::new());
//! assert_eq!(locate(&case, point, false, workspace)?.answer, Ok(None));
//! let right = locate(&case, point, true, workspace)?.answer;
//! assert_eq!(right, Ok(Some(Located { cell: 1, position: Position::Inside })));
//! let shared = locate(&case, Vector::new(1., 0.5, 0.), true, workspace)?.answer;
//! assert_eq!(shared, Ok(Some(Located { cell: 0, position: Position::Edge })));
//!
//! let options = LineOptions { step_size: 0.25, max_steps: 10, max_length: 9., stagnation_speed: 0., all_cells: true };
//! let line = streamline(&case, point, Direction::Forward, options, workspace)?.answer?;
//! assert_eq!(line.points.iter().map(|p| p.x).collect::<Vec<_>>(), [1.5, 1.75, 2.]);
//! # Ok::<(), Box<dyn std::error::Error>>(())
//! ```
//!
//! Rooms, plenums and enclosures are told apart by a zone for each cell ([`CaseBuilder::zones`]). A
//! line ends before its first point in another zone than its seed's; where a side is shared, a point
//! on it is of the cell that it locates in. The same line, with the right square in a zone of its own:
//!
//! ```
//! # use hookyellow::{streamline, Case, Cell, Dimension, Direction, LineOptions, Vector, Workspace};
//! let case = Case::builder(Dimension::Two)
//! #     .points([[0., 0., 0.], [1., 0., 0.], [2., 0., 0.], [0., 1., 0.], [1., 1., 0.], [2., 1., 0.]])
//! #     .cells([Cell::Polygon(vec![0, 1, 4, 3]), Cell::Polygon(vec![1, 2, 5, 4])])
//! #     .velocities([[1., 0., 0.], [3., 0., 0.]])
//! #     .pressures([0., 0.])
//!     // points, cells, velocities and pressures as above
//!     .zones([0, 1])
//!     .build()?;
//! let options = LineOptions { step_size: 0.25, max_steps: 10, max_length: 9., stagnation_speed: 0., all_cells: true };
//! let seed = Vector::new(0.5, 0.5, 0.);
//! let line = streamline(&case, seed, Direction::Forward, options, &mut Workspace::new())?.answer?;
//! assert_eq!(line.points.iter().map(|p| p.x).collect::<Vec<_>>(), [0.5, 0.75, 1.]);
//! # Ok::<(), Box<dyn std::error::Error>>(())
//! ```
//!
//! A program that has the parts of a case file at hand writes it with [`write_case`], and
//! [`Case::in_edition`] takes a case from one edition to the other. A builder's bytes are the
//! writer's: no other code of this crate lays out a file.
//!
//! The formats are those of docs/FORMAT.md; docs/01-scope.md says what each answer is, and
//! docs/02-change-requests.md what a sheet is, what `all_cells` asks for, when a point is on an
//! edge, what zones are for and what the writer and the converter refuse. The work is done by the
//! proved code in the static library that `tools/staticlib capi` writes; [`raw`] has its functions as
//! they are.
#![warn(missing_docs)]

#[macro_use]
mod call;
mod answer;
mod case;
mod geometry;
pub mod raw;
mod refusal;
mod request;
mod run;
mod workspace;
mod write;

pub use answer::{Answer, FluxWeighted, Integrals, Located, Position, Sample, SectionPolygon, Sheet, Statistics, Streamline};
pub use case::{BuildError, Case, CaseBuilder, Cell, Dimension};
pub use geometry::{SectionPlane, Vector};
pub use refusal::{Refusal, RequestRefusal};
pub use request::{Direction, Field, LineOptions, Request};
pub use run::{integrals, job, locate, probe, rake, section, sheet, statistics, streamline, velocity, Outcome, Single};
pub use workspace::{needs, Needs, Workspace};
pub use write::{convert, write_case, CaseParts, Counts};
