//! The plan overlay: up to six layers of upright rectangles in whole millimetres, edges included, laid over each other. Its table has every combination of one
//! rectangle a layer that has a common point, each once, in a fixed order. The work is done by a library that is proved to answer so; this crate is its face
//! for Rust, and `docs/MANUAL.md` of the repository says what each answer means on site.
//!
//! A [`Plan`] is accepted when it is made, so the calls on it are refused only for what is handed to them beside it. A [`Cause`] says why.
//!
//! ```
//! use overlay::{Layer, Plan, Rect};
//!
//! // Plan D of the scope paper.
//! let first = Layer::new([Rect::new(0, 0, 1000, 1000), Rect::new(1000, 0, 2000, 500)]);
//! let second = Layer::new([Rect::new(500, 500, 1500, 1500)]);
//! let plan = Plan::new(&[first, second])?;
//!
//! // The whole table at once, if it has no more than 100 rows.
//! let run = plan.run(100)?;
//! assert_eq!(run.rows.iter().collect::<Vec<_>>(), [[0, 0], [1, 0]]);
//! assert_eq!((run.trials, run.ground.to_string().as_str()), (4, "0.25"));
//!
//! // Or page by page: here by two trials and ten rows at most.
//! let pages: Vec<_> = plan.pages(2, 10).collect();
//! assert_eq!(pages.len(), 2);
//!
//! // One row: its common ground and the kind of it.
//! let common = plan.common(&[1, 0]).expect("a row");
//! assert_eq!((common.rect, common.kind.letter()), (Rect::new(1000, 500, 1500, 500), 'E'));
//! # Ok::<(), overlay::Cause>(())
//! ```
//!
//! # Linking
//!
//! The library is `libcapi.a`, which `./build capi` writes to `target/staticlib` of the repository. It is looked for in the folder that the environment
//! names by `OVERLAY_LIB`, then there, and else as `liboverlay.a` where the linker looks. A library of another version does not link.

#![deny(missing_docs)]

pub mod calls;
mod cause;
mod clients;
mod plan;
mod survey;
mod sys;
mod timed;
mod values;
mod walk;

pub use cause::{Cause, CAUSES};
pub use clients::{Clients, Served};
pub use plan::{CrossingReport, Layer, Plan};
pub use survey::{cover_records, Strip};
pub use timed::{Timed, Window, WEEK};
pub use values::{Class, Common, End, Kind, Near, Rect, Row, Total};
pub use walk::{Page, Pages, Record, Rows, Run, Stop, Ticket};

/// The version of the interface that this crate is written for.
pub const VERSION: u32 = 14;

/// The most layers of a plan.
pub const MOST_LAYERS: usize = 6;

/// The most rectangles of a layer.
pub const MOST_SIZE: usize = 512;

/// The greatest coordinate in millimetres, either way of 0.
pub const MOST_COORDINATE: i32 = 10_000_000;

/// The greatest margin in millimetres.
pub const MOST_MARGIN: u32 = 50_000;

/// The most rows of one table.
pub const MOST_ROWS: usize = 1_000_000;

/// The most clients of a round.
pub const MOST_CLIENTS: usize = 16;

/// The bytes of the longest plan text.
pub const MOST_TEXT: usize = 138_343;
