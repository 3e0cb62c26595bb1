//! The rules of the plan overlay written a second time, and a comparison of two overlays.
//!
//! Each call has a folder: what 01 and 02 say of it, written in the most direct way (`mod.rs`), its wrong versions, a table of functions with what is wrong of
//! each (`slips.rs`), and its comparison (`compare.rs`). Calls of one plan are compared together: an overlay under test implements `overlay::Overlay` and is
//! handed to `compare::compare` beside `reference::REFERENCE`. The others are handed to a comparison of their own: reports, nearest, surveys, crossings, rounds,
//! hours, and what the program says (`program`, and of its commands `check` and `picture` apart). All give their counts, or the first difference with the whole
//! case. `laws::try_laws` takes the overlay under test alone.

pub mod call;
pub mod check;
pub mod compare;
pub mod crossings;
pub mod hours;
pub mod known;
pub mod laws;
pub mod nearest;
pub mod order;
pub mod overlay;
pub mod page;
pub mod pair;
pub mod picture;
pub mod plan;
pub mod program;
pub mod reference;
pub mod report;
pub mod rounds;
pub mod row;
pub mod run;
pub mod seeds;
pub mod slips;
pub mod surveys;
pub mod text;

pub use report::compare as reports;
