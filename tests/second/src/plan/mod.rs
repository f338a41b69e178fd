//! Which cases a run tries, in which order and how many.

mod library;
mod program;
mod query;

pub use library::{LibraryPlan, Room};
pub use program::ProgramPlan;
