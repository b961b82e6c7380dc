//! Document 01's calendar, grids, names and register, and document 02's file of a day's new series,
//! written a second time.
//!
//! It shares no code, table or definition with the proved crates: the host tests compare the two,
//! and the benchmark takes its speed for that of ordinary Rust.

pub mod calendar;
pub mod calls;
pub mod conformance;
pub mod dates;
#[cfg(test)]
mod desk;
pub mod files;
pub mod grid;
pub mod judge;
pub mod names;
// What the table of cases has to show. No answer depends on it.
#[cfg(test)]
mod numbers;
pub mod register;
pub mod warsaw;

pub use calendar::{live_months, tier, Calendar, CalendarError};
pub use calls::Listing;
pub use files::FileError;
pub use grid::Tier;
pub use judge::History;
pub use names::{NameError, OptionType, Series};
pub use register::{Register, RegisterError};
