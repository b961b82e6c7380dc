//! The proved register of listed WIG20 options: which strikes are listed today, since when, and
//! what the series are called.
//!
//! A [`Calendar`] is checked once, when it is made. A [`Register`] begins empty, is started on a
//! session day and then moved from session to session with the close before each. Its file names
//! the series that are new on the day; a [`SeriesFile`] is one that was read. Whatever cannot be
//! done is a [`Refusal`], and leaves the register as it was.
//!
//! Days count from 0, 1 January 2000, and months from 0, January 2000; closes are in hundredths of
//! an index point, prices of strikes in whole points.
//!
//! ```
//! use sindhopul::{Calendar, OptionType, Refusal, Register};
//!
//! // Day 0 is a Saturday: a session on every weekday of the hundred years.
//! let calendar = Calendar::with_sessions((0..36_525).filter(|day| day % 7 >= 2))?;
//!
//! // Monday, 16 November 2026, after a close of 2413.37.
//! let mut register = Register::new();
//! let listed = register.start(&calendar, 9_816, 241_337)?;
//! assert_eq!(listed.rows, 94);
//!
//! // The exchange announces a strike of December 2026, and the next session lists it.
//! register.announce(&calendar, 323, 3_100)?;
//! let listed = register.session(&calendar, 9_817, 241_502)?;
//! assert_eq!(listed.added, 6);
//!
//! let highest = register.rows(&calendar, 323)?.last().expect("a live month has rows");
//! assert_eq!(highest.price, 3_100);
//! assert_eq!(highest.name(OptionType::Call).as_str(), "OW20L263100");
//!
//! // The same session cannot come twice.
//! let refusal = register.session(&calendar, 9_817, 241_502).unwrap_err();
//! assert_eq!(refusal, Refusal::SessionDay);
//! assert_eq!(refusal.number(), 19);
//! # Ok::<(), Refusal>(())
//! ```

#![warn(missing_docs)]
#![deny(unsafe_code)]

mod calendar;
mod file;
#[allow(unsafe_code)]
pub mod raw;
mod refusal;
mod register;
mod rows;
mod series;

pub use calendar::{Calendar, CALENDAR_BYTES};
pub use file::{NewSeries, SeriesFile};
pub use refusal::Refusal;
pub use register::{Listed, Register, REGISTER_BYTES};
pub use rows::{Origin, Row, Rows};
pub use series::{Name, OptionType, Series};

/// The README's example, so that it is tried.
#[cfg(doctest)]
#[doc = include_str!("../README.md")]
struct Readme;
