// Made from causes.txt by causes.py.

use std::error::Error;
use std::fmt::{self, Display, Formatter};

/// Why a call was refused. Nothing was changed by it.
///
/// The causes have the names of `include/sindhopul.h`, and their order is that of their numbers,
/// from 11 to 31. Where several hold, the header says for each call which is told.
#[derive(Debug, Clone, Copy, PartialEq, Eq, Hash)]
#[non_exhaustive]
pub enum Refusal {
    /// 11: the calendar is not 4566 bytes long.
    CalendarLength,
    /// 12: the calendar has a session after day 36524.
    CalendarTail,
    /// 13: a month has no session from its first day to its third Friday.
    CalendarMonth {
        /// The first such month.
        month: u16,
    },
    /// 14: the register is not 11264 bytes long.
    RegisterLength,
    /// 15: the register is neither empty nor well formed.
    RegisterForm,
    /// 16: the register to start is running.
    Running,
    /// 17: the register is empty.
    Empty,
    /// 18: there is no session on the day of the start.
    StartDay,
    /// 19: the day is not the first session day after the register's.
    SessionDay,
    /// 20: the first live month would be after March 2099.
    TooLate,
    /// 21: the close is below 9000 or above 954999.
    Close,
    /// 22: the month to announce is not live, or expires on the register's day.
    AnnounceMonth,
    /// 23: the price to announce is not on the grid that its month has on the next session day.
    AnnouncePrice,
    /// 24: the price to announce lies within its month's ladder, or waits already.
    AnnounceKnown,
    /// 25: 32 announcements wait.
    AnnounceFull,
    /// 26: the month whose rows are wanted is not live.
    RowsMonth,
    /// 27: the name is not 11 bytes long.
    NameLength,
    /// 28: there is no series of this month and price.
    NameSeries,
    /// 29: a byte of the name cannot stand at its place.
    NameByte {
        /// The first such place, 0 to 10.
        place: u16,
    },
    /// 30: the output buffer is too short.
    OutputLength,
    /// 31: the bytes are no file of series.
    FileForm {
        /// The lowest place at fault.
        place: u32,
    },
}

impl Refusal {
    /// What a call's number tells, with the values beside it.
    pub(crate) fn unless_accepted(number: u16, values: &[u32]) -> Result<(), Self> {
        Err(match number {
            0 => return Ok(()),
            11 => Self::CalendarLength,
            12 => Self::CalendarTail,
            13 => Self::CalendarMonth {
                month: values[0] as u16,
            },
            14 => Self::RegisterLength,
            15 => Self::RegisterForm,
            16 => Self::Running,
            17 => Self::Empty,
            18 => Self::StartDay,
            19 => Self::SessionDay,
            20 => Self::TooLate,
            21 => Self::Close,
            22 => Self::AnnounceMonth,
            23 => Self::AnnouncePrice,
            24 => Self::AnnounceKnown,
            25 => Self::AnnounceFull,
            26 => Self::RowsMonth,
            27 => Self::NameLength,
            28 => Self::NameSeries,
            29 => Self::NameByte {
                place: values[0] as u16,
            },
            30 => Self::OutputLength,
            31 => Self::FileForm { place: values[0] },
            _ => unreachable!("no call returns {number}"),
        })
    }

    /// The cause's number, as the C interface returns it.
    pub fn number(self) -> u16 {
        match self {
            Self::CalendarLength => 11,
            Self::CalendarTail => 12,
            Self::CalendarMonth { .. } => 13,
            Self::RegisterLength => 14,
            Self::RegisterForm => 15,
            Self::Running => 16,
            Self::Empty => 17,
            Self::StartDay => 18,
            Self::SessionDay => 19,
            Self::TooLate => 20,
            Self::Close => 21,
            Self::AnnounceMonth => 22,
            Self::AnnouncePrice => 23,
            Self::AnnounceKnown => 24,
            Self::AnnounceFull => 25,
            Self::RowsMonth => 26,
            Self::NameLength => 27,
            Self::NameSeries => 28,
            Self::NameByte { .. } => 29,
            Self::OutputLength => 30,
            Self::FileForm { .. } => 31,
        }
    }
}

impl Display for Refusal {
    fn fmt(&self, f: &mut Formatter) -> fmt::Result {
        write!(f, "refused ({}): ", self.number())?;
        match *self {
            Self::CalendarLength => f.write_str("the calendar is not 4566 bytes long"),
            Self::CalendarTail => f.write_str("the calendar has a session after day 36524"),
            Self::CalendarMonth { month } => {
                let (year, month_of_year) = (2000 + month / 12, month % 12 + 1);
                write!(
                    f,
                    "month {month} ({year}-{month_of_year:02}) has no session from its first day \
                     to its third Friday"
                )
            }
            Self::RegisterLength => f.write_str("the register is not 11264 bytes long"),
            Self::RegisterForm => f.write_str("the register is neither empty nor well formed"),
            Self::Running => f.write_str("the register to start is running"),
            Self::Empty => f.write_str("the register is empty"),
            Self::StartDay => f.write_str("there is no session on the day of the start"),
            Self::SessionDay => {
                f.write_str("the day is not the first session day after the register's")
            }
            Self::TooLate => f.write_str("the first live month would be after March 2099"),
            Self::Close => f.write_str("the close is below 9000 or above 954999"),
            Self::AnnounceMonth => {
                f.write_str("the month to announce is not live, or expires on the register's day")
            }
            Self::AnnouncePrice => f.write_str(
                "the price to announce is not on the grid that its month has on the next session \
                 day",
            ),
            Self::AnnounceKnown => f.write_str(
                "the price to announce lies within its month's ladder, or waits already",
            ),
            Self::AnnounceFull => f.write_str("32 announcements wait"),
            Self::RowsMonth => f.write_str("the month whose rows are wanted is not live"),
            Self::NameLength => f.write_str("the name is not 11 bytes long"),
            Self::NameSeries => f.write_str("there is no series of this month and price"),
            Self::NameByte { place } => {
                write!(
                    f,
                    "the byte at place {place} of the name cannot stand there"
                )
            }
            Self::OutputLength => f.write_str("the output buffer is too short"),
            Self::FileForm { place } => {
                write!(f, "the bytes are no file of series: at place {place}")
            }
        }
    }
}

impl Error for Refusal {}

#[cfg(test)]
mod tests;
