//! The calendars that the check is timed on.

use std::collections::BTreeSet;
use std::ops::Range;

use independent::calendar::{bytes_of, CALENDAR_BYTES};
use independent::dates::{first_day, third_friday, MONTHS};
use independent::warsaw::working_days;

type Calendar = [u8; CALENDAR_BYTES];

pub fn weekdays_with_holidays() -> Calendar {
    bytes_of(working_days())
}

/// As before, and without the week, Monday to Friday, of the second Monday of every month.
pub fn with_empty_weeks() -> Calendar {
    let empty: BTreeSet<u16> = (0..MONTHS).flat_map(week_of_second_monday).collect();
    bytes_of(working_days().filter(|day| !empty.contains(day)))
}

/// The longest way to a session in every month.
pub fn third_fridays_only() -> Calendar {
    bytes_of((0..MONTHS).map(third_friday))
}

/// In every month sessions only before the 15 days up to its third Friday; where there are no such
/// days, on the first.
pub fn early_days_only() -> Calendar {
    bytes_of((0..MONTHS).flat_map(|month| {
        let first = first_day(month);
        first..(third_friday(month) - 14).max(first + 1)
    }))
}

fn week_of_second_monday(month: u16) -> Range<u16> {
    let mut mondays = (first_day(month)..).filter(|day| day % 7 == 2);
    let second = mondays.nth(1).expect("a month has two Mondays");
    second..second + 5
}
