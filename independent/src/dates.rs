//! Days and months, from one walk through every day of the hundred years.

use std::ops::Range;
use std::sync::LazyLock;

/// Days 0 to 36,524: 1 January 2000 to 31 December 2099.
pub const DAYS: u16 = 36_525;
/// Months 0 to 1,199: January 2000 to December 2099.
pub const MONTHS: u16 = 1_200;

const YEARS: Range<u16> = 2000..2100;

/// What the walk writes down as it goes.
#[derive(Default)]
struct Almanac {
    /// The first day of each month, then the day after the last month.
    first_days: Vec<u16>,
    third_fridays: Vec<u16>,
    /// The month of each day.
    months: Vec<u16>,
}

static ALMANAC: LazyLock<Almanac> = LazyLock::new(walk);

// Weekdays count from Monday, 0, to Sunday, 6.
const FRIDAY: u16 = 4;
const SATURDAY: u16 = 5;

fn walk() -> Almanac {
    let mut almanac = Almanac::default();
    let mut day = 0;
    let mut weekday = SATURDAY;
    for year in YEARS {
        for month_of_year in 1..=12 {
            almanac.first_days.push(day);
            let mut fridays = 0;
            for _ in 0..days_in_month(year, month_of_year) {
                almanac.months.push(12 * (year - 2000) + month_of_year - 1);
                if weekday == FRIDAY {
                    fridays += 1;
                    if fridays == 3 {
                        almanac.third_fridays.push(day);
                    }
                }
                day += 1;
                weekday = (weekday + 1) % 7;
            }
        }
    }
    almanac.first_days.push(day);
    almanac
}

fn days_in_month(year: u16, month_of_year: u16) -> u16 {
    match month_of_year {
        2 if is_leap(year) => 29,
        2 => 28,
        4 | 6 | 9 | 11 => 30,
        _ => 31,
    }
}

/// The Gregorian rule in full; within these years it is document 01's.
fn is_leap(year: u16) -> bool {
    year.is_multiple_of(4) && (!year.is_multiple_of(100) || year.is_multiple_of(400))
}

/// The first day of a month up to 1,200; for 1,200 the day after the last.
pub fn first_day(month: u16) -> u16 {
    ALMANAC.first_days[usize::from(month)]
}

/// The third Friday of a month up to 1,199.
pub fn third_friday(month: u16) -> u16 {
    ALMANAC.third_fridays[usize::from(month)]
}

/// The month in which a day up to 36,524 lies.
pub fn month_of(day: u16) -> u16 {
    ALMANAC.months[usize::from(day)]
}

/// For every month in order its window, from first day to third Friday, where it needs a session.
pub(crate) fn windows() -> impl Iterator<Item = (u16, u16)> {
    let first_days = ALMANAC.first_days.iter().copied();
    first_days.zip(ALMANAC.third_fridays.iter().copied())
}

#[cfg(test)]
mod tests {
    use super::*;

    /// Sakamoto's weekday of a date, Sunday 0.
    fn weekday_of(year: u16, month_of_year: u16, day_of_month: u16) -> u16 {
        const SHIFT: [u16; 12] = [0, 3, 2, 5, 0, 3, 5, 1, 4, 6, 2, 4];
        let year = year - u16::from(month_of_year < 3);
        let shift = SHIFT[usize::from(month_of_year - 1)];
        (year + year / 4 - year / 100 + year / 400 + shift + day_of_month) % 7
    }

    #[test]
    fn the_walk_covers_the_hundred_years() {
        assert_eq!(ALMANAC.months.len(), usize::from(DAYS));
        assert_eq!(ALMANAC.third_fridays.len(), usize::from(MONTHS));
        assert_eq!(first_day(0), 0);
        assert_eq!(first_day(MONTHS), DAYS);
        assert_eq!(month_of(DAYS - 1), MONTHS - 1);
    }

    #[test]
    fn third_fridays_are_fridays_from_the_15th_to_the_21st() {
        for month in 0..MONTHS {
            let day_of_month = third_friday(month) - first_day(month) + 1;
            assert!((15..=21).contains(&day_of_month));
            let (year, month_of_year) = (2000 + month / 12, month % 12 + 1);
            assert_eq!(weekday_of(year, month_of_year, day_of_month), 5);
        }
    }

    #[test]
    fn worked_examples() {
        assert_eq!(third_friday(317), 9_666);
        assert_eq!(third_friday(303), 9_239);
    }
}
