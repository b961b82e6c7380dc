//! The working days of Warsaw by rule: weekdays without the public holidays, Good Friday, and the
//! days before Christmas and the New Year. What the exchange announces for a year may differ.

use std::collections::BTreeSet;
use std::ops::Range;

use crate::dates::{first_day, DAYS};

const YEARS: Range<u16> = 2000..2100;

pub fn working_days() -> impl Iterator<Item = u16> {
    let holidays: BTreeSet<u16> = YEARS.flat_map(holidays).collect();
    (0..DAYS).filter(move |day| is_weekday(*day) && !holidays.contains(day))
}

/// Day 0 is a Saturday.
fn is_weekday(day: u16) -> bool {
    day % 7 >= 2
}

fn holidays(year: u16) -> Vec<u16> {
    const FIXED: [(u16, u16); 10] = [
        (1, 1),
        (5, 1),
        (5, 3),
        (8, 15),
        (11, 1),
        (11, 11),
        (12, 24),
        (12, 25),
        (12, 26),
        (12, 31),
    ];
    let fixed = FIXED.map(|(month_of_year, day_of_month)| day(year, month_of_year, day_of_month));
    let easter = easter_sunday(year);
    let (good_friday, easter_monday, corpus_christi) = (easter - 2, easter + 1, easter + 60);
    let movable = [good_friday, easter_monday, corpus_christi];
    [fixed.as_slice(), &movable, &since_2000(year)].concat()
}

/// Epiphany, a holiday again since 2011, and the centenary's holiday of 2018.
fn since_2000(year: u16) -> Vec<u16> {
    match year {
        ..=2010 => vec![],
        2018 => vec![day(year, 1, 6), day(year, 11, 12)],
        _ => vec![day(year, 1, 6)],
    }
}

fn day(year: u16, month_of_year: u16, day_of_month: u16) -> u16 {
    first_day(12 * (year - 2000) + month_of_year - 1) + day_of_month - 1
}

/// Butcher's rule, with what is the same in all years from 2000 to 2099 worked in.
fn easter_sunday(year: u16) -> u16 {
    let golden = year % 19;
    let moon = (19 * golden + 24) % 30;
    let weekday = (32 + year % 100 / 4 * 2 - year % 4 - moon) % 7;
    let late = (golden + 11 * moon + 22 * weekday) / 451;
    day(year, 3, 22) + moon + weekday - 7 * late
}

#[cfg(test)]
mod tests {
    use super::*;

    #[test]
    fn easter_sundays() {
        let dates = [
            (2024, 3, 31),
            (2025, 4, 20),
            (2038, 4, 25),
            (2049, 4, 18),
            (2076, 4, 19),
        ];
        for (year, month_of_year, day_of_month) in dates {
            assert_eq!(easter_sunday(year), day(year, month_of_year, day_of_month));
        }
    }
}
