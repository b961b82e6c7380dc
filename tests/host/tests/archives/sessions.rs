//! Calendars of every kind, good ones and those to be spoilt.

use std::ops::RangeInclusive;

use independent::calendar::{bytes_of, CALENDAR_BYTES};
use independent::dates::{first_day, third_friday, DAYS, MONTHS};

use crate::numbers::Random;

/// The bytes of a calendar under construction.
#[derive(Clone)]
pub struct Sessions([u8; CALENDAR_BYTES]);

/// The days among which a month needs a session.
pub fn window(month: u16) -> RangeInclusive<u16> {
    first_day(month)..=third_friday(month)
}

impl Sessions {
    /// A session on every day that is wanted.
    pub fn on(mut wanted: impl FnMut(u16) -> bool) -> Self {
        Self(bytes_of((0..DAYS).filter(|&day| wanted(day))))
    }

    /// One session in each month.
    fn one_a_month(day_of: impl FnMut(u16) -> u16) -> Self {
        Self(bytes_of((0..MONTHS).map(day_of)))
    }

    pub fn weekdays() -> Self {
        // Day 0 is a Saturday.
        Self::on(|day| day % 7 >= 2)
    }

    pub fn bytes(&self) -> &[u8] {
        &self.0
    }

    fn has(&self, day: u16) -> bool {
        self.0[usize::from(day / 8)] >> (day % 8) & 1 == 1
    }

    pub fn add(&mut self, day: u16) {
        self.0[usize::from(day / 8)] |= 1 << (day % 8);
    }

    /// Adds or removes a session.
    pub fn flip(&mut self, day: u16) {
        self.0[usize::from(day / 8)] ^= 1 << (day % 8);
    }

    pub fn remove(&mut self, days: RangeInclusive<u16>) {
        for day in days {
            self.0[usize::from(day / 8)] &= !(1 << (day % 8));
        }
    }

    /// Sets bits of the last byte, those after the last day.
    pub fn set_tail(&mut self, bits: u8) {
        self.0[CALENDAR_BYTES - 1] |= bits;
    }

    /// Gives a session to each month that lacks one.
    fn mended(mut self, random: &mut Random) -> Self {
        for month in 0..MONTHS {
            if !window(month).any(|day| self.has(day)) {
                self.add(day_of_window(month, random));
            }
        }
        self
    }
}

fn day_of_window(month: u16, random: &mut Random) -> u16 {
    let days = third_friday(month) - first_day(month) + 1;
    first_day(month) + random.below(days)
}

/// Calendars that pass the check, with what they are.
pub fn good(random: &mut Random) -> Vec<(&'static str, Sessions)> {
    vec![
        ("every day", Sessions::on(|_| true)),
        ("weekdays", Sessions::weekdays()),
        ("weekdays, few holidays", holidays(20, random)),
        ("weekdays, many holidays", holidays(3, random)),
        ("weekdays, empty weeks", empty_weeks(random)),
        ("weekdays, no third Friday", no_third_friday()),
        ("weekdays, windows closed early", closed_early(random)),
        ("first days only", Sessions::one_a_month(first_day)),
        ("third Fridays only", Sessions::one_a_month(third_friday)),
        ("one a month", any_a_month(random)),
        ("one a month, all after windows", after_windows(random)),
        ("one day in 2", any_day(2, random)),
        ("one day in 12", any_day(12, random)),
    ]
}

fn holidays(one_in: u16, random: &mut Random) -> Sessions {
    let weekdays = Sessions::weekdays();
    let open = Sessions::on(|day| weekdays.has(day) && !random.one_in(one_in));
    open.mended(random)
}

fn empty_weeks(random: &mut Random) -> Sessions {
    let mut sessions = Sessions::weekdays();
    for monday in (2..DAYS - 4).step_by(7) {
        if random.one_in(3) {
            sessions.remove(monday..=monday + 4);
        }
    }
    sessions.mended(random)
}

fn no_third_friday() -> Sessions {
    let mut sessions = Sessions::weekdays();
    for month in 0..MONTHS {
        sessions.remove(third_friday(month)..=third_friday(month));
    }
    sessions
}

/// In each window some day has a session and none after it has.
fn closed_early(random: &mut Random) -> Sessions {
    let mut sessions = Sessions::weekdays();
    for month in 0..MONTHS {
        let last_open = day_of_window(month, random);
        sessions.remove(last_open..=third_friday(month));
        sessions.add(last_open);
    }
    sessions
}

fn any_a_month(random: &mut Random) -> Sessions {
    Sessions::one_a_month(|month| day_of_window(month, random))
}

/// One session in each window, and one on every day that lies in no window.
fn after_windows(random: &mut Random) -> Sessions {
    let mut sessions = Sessions::on(|_| true);
    for month in 0..MONTHS {
        sessions.remove(window(month));
        sessions.add(day_of_window(month, random));
    }
    sessions
}

fn any_day(one_in: u16, random: &mut Random) -> Sessions {
    Sessions::on(|_| random.one_in(one_in)).mended(random)
}
