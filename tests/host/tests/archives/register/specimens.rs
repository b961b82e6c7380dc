//! Registers that lists of calls leave behind, made by the independent engine.

use independent::dates::third_friday;
use independent::grid::{HIGHEST_CLOSE, LOWEST_CLOSE};
use independent::register::{LATEST_FIRST_MONTH, MOST_ANNOUNCEMENTS, MOST_ROWS, REGISTER_BYTES};
use independent::{calls, grid, live_months, Calendar, Register, Tier};

use crate::sessions::Sessions;

/// The third Friday of June 2026, and its month.
pub const JUNE_EXPIRY: u16 = 9_666;
pub const JUNE: u16 = 317;

pub const CLOSE: u32 = 241_337;

pub struct Specimen {
    pub name: &'static str,
    pub sessions: Sessions,
    pub bytes: [u8; REGISTER_BYTES],
}

pub fn all() -> [Specimen; 7] {
    [
        empty("an empty register"),
        started(),
        expiry_day(),
        all_places_taken(),
        after_a_year(),
        full(),
        last_day(),
    ]
}

fn empty(name: &'static str) -> Specimen {
    Specimen {
        name,
        sessions: Sessions::weekdays(),
        bytes: [0; REGISTER_BYTES],
    }
}

pub fn started() -> Specimen {
    empty("a register just started").start(JUNE_EXPIRY - 3, CLOSE)
}

/// Announcements wait for all months but the one that expires.
fn expiry_day() -> Specimen {
    let mut specimen = empty("a register on an expiry day").start(JUNE_EXPIRY, CLOSE);
    for month in &live_months(JUNE)[1..] {
        specimen = specimen.announce(*month, 3_000).announce(*month, 1_500);
    }
    specimen
}

pub fn all_places_taken() -> Specimen {
    let mut specimen = empty("a register with 32 waiting").start(JUNE_EXPIRY - 3, CLOSE);
    let above = grid::between(Tier::N, 3_000, u16::MAX);
    for &price in &above[..MOST_ANNOUNCEMENTS] {
        specimen = specimen.announce(JUNE, price);
    }
    specimen
}

fn after_a_year() -> Specimen {
    let mut specimen = empty("a register after a year").start(JUNE_EXPIRY - 3, CLOSE);
    for week in 0..52 {
        for day in 0..5 {
            // Up and down by a tenth in the course of eight weeks, and a little every day.
            let swing = (week % 8u32).abs_diff(4) * 6_000 + day * 700;
            specimen = specimen.session(CLOSE - 12_000 + swing);
        }
    }
    specimen.announce(JUNE + 14, 5_000)
}

fn full() -> Specimen {
    let specimen = empty("a full register")
        .start(JUNE_EXPIRY - 3, LOWEST_CLOSE)
        .session(HIGHEST_CLOSE)
        .announce(JUNE, 5)
        .announce(JUNE, 9_975)
        .session(CLOSE);
    assert_eq!(specimen.running().rows.len(), MOST_ROWS);
    specimen
}

/// After this day the first live month is too late.
pub fn last_day() -> Specimen {
    let day = third_friday(LATEST_FIRST_MONTH);
    empty("a register on the last day").start(day, CLOSE)
}

impl Specimen {
    pub fn calendar(&self) -> Calendar<'_> {
        Calendar::check(self.sessions.bytes()).expect("the calendar is good")
    }

    /// What stands in the register; nothing if it is empty.
    pub fn register(&self) -> Option<Register> {
        Register::read(self.calendar(), &self.bytes).expect("the specimen is good")
    }

    fn running(&self) -> Register {
        self.register().expect("the specimen is running")
    }

    fn start(mut self, day: u16, close: u32) -> Self {
        calls::start(self.sessions.bytes(), &mut self.bytes, day.into(), close)
            .expect("the start is accepted");
        self
    }

    fn session(mut self, close: u32) -> Self {
        let day = self.running().next_session(self.calendar());
        calls::session(self.sessions.bytes(), &mut self.bytes, day.into(), close)
            .expect("the session is accepted");
        self
    }

    fn announce(mut self, month: u16, price: u16) -> Self {
        let (calendar, bytes) = (self.sessions.bytes(), &mut self.bytes);
        calls::announce(calendar, bytes, month.into(), price.into())
            .expect("the announcement is accepted");
        self
    }
}
