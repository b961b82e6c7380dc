//! The registers that calls are timed on, made by the independent engine.

use independent::calendar::{live_tiers, CALENDAR_BYTES};
use independent::grid::{self, Tier};
use independent::register::REGISTER_BYTES;
use independent::{calls, Calendar, Register};

use crate::calendars;

/// The close before every session but the far one.
pub const CLOSE: u32 = 241_337;
/// From a ladder around the other close this one adds about 500 rows.
pub const FAR_CLOSE: u32 = 696_000;

/// June 2026, its second Monday, and its expiry date.
pub const JUNE: u16 = 317;
pub const MONDAY: u16 = 9_655;
const JUNE_EXPIRY: u16 = 9_666;

/// A register with the calendar that it goes with.
pub struct Desk {
    pub calendar: [u8; CALENDAR_BYTES],
    pub register: [u8; REGISTER_BYTES],
}

impl Desk {
    pub fn empty() -> Self {
        Self {
            calendar: calendars::weekdays_with_holidays(),
            register: [0; REGISTER_BYTES],
        }
    }

    fn started(day: u16) -> Self {
        let mut desk = Self::empty();
        calls::start(&desk.calendar, &mut desk.register, day.into(), CLOSE)
            .expect("the day has a session");
        desk
    }

    /// So many rows, and a next session that lists nothing if the close stays.
    pub fn with_rows(rows: usize) -> Self {
        let mut desk = Self::started(MONDAY);
        let mut missing = rows - desk.running().rows.len();
        for (month, tier) in live_tiers(JUNE) {
            missing = desk.announce_rows(month, tier, missing);
        }
        let desk = desk.after_session(CLOSE);
        assert_eq!(desk.running().rows.len(), rows);
        desk
    }

    /// With the next session a month leaves, one comes and two get finer grids.
    pub fn on_quarterly_expiry() -> Self {
        Self::started(JUNE_EXPIRY - 1).after_session(CLOSE)
    }

    /// The register after its next session.
    pub fn after_session(mut self, close: u32) -> Self {
        let day = self.next_day();
        calls::session(&self.calendar, &mut self.register, day, close)
            .expect("it is the next session");
        self
    }

    pub fn with_waiting(count: usize) -> Self {
        let mut desk = Self::with_rows(94);
        let above = grid::between(Tier::N, 3_000, u16::MAX);
        for &price in &above[..count] {
            desk.announce(JUNE, price);
        }
        desk
    }

    /// The next session day.
    pub fn next_day(&self) -> u32 {
        self.running().next_session(self.sessions()).into()
    }

    fn sessions(&self) -> Calendar<'_> {
        Calendar::check(&self.calendar).expect("the calendar is good")
    }

    fn running(&self) -> Register {
        let register = Register::read(self.sessions(), &self.register);
        register
            .expect("the register is good")
            .expect("it is running")
    }

    fn announce(&mut self, month: u16, price: u16) {
        calls::announce(
            &self.calendar,
            &mut self.register,
            month.into(),
            price.into(),
        )
        .expect("the price can be announced");
    }

    /// Announces for a month as many of the rows that are missing as its grid has, and gives back
    /// how many are missing then.
    fn announce_rows(&mut self, month: u16, tier: Tier, missing: usize) -> usize {
        let span = self.running().span(month).expect("the month is live");
        let above = grid::between(tier, span.high + 1, u16::MAX);
        let below = grid::between(tier, 0, span.low - 1);
        let up = missing.min(above.len());
        let down = (missing - up).min(below.len());
        if up > 0 {
            self.announce(month, above[up - 1]);
        }
        if down > 0 {
            self.announce(month, below[below.len() - down]);
        }
        missing - up - down
    }
}
