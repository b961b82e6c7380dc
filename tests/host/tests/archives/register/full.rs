//! Registers with as many rows as there can be.

use std::fmt::Arguments;

use independent::grid::{HIGHEST_CLOSE, LOWEST_CLOSE};
use independent::judge::Call;
use independent::register::MOST_ROWS;

use super::desk::Desk;
use super::specimens::JUNE_EXPIRY;
use crate::run::Run;
use crate::sessions::Sessions;

/// How many sessions the test goes on for: half a year.
const SESSIONS: u32 = 130;

/// Lets the close jump from end to end of what is allowed, so that all ladders soon are all of
/// their grids, but for the two prices that must be announced.
pub fn test(run: &mut Run) {
    let sessions = Sessions::weekdays();
    let mut desk = Desk::new(&sessions);
    let start = Call::Start {
        day: u32::from(JUNE_EXPIRY) - 3,
        close: LOWEST_CLOSE,
    };
    desk.call(run, start, format_args!("full register"));
    let mut full = 0;
    for (session, close) in (0..SESSIONS).zip([HIGHEST_CLOSE, LOWEST_CLOSE].into_iter().cycle()) {
        let case = format_args!("full register, session {session}");
        let rows = test_session(run, &mut desk, close, case);
        full += u32::from(rows == MOST_ROWS);
    }
    // Each of the six expiries brings a month that is not full before its second session.
    assert!(full >= SESSIONS - 14, "full after {full} sessions");
    desk.test_rows(run, format_args!("full register"));
}

/// Makes a session, and gives back how many rows stand then.
fn test_session(run: &mut Run, desk: &mut Desk, close: u32, case: Arguments) -> usize {
    let register = desk.register().expect("the register is running");
    let day = register.next_session(desk.calendar);
    let first = desk.calendar.first_live_month(day);
    for price in [5, 9_975] {
        let month = first.into();
        desk.call(run, Call::Announce { month, price }, case);
    }
    let day = day.into();
    desk.call(run, Call::Session { day, close }, case);
    desk.judge(run, case);
    desk.test_file(run, case);
    desk.register().map_or(0, |register| register.rows.len())
}
