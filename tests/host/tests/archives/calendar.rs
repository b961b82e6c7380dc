//! The check on good and bad calendars, and what the good ones say of days and months.

use std::fmt::Arguments;

use independent::calendar::{bytes_of, CALENDAR_BYTES, TAIL_BITS};
use independent::dates::{first_day, third_friday, DAYS, MONTHS};
use independent::warsaw::working_days;
use independent::{live_months, tier, Calendar, CalendarError};
use lookup::OUT_OF_RANGE;
use sindhopul::raw::{self, CalendarResult};

use crate::numbers::{beyond, Random};
use crate::run::{Call, Run};
use crate::sessions::{self, window, Sessions};

const fn result(number: u16, month: u16) -> CalendarResult {
    CalendarResult { number, month }
}

const PASSED: CalendarResult = result(0, 0);
const WRONG_LENGTH: CalendarResult = result(11, 0);
const TAIL_SET: CalendarResult = result(12, 0);

fn lacks(month: u16) -> CalendarResult {
    result(13, month)
}

fn independent_check(bytes: &[u8]) -> CalendarResult {
    match Calendar::check(bytes) {
        Ok(_) => PASSED,
        Err(CalendarError::NoSession { month }) => lacks(month),
        Err(error) => result(error.number(), 0),
    }
}

/// Checks a calendar of which the result is not known beforehand.
pub fn compare(run: &mut Run, bytes: &[u8], case: Arguments) -> u16 {
    let archive = raw::calendar_check(bytes);
    run.count(Call::CalendarCheck, archive.number);
    run.equal(archive, independent_check(bytes), case);
    archive.number
}

/// Checks a calendar that was made to give this result, by the independent implementation too.
fn expect(run: &mut Run, bytes: &[u8], result: CalendarResult, case: Arguments) {
    assert_eq!(independent_check(bytes), result, "{case}");
    compare(run, bytes, case);
}

/// The console program's calendar is the one that Warsaw's rule makes.
pub fn test_warsaw(run: &mut Run) {
    let warsaw = include_bytes!("../../../../crates/sindhopul/data/warsaw.calendar");
    assert!(warsaw[..] == bytes_of(working_days()), "warsaw.calendar");
    expect(run, warsaw, PASSED, format_args!("warsaw.calendar"));
}

pub fn test_checks(run: &mut Run) {
    let random = &mut Random::new(1);
    let good = sessions::good(random);
    for (kind, sessions) in &good {
        expect(run, sessions.bytes(), PASSED, format_args!("{kind}"));
        test_tail(run, kind, sessions);
    }
    for (kind, sessions) in &good {
        test_each_window(run, kind, sessions);
        test_two_windows(run, kind, sessions, random);
    }
    test_no_window(run);
    test_lengths(run);
    test_any(run, random);
}

/// Each month in turn loses its sessions, then gets one back at either end of its window.
fn test_each_window(run: &mut Run, kind: &str, good: &Sessions) {
    for month in 0..MONTHS {
        let mut bad = good.clone();
        bad.remove(window(month));
        let case = format_args!("{kind}, month {month} without a session");
        expect(run, bad.bytes(), lacks(month), case);
        for day in [first_day(month), third_friday(month)] {
            let mut good = bad.clone();
            good.add(day);
            let case = format_args!("{kind}, month {month} with day {day} alone");
            expect(run, good.bytes(), PASSED, case);
        }
    }
}

fn test_two_windows(run: &mut Run, kind: &str, good: &Sessions, random: &mut Random) {
    for _ in 0..200 {
        let months = [random.below(MONTHS), random.below(MONTHS)];
        let mut bad = good.clone();
        bad.remove(window(months[0]));
        bad.remove(window(months[1]));
        let earlier = months[0].min(months[1]);
        let case = format_args!("{kind}, months {months:?} without a session");
        expect(run, bad.bytes(), lacks(earlier), case);
    }
}

/// Bits after the last day, on a good calendar and on one that lacks a month too.
fn test_tail(run: &mut Run, kind: &str, good: &Sessions) {
    for bits in (1..8).map(|bits| bits << 5) {
        let mut bad = good.clone();
        bad.set_tail(bits);
        let case = format_args!("{kind}, tail {bits:#010b}");
        expect(run, bad.bytes(), TAIL_SET, case);
        bad.remove(window(MONTHS / 2));
        let case = format_args!("{kind}, tail {bits:#010b}, a month without a session");
        expect(run, bad.bytes(), TAIL_SET, case);
    }
}

fn test_no_window(run: &mut Run) {
    let none = Sessions::on(|_| false);
    let case = format_args!("no session at all");
    expect(run, none.bytes(), lacks(0), case);
    let mut outside = Sessions::on(|_| true);
    for month in 0..MONTHS {
        outside.remove(window(month));
    }
    let case = format_args!("sessions after third Fridays only");
    expect(run, outside.bytes(), lacks(0), case);
}

/// Wrong lengths, of bytes that would pass, that have tail bits, that lack every month.
fn test_lengths(run: &mut Run) {
    let repeated = Sessions::weekdays().bytes().repeat(3);
    let around = |length: usize| length.saturating_sub(4)..=length + 4;
    let mut lengths: Vec<usize> = [0, CALENDAR_BYTES, 2 * CALENDAR_BYTES]
        .into_iter()
        .flat_map(around)
        .collect();
    lengths.retain(|&length| length != CALENDAR_BYTES);
    for length in lengths {
        for bytes in [&repeated[..length], &vec![0xff; length], &vec![0; length]] {
            expect(run, bytes, WRONG_LENGTH, format_args!("{length} bytes"));
        }
    }
}

/// Random days, so few that often a month has none, and now and then tail bits.
fn test_any(run: &mut Run, random: &mut Random) {
    for one_in in 2..22 {
        for round in 0..50 {
            let mut any = Sessions::on(|_| random.one_in(one_in));
            if random.one_in(8) {
                any.set_tail(random.byte() & TAIL_BITS);
            }
            let case = format_args!("random days, one in {one_in}, round {round}");
            compare(run, any.bytes(), case);
        }
    }
}

pub fn test_use(run: &mut Run) {
    for (kind, sessions) in sessions::good(&mut Random::new(2)) {
        let bytes = sessions.bytes();
        let calendar = Calendar::check(bytes).expect("the calendar is good");
        test_sessions(run, kind, bytes, calendar);
        test_expiries(run, kind, bytes, calendar);
        test_days(run, kind, bytes, calendar);
    }
    test_first_live_without_calendar(run);
}

fn test_sessions(run: &mut Run, kind: &str, bytes: &[u8], calendar: Calendar) {
    for day in 0..=u16::MAX {
        let archive = lookup::has_session(bytes, day.into());
        let wanted = calendar.has_session(day).into();
        run.equal(archive, wanted, format_args!("{kind}, session on {day}"));
    }
    for day in beyond(65_536u32) {
        let archive = lookup::has_session(bytes, day);
        run.equal(archive, 0, format_args!("{kind}, session on {day}"));
    }
}

fn test_expiries(run: &mut Run, kind: &str, bytes: &[u8], calendar: Calendar) {
    for month in 0..MONTHS {
        let archive = lookup::expiry(bytes, month.into());
        let wanted = calendar.expiry(month).into();
        run.equal(archive, wanted, format_args!("{kind}, expiry of {month}"));
    }
    for month in beyond(MONTHS) {
        let archive = lookup::expiry(bytes, month);
        let case = format_args!("{kind}, expiry of {month}");
        run.equal(archive, OUT_OF_RANGE, case);
    }
}

fn test_days(run: &mut Run, kind: &str, bytes: &[u8], calendar: Calendar) {
    for day in 0..DAYS {
        let next = lookup::next_session(bytes, day.into());
        let wanted = calendar.next_session(day).unwrap_or(DAYS).into();
        run.equal(next, wanted, format_args!("{kind}, session after {day}"));
        let first = lookup::first_live(bytes, day.into());
        let wanted = calendar.first_live_month(day).into();
        let case = format_args!("{kind}, first live month on {day}");
        run.equal(first, wanted, case);
    }
    for day in beyond(DAYS) {
        let next = lookup::next_session(bytes, day);
        let case = format_args!("{kind}, session after {day}");
        run.equal(next, OUT_OF_RANGE, case);
        let first = lookup::first_live(bytes, day);
        let case = format_args!("{kind}, first live month on {day}");
        run.equal(first, OUT_OF_RANGE, case);
    }
}

/// Where a calendar does not pass, no month is the first live one.
fn test_first_live_without_calendar(run: &mut Run) {
    let good = Sessions::weekdays();
    let mut lacks_month = good.clone();
    lacks_month.remove(window(MONTHS - 1));
    let mut has_tail = good.clone();
    has_tail.set_tail(0b0010_0000);
    for bytes in [
        &[],
        &good.bytes()[1..],
        has_tail.bytes(),
        lacks_month.bytes(),
    ] {
        for day in [0, 9_666, DAYS - 1] {
            let archive = lookup::first_live(bytes, day.into());
            let case = format_args!("no calendar, first live month on {day}");
            run.equal(archive, OUT_OF_RANGE, case);
        }
    }
}

pub fn test_live_months(run: &mut Run) {
    for first in 0..=MONTHS {
        for (place, month) in (0..).zip(live_months(first)) {
            let archive = lookup::live_month(first.into(), place);
            let case = format_args!("live month {place} from {first}");
            run.equal(archive, month.into(), case);
            let archive = lookup::tier_of(first.into(), month.into());
            let wanted = tier(first, month).expect("the month is live") as u32;
            let case = format_args!("tier of {month} from {first}");
            run.equal(archive, wanted, case);
        }
    }
    for first in beyond(MONTHS + 1) {
        let archive = lookup::live_month(first, 0);
        let case = format_args!("live month 0 from {first}");
        run.equal(archive, OUT_OF_RANGE, case);
        let archive = lookup::tier_of(first, first);
        let case = format_args!("tier of {first} from {first}");
        run.equal(archive, OUT_OF_RANGE, case);
    }
    for place in beyond(6u32) {
        let archive = lookup::live_month(0, place);
        let case = format_args!("live month {place} from 0");
        run.equal(archive, OUT_OF_RANGE, case);
    }
    for month in beyond(65_536u32) {
        let archive = lookup::tier_of(0, month);
        let case = format_args!("tier of {month} from 0");
        run.equal(archive, OUT_OF_RANGE, case);
    }
}
