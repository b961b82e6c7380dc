//! Timing the calls on a register, each with all its checks.

use std::hint::black_box;

use independent::{calls, RegisterError};
use sindhopul::raw;

use crate::contest::{best_times, contestant, Contestant};
use crate::registers::{Desk, CLOSE, FAR_CLOSE, JUNE, MONDAY};
use crate::sum_of_words;
use crate::table::Row;

pub fn time_all() -> Vec<Row> {
    let ordinary = Desk::with_rows(94);
    let mut rows = vec![start("start", &Desk::empty())];
    let growing = [
        ("session, 94 rows", 94),
        ("session, 200 rows", 200),
        ("session, 400 rows", 400),
        ("session, 800 rows", 800),
        ("session, 1391 rows", 1_391),
    ];
    rows.extend(growing.map(|(case, count)| next_session(case, &Desk::with_rows(count), CLOSE)));
    let expiry = Desk::on_quarterly_expiry();
    rows.extend([
        next_session("session, quarterly expiry", &expiry, CLOSE),
        next_session("session, far close", &ordinary, FAR_CLOSE),
        session("session, wrong day", &ordinary, 0, CLOSE),
        announce("announce, none waiting", &ordinary),
        announce("announce, 31 waiting", &Desk::with_waiting(31)),
        rows_of_month("rows", &ordinary),
    ]);
    rows
}

fn start(case: &'static str, desk: &Desk) -> Row {
    let day = MONDAY.into();
    time(
        case,
        desk,
        |calendar, register| raw::start(calendar, register, day, CLOSE).number,
        |calendar, register| calls::start(calendar, register, day, CLOSE),
    )
}

fn next_session(case: &'static str, desk: &Desk, close: u32) -> Row {
    session(case, desk, desk.next_day(), close)
}

fn session(case: &'static str, desk: &Desk, day: u32, close: u32) -> Row {
    time(
        case,
        desk,
        |calendar, register| raw::session(calendar, register, day, close).number,
        |calendar, register| calls::session(calendar, register, day, close),
    )
}

fn announce(case: &'static str, desk: &Desk) -> Row {
    let (month, price) = (JUNE.into(), 9_900);
    time(
        case,
        desk,
        |calendar, register| raw::announce(calendar, register, month, price).number,
        |calendar, register| calls::announce(calendar, register, month, price),
    )
}

fn rows_of_month(case: &'static str, desk: &Desk) -> Row {
    let month = u32::from(JUNE) + 1;
    time(
        case,
        desk,
        |calendar, register| raw::rows(calendar, register, month).number,
        |calendar, register| calls::rows(calendar, register, month),
    )
}

/// Times a call on a register. Every time it is made on a fresh copy, and the time that the
/// copying takes by itself is taken off.
fn time<T>(
    case: &'static str,
    desk: &Desk,
    sindhopul: impl Fn(&[u8], &mut [u8]) -> u16,
    independent: impl Fn(&[u8], &mut [u8]) -> Result<T, RegisterError>,
) -> Row {
    assert_alike(case, desk, &sindhopul, &independent);
    let [sindhopul, independent, copy, yardstick] = best_times([
        on_copies(desk, sindhopul),
        on_copies(desk, independent),
        on_copies(desk, |_, _| ()),
        on_copies(desk, |calendar, register| {
            sum_of_words(calendar).wrapping_add(sum_of_words(register))
        }),
    ]);
    Row {
        case,
        sindhopul: sindhopul - copy,
        independent: independent - copy,
        yardstick: Some(yardstick),
    }
}

fn on_copies<'a, T>(desk: &'a Desk, work: impl Fn(&[u8], &mut [u8]) -> T + 'a) -> Contestant<'a> {
    let mut register = desk.register;
    contestant(move || {
        black_box(&mut register).copy_from_slice(black_box(&desk.register));
        work(black_box(&desk.calendar), black_box(&mut register))
    })
}

/// Makes sure that both do the same before their times are compared.
fn assert_alike<T>(
    case: &str,
    desk: &Desk,
    sindhopul: impl Fn(&[u8], &mut [u8]) -> u16,
    independent: impl Fn(&[u8], &mut [u8]) -> Result<T, RegisterError>,
) {
    let (mut first, mut second) = (desk.register, desk.register);
    let number = sindhopul(&desk.calendar, &mut first);
    let result = independent(&desk.calendar, &mut second);
    assert_eq!(
        number,
        result.map_or_else(RegisterError::number, |_| 0),
        "{case}"
    );
    assert_eq!(first, second, "{case}");
}
