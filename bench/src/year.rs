//! A year's calls, one after the other, as the demo plays them.

use std::hint::black_box;

use independent::calls;
use sindhopul::raw;

use crate::calendars;
use crate::contest::{best_times, contestant};
use crate::table::Row;

/// The demo's calls.
const YEAR: &str = include_str!("../../demo/year.txt");

const REGISTER_BYTES: usize = 11_264;

enum Call {
    Start(u32, u32),
    Session(u32, u32),
    Announce(u32, u32),
}

/// The time that a session takes in a whole year's calls from an empty register.
pub fn replay() -> Row {
    let year: Vec<Call> = YEAR.lines().filter_map(call).collect();
    let sessions = year.iter().filter(|call| matches!(call, Call::Session(..)));
    let calendar = calendars::weekdays_with_holidays();
    assert_eq!(proved(&calendar, &year), independent(&calendar, &year));
    let times = best_times([
        contestant(|| proved(black_box(&calendar), &year)),
        contestant(|| independent(black_box(&calendar), &year)),
    ]);
    Row::of_each("year's replay, a session", sessions.count(), times)
}

fn proved(calendar: &[u8], year: &[Call]) -> [u8; REGISTER_BYTES] {
    let mut register = [0; REGISTER_BYTES];
    for call in year {
        match *call {
            Call::Start(day, close) => {
                raw::start(calendar, &mut register, day, close);
            }
            Call::Session(day, close) => {
                raw::session(calendar, &mut register, day, close);
            }
            Call::Announce(month, price) => {
                raw::announce(calendar, &mut register, month, price);
            }
        }
    }
    register
}

fn independent(calendar: &[u8], year: &[Call]) -> [u8; REGISTER_BYTES] {
    let mut register = [0; REGISTER_BYTES];
    for call in year {
        // a refusal is one of the year's answers
        match *call {
            Call::Start(day, close) => {
                let _ = calls::start(calendar, &mut register, day, close);
            }
            Call::Session(day, close) => {
                let _ = calls::session(calendar, &mut register, day, close);
            }
            Call::Announce(month, price) => {
                let _ = calls::announce(calendar, &mut register, month, price);
            }
        }
    }
    register
}

/// A line of the demo's year; a comment is no call.
fn call(line: &str) -> Option<Call> {
    let words: Vec<&str> = line.split_whitespace().collect();
    match words[..] {
        ["start", day, close] => Some(Call::Start(day_number(day), hundredths(close))),
        ["session", day, close] => Some(Call::Session(day_number(day), hundredths(close))),
        ["announce", month, price] => Some(Call::Announce(month_number(month), number(price))),
        _ => None,
    }
}

fn number(digits: &str) -> u32 {
    digits.parse().expect("the year has numbers")
}

fn month_number(month: &str) -> u32 {
    12 * (number(&month[..4]) - 2_000) + number(&month[5..7]) - 1
}

fn day_number(date: &str) -> u32 {
    let month = month_number(date)
        .try_into()
        .expect("a month of the calendar");
    u32::from(independent::dates::first_day(month)) + number(&date[8..]) - 1
}

fn hundredths(close: &str) -> u32 {
    number(&close.replace('.', ""))
}
