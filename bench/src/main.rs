//! How long the calls of the proved archive take, beside the independent Rust and beside a
//! yardstick, one look at every byte that the call is lent.
//!
//! `RATTLE_LIB_DIR=<folder of libcapi.a> cargo run --release --offline`

mod calendars;
mod calls;
mod contest;
mod files;
mod names;
mod registers;
mod table;
mod year;

use std::hint::black_box;

use independent::Calendar;
use sindhopul::raw;

use contest::{best_times, contestant};
use table::Row;

fn main() {
    let mut rows = vec![
        check(
            "check, weekdays with holidays",
            &calendars::weekdays_with_holidays(),
        ),
        check("check, with empty weeks", &calendars::with_empty_weeks()),
        check(
            "check, third Fridays only",
            &calendars::third_fridays_only(),
        ),
        check("check, early days only", &calendars::early_days_only()),
    ];
    rows.extend(calls::time_all());
    rows.extend(names::time_all());
    rows.extend(files::time_all());
    let replay = year::replay();
    let sessions_a_second = [&replay.sindhopul, &replay.independent].map(|time| 1e9 / time);
    rows.push(replay);
    table::print(&rows);
    let [sindhopul, independent] = sessions_a_second;
    println!("The year's replay: {sindhopul:.0} sessions a second, {independent:.0} by the independent Rust.");
}

fn check(case: &'static str, calendar: &[u8]) -> Row {
    assert_eq!(raw::calendar_check(calendar).number, 0);
    assert!(Calendar::check(calendar).is_ok());
    let [sindhopul, independent, yardstick] = best_times([
        contestant(|| raw::calendar_check(black_box(calendar))),
        contestant(|| Calendar::check(black_box(calendar)).is_ok()),
        contestant(|| sum_of_words(black_box(calendar))),
    ]);
    Row {
        case,
        sindhopul,
        independent,
        yardstick: Some(yardstick),
    }
}

/// What one look at every byte costs.
fn sum_of_words(bytes: &[u8]) -> u64 {
    let words = bytes.chunks_exact(8);
    let mut last = [0; 8];
    last[..words.remainder().len()].copy_from_slice(words.remainder());
    words.fold(u64::from_le_bytes(last), |sum, word| {
        let word = word.try_into().expect("a chunk has 8 bytes");
        sum.wrapping_add(u64::from_le_bytes(word))
    })
}
