//! The rows of every month.

use std::fmt::Arguments;

use independent::register::{ROWS_AT, ROW_BYTES};
use independent::{live_months, Calendar};
use sindhopul::raw;

use super::pair::{Pair, Request};
use crate::numbers::beyond;
use crate::run::Run;

/// Asks for every month, live or not, then looks into the parts.
pub fn test(run: &mut Run, calendar: Calendar, bytes: &[u8], pair: &mut Pair, case: Arguments) {
    for month in (0..1_210).chain(beyond(1_210u32)) {
        pair.call(run, Request::Rows { month }, case);
    }
    if pair.bytes()[0] == 1 {
        test_parts(run, calendar, bytes, pair.bytes(), case);
    }
}

/// The parts of the live months lie behind each other, are all rows, and each is its month's.
fn test_parts(run: &mut Run, calendar: Calendar, bytes: &[u8], register: &[u8], case: Arguments) {
    let number_at = |at: usize| u16::from_le_bytes([register[at], register[at + 1]]);
    let (day, row_count) = (number_at(2), usize::from(number_at(4)));
    let mut end = ROWS_AT;
    for month in live_months(calendar.first_live_month(day)) {
        let case = format_args!("{case}, part of month {month}");
        let result = raw::rows(bytes, register, month.into());
        run.equal(usize::from(result.at), end, case);
        for row in result.part(register).chunks(ROW_BYTES) {
            run.equal(&row[..2], &month.to_le_bytes(), case);
        }
        end += usize::from(result.size);
    }
    let case = format_args!("{case}, end of the parts");
    run.equal(end, ROWS_AT + ROW_BYTES * row_count, case);
}
