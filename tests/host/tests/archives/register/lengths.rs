//! How long a register's file is, and buffers for it.

use std::fmt::Arguments;

use independent::files::MOST_FILE_BYTES;
use independent::Register;

use super::pair::{Pair, Request};
use crate::files::{DAY_FIELD, SERIES_FIELD};
use crate::numbers::Random;
use crate::run::Run;

/// A call and a put for each row that is new.
pub fn of_file(register: &Register) -> usize {
    let rows = register.rows.iter();
    let new = rows.filter(|row| row.first_day == register.day).count();
    DAY_FIELD + 2 * SERIES_FIELD * new
}

/// Just enough for the file, more than that, or too little.
pub fn any(register: &Register, random: &mut Random) -> usize {
    let exact = of_file(register);
    let less = random.within(0..=exact as u32) as usize;
    random.pick(&[exact, exact, exact - 1, exact + 1, less, MOST_FILE_BYTES])
}

/// Writes the file into buffers of every length around its own.
pub fn test_around(run: &mut Run, register: &Register, pair: &mut Pair, case: Arguments) {
    let exact = of_file(register);
    for length in (0..=DAY_FIELD).chain(exact - DAY_FIELD..=exact + SERIES_FIELD) {
        pair.call(run, Request::File { length }, case);
    }
}
