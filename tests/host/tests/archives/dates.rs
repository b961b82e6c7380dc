//! Every month and every day.

use independent::dates::{self, DAYS, MONTHS};
use lookup::OUT_OF_RANGE;

use crate::numbers::beyond;
use crate::run::Run;

pub fn test(run: &mut Run) {
    for month in 0..=MONTHS {
        let archive = lookup::first_day(month.into());
        let wanted = dates::first_day(month).into();
        run.equal(archive, wanted, format_args!("first day of {month}"));
    }
    for month in 0..MONTHS {
        let wanted = dates::third_friday(month).into();
        let by_rule = lookup::third_friday(month.into());
        run.equal(by_rule, wanted, format_args!("third Friday of {month}"));
        let in_table = lookup::third_friday_in_table(month.into());
        let case = format_args!("third Friday of {month} in the table");
        run.equal(in_table, wanted, case);
    }
    for day in 0..DAYS {
        let archive = lookup::month_of(day.into());
        let wanted = dates::month_of(day).into();
        run.equal(archive, wanted, format_args!("month of day {day}"));
    }
    test_out_of_range(run);
}

fn test_out_of_range(run: &mut Run) {
    for month in beyond(MONTHS + 1) {
        let archive = lookup::first_day(month);
        run.equal(archive, OUT_OF_RANGE, format_args!("first day of {month}"));
    }
    for month in beyond(MONTHS) {
        let by_rule = lookup::third_friday(month);
        let case = format_args!("third Friday of {month}");
        run.equal(by_rule, OUT_OF_RANGE, case);
        let in_table = lookup::third_friday_in_table(month);
        let case = format_args!("third Friday of {month} in the table");
        run.equal(in_table, OUT_OF_RANGE, case);
    }
    for day in beyond(DAYS) {
        let archive = lookup::month_of(day);
        run.equal(archive, OUT_OF_RANGE, format_args!("month of day {day}"));
    }
}
