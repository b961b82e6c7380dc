//! The linked archives against the independent implementation, and registers after whole lists of
//! calls against what the history of demand 3 demands. A run prints how much was compared, how
//! often each call returned each number and how many pairs of its causes met. It ends at the first
//! difference, and fails too where a number that a call can return never came.
//!
//! `RATTLE_LIB_DIR=<folder of libcapi.a and liblookup.a> cargo test --release --offline`

mod calendar;
mod dates;
mod files;
mod grid;
mod names;
mod numbers;
mod orders;
mod register;
mod room;
mod run;
mod sessions;

use std::thread;

use run::Run;

type Test = fn(&mut Run);

const PARTS: [(&str, Test); 19] = [
    ("days and months", dates::test),
    ("calendar checks", calendar::test_checks),
    ("Warsaw calendar", calendar::test_warsaw),
    ("calendars in use", calendar::test_use),
    ("live months and tiers", calendar::test_live_months),
    ("grids and closes", grid::test),
    ("all names", names::test_all),
    ("names not to write", names::test_writing),
    ("names not to read", names::test_reading),
    ("lists of calls", register::test_lists),
    ("full registers", register::test_full),
    ("made registers", register::test_made),
    ("damaged registers", register::test_damaged),
    ("damaged files", files::test_damaged),
    ("files cut off", files::test_lengths),
    ("files of other fields", files::test_fields),
    ("files of any bytes", files::test_any),
    ("long files", files::test_long),
    ("two causes at once", orders::test),
];

fn main() {
    let mut all = Run::default();
    // The archives have no state of their own, so the parts can run side by side.
    thread::scope(|scope| {
        let parts = PARTS.map(|(name, test)| (name, scope.spawn(move || run_part(test))));
        for (name, part) in parts {
            all.add(name, part.join().expect("the part came to its end"));
        }
    });
    all.finish();
}

fn run_part(test: Test) -> Run {
    let mut run = Run::default();
    test(&mut run);
    run
}
