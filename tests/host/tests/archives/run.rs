//! Comparing, counting and telling.

mod calls;

use std::collections::{BTreeMap, BTreeSet};
use std::fmt::{Arguments, Debug};
use std::process::exit;

use independent::judge::Complaint;

use crate::orders;
use crate::room::Room;

pub use calls::Call;

/// What has been compared so far.
#[derive(Default)]
pub struct Run {
    comparisons: u64,
    returned: BTreeMap<(Call, u16), u64>,
    met: BTreeSet<(Call, u16, u16)>,
}

impl Run {
    /// Compares what an archive says with what it should say, and ends the run if they differ.
    pub fn equal<T: PartialEq + Debug>(&mut self, archive: T, wanted: T, case: Arguments) {
        self.comparisons += 1;
        if archive != wanted {
            fail(format_args!(
                "{case}: the archive says {archive:?}, it should be {wanted:?}"
            ));
        }
    }

    /// Compares every byte of a buffer that an archive was lent, and the guard bytes around it,
    /// with what should stand there.
    pub fn equal_rooms(&mut self, archive: &Room, wanted: &Room, what: &str, case: Arguments) {
        self.comparisons += 1;
        if let Some((place, found, wanted)) = archive.difference(wanted) {
            fail(format_args!(
                "{case}: byte {place} of the {what} is {found}, it should be {wanted}"
            ));
        }
    }

    /// Takes the judge's verdict on an archive's register.
    pub fn judged(&mut self, verdict: Result<(), Complaint>, case: Arguments) {
        self.comparisons += 1;
        if let Err(complaint) = verdict {
            fail(format_args!(
                "{case}: the history demands another register: {complaint:?}"
            ));
        }
    }

    /// Counts a number that a call returned.
    pub fn count(&mut self, call: Call, number: u16) {
        *self.returned.entry((call, number)).or_default() += 1;
    }

    /// Counts two causes of a call that held at once.
    pub fn count_meeting(&mut self, call: Call, first: u16, second: u16) {
        self.met.insert((call, first, second));
    }

    /// Adds what a part counted, and tells how much it compared.
    pub fn add(&mut self, name: &str, part: Self) {
        print_comparisons(name, part.comparisons);
        self.comparisons += part.comparisons;
        for (returned, times) in part.returned {
            *self.returned.entry(returned).or_default() += times;
        }
        self.met.extend(part.met);
    }

    /// Prints how often each number came and how many pairs of causes met, and fails where one is
    /// missing.
    pub fn finish(&self) {
        print_comparisons("all parts", self.comparisons);
        print_row("returned", Call::ALL.map(|call| call.name().to_string()));
        let numbers: BTreeSet<u16> = Call::ALL
            .iter()
            .flat_map(|call| call.numbers())
            .copied()
            .collect();
        for number in numbers {
            let cells = Call::ALL.map(|call| self.cell(call, number));
            print_row(&number.to_string(), cells);
        }
        let pairs = |call| self.met.iter().filter(|pair| pair.0 == call).count();
        print_row("pairs met", Call::ALL.map(|call| pairs(call).to_string()));
        for call in Call::ALL {
            for &number in call.numbers() {
                if self.times(call, number) == 0 {
                    fail(format_args!("{} never returned {number}", call.name()));
                }
            }
            for (first, second) in orders::pairs(call) {
                if !self.met.contains(&(call, first, second)) {
                    let call = call.name();
                    fail(format_args!(
                        "{call} never had {first} and {second} at once"
                    ));
                }
            }
        }
        println!("host tests: ok");
    }

    fn times(&self, call: Call, number: u16) -> u64 {
        self.returned.get(&(call, number)).copied().unwrap_or(0)
    }

    fn cell(&self, call: Call, number: u16) -> String {
        if call.numbers().contains(&number) {
            self.times(call, number).to_string()
        } else {
            "-".to_string()
        }
    }
}

fn print_comparisons(part: &str, comparisons: u64) {
    println!("{part:<22}{comparisons:>12} compared");
}

fn print_row(name: &str, cells: [String; Call::ALL.len()]) {
    println!(
        "{name:<10}{}",
        cells.map(|cell| format!("{cell:>16}")).concat()
    );
}

fn fail(what: Arguments) -> ! {
    // Written in one piece, since other parts may be printing.
    let line = format!("host tests: {what}\n");
    eprint!("{line}");
    exit(1)
}
