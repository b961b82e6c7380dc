//! Printing what was measured.

use crate::contest::BATCHES;

/// Times of a case, in nanoseconds.
pub struct Row {
    pub case: &'static str,
    pub sindhopul: f64,
    pub independent: f64,
    pub yardstick: Option<f64>,
}

impl Row {
    /// A case without yardstick, whose work was done on so many things at once.
    pub fn of_each(case: &'static str, things: usize, times: [f64; 2]) -> Self {
        let [sindhopul, independent] = times.map(|time| time / things as f64);
        Self {
            case,
            sindhopul,
            independent,
            yardstick: None,
        }
    }

    fn cells(&self) -> [String; 6] {
        let times_yardstick = self.yardstick.map(|yardstick| self.sindhopul / yardstick);
        [
            self.case.to_string(),
            format!("{:.1}", self.sindhopul),
            format!("{:.1}", self.independent),
            format!("{:.2}", self.sindhopul / self.independent),
            cell(self.yardstick),
            cell(times_yardstick),
        ]
    }
}

fn cell(value: Option<f64>) -> String {
    value.map_or("-".to_string(), |value| format!("{value:.1}"))
}

const HEADING: [&str; 6] = [
    "case",
    "sindhopul ns",
    "independent ns",
    "ratio",
    "yardstick ns",
    "times yardstick",
];

const NOTES: &str = "\
Ratio: sindhopul to independent, whose names go through std's formatting and parsing.
Yardstick: for a check the sum of the calendar's bytes read as 64-bit words; for a
  call on a register a copy of its 11,264 bytes and the sum of register and calendar;
  for a file that is written the same sum and a copy of the file, for one that is
  read the sum of the file and a copy of its series.
Calls on a register, file_write apart, which only reads it, are made on a fresh copy
  each time. What the copying takes by itself was measured beside them and is taken
  off both, not off the yardstick.
Sessions: with so many rows standing and the close as before, so that nothing is
  listed; after the expiry of June 2026 (33 rows leave, 34 come); from 94 rows with
  a close of 6960 points (501 rows come); refused, since the day is not the next.
Files: those of the sessions after the expiry (68 series) and with that close (1,002).
Holidays: those of calendars/warsaw.txt, as the registers have them.
Empty weeks: the same calendar without the sessions from the second Monday of
  every month to its Friday, so that with the weekends nine days have none.
Third Fridays only: the one session of a window is at its end.
Early days only: all sessions of a window lie before its last 15 days; where it has
  no more days than these, on its first day.
Year's replay: the demo's calls of a year from an empty register, by the session.";

pub fn print(rows: &[Row]) {
    println!("Best of {BATCHES} batches.");
    print_cells(HEADING.map(String::from));
    for row in rows {
        print_cells(row.cells());
    }
    println!("{NOTES}");
}

fn print_cells([case, times @ ..]: [String; 6]) {
    println!(
        "{case:<32}{}",
        times.map(|time| format!("{time:>16}")).concat()
    );
}
