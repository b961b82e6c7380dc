//! Well formed registers, most of which no list of calls leaves behind, and such with a defect.

use std::fmt::Arguments;

use independent::calendar::live_tiers;
use independent::dates::first_day;
use independent::files::MOST_FILE_BYTES;
use independent::grid::{self, HIGHEST_CLOSE, LOWEST_CLOSE};
use independent::judge::Call;
use independent::register::{Announcement, Origin, Row, LATEST_FIRST_MONTH, REGISTER_BYTES};
use independent::{calls, Calendar, Register, RegisterError, Tier};

use super::pair::{Pair, Request};
use super::{announcements, closes, lengths};
use crate::numbers::Random;
use crate::run::Run;
use crate::sessions::{self, Sessions};

/// How many registers of each sort there are with each calendar.
const REGISTERS: u32 = 200;

pub fn test(run: &mut Run) {
    let random = &mut Random::new(6);
    for (kind, sessions) in sessions::good(random) {
        let maker = Maker::new(&sessions);
        for number in 0..REGISTERS {
            let case = format_args!("{kind}, made register {number}");
            maker.test_well_formed(run, random, case);
            maker.test_defects(run, random, case);
            maker.test_expiring(run, random, case);
            maker.test_too_late(run, random, case);
        }
        for first in 300..312 {
            let case = format_args!("{kind}, all rows new, from month {first}");
            maker.test_all_new(run, first, random, case);
        }
    }
}

/// Changes a register that is well formed into one that is not. The two rows after the place are
/// of the same month as the row at it.
type Defect = fn(&mut Register, usize);

const DEFECTS: [(&str, Defect); 13] = [
    ("a gap", |register, place| {
        register.rows.remove(place + 1);
    }),
    ("a month without rows", |register, place| {
        let month = register.rows[place].month;
        register.rows.retain(|row| row.month != month);
    }),
    ("a month too early", |register, _| {
        let mut row = register.rows[0];
        row.month = row.month.wrapping_sub(1);
        register.rows.insert(0, row);
    }),
    ("a month too late", |register, _| {
        let mut row = register.rows[register.rows.len() - 1];
        row.month += 3;
        register.rows.push(row);
    }),
    ("a price between two", |register, place| {
        let mut row = register.rows[place];
        row.price = (row.price + register.rows[place + 1].price) / 2;
        register.rows.insert(place + 1, row);
    }),
    ("a row twice", |register, place| {
        let row = register.rows[place];
        register.rows.insert(place, row);
    }),
    ("two rows exchanged", |register, place| {
        register.rows.swap(place, place + 1);
    }),
    ("a first day to come", |register, place| {
        register.rows[place].first_day = register.day + 1;
    }),
    ("a day without session", |register, _| {
        register.day = 36_525;
    }),
    ("a listed price announced", |register, place| {
        let Row { month, price, .. } = register.rows[place];
        register.waiting.push(Announcement { month, price });
    }),
    ("a price of no grid announced", |register, place| {
        let month = register.rows[place].month;
        let price = 9_999;
        register.waiting.push(Announcement { month, price });
    }),
    ("a month announced that is not live", |register, _| {
        let month = register.rows[register.rows.len() - 1].month + 1;
        let price = 9_900;
        register.waiting.push(Announcement { month, price });
    }),
    ("a price announced twice", |register, place| {
        let Row { month, price, .. } = register.rows[place];
        let waiting = register.waiting.first().copied();
        let twice = waiting.unwrap_or(Announcement { month, price });
        register.waiting.extend([twice, twice]);
    }),
];

struct Maker<'a> {
    bytes: &'a [u8],
    calendar: Calendar<'a>,
}

impl<'a> Maker<'a> {
    fn new(sessions: &'a Sessions) -> Self {
        let bytes = sessions.bytes();
        let calendar = Calendar::check(bytes).expect("the calendar is good");
        Self { bytes, calendar }
    }

    fn test_well_formed(&self, run: &mut Run, random: &mut Random, case: Arguments) {
        let register = self.any_register(1, random);
        for _ in 0..5 {
            for request in self.requests(&register, random) {
                self.compare(run, &register, request, case);
            }
        }
    }

    fn test_defects(&self, run: &mut Run, random: &mut Random, case: Arguments) {
        let good = self.any_register(3, random);
        let month = random.pick(&good.rows).month;
        let place = good.places(month).start;
        let requests = self.requests(&good, random);
        for (name, spoil) in DEFECTS {
            let mut bad = good.clone();
            spoil(&mut bad, place);
            self.expect_malformed(run, &bad, &requests, format_args!("{case}, {name}"));
        }
    }

    /// An announcement cannot wait for a month that expires on the day, nor, where that is the
    /// last day of all, for the month after it.
    fn test_expiring(&self, run: &mut Run, random: &mut Random, case: Arguments) {
        let month = random.below(LATEST_FIRST_MONTH + 1);
        self.expect_not_to_wait(run, month, month, random, case);
        let last = LATEST_FIRST_MONTH;
        self.expect_not_to_wait(run, last, last + 1, random, case);
    }

    /// On the expiry day of the first live month, announcements of a month on the finest grid.
    fn expect_not_to_wait(
        &self,
        run: &mut Run,
        first: u16,
        month: u16,
        random: &mut Random,
        case: Arguments,
    ) {
        let mut register = made(first, self.calendar.expiry(first), 1, random);
        let requests = self.requests(&register, random);
        let span = register.span(month).expect("the month is live");
        for price in [5, 9_975] {
            if !span.contains(price) {
                register.waiting = vec![Announcement { month, price }];
                let case = format_args!("{case}, {price} of {month} waits on an expiry day");
                self.expect_malformed(run, &register, &requests, case);
            }
        }
    }

    /// Ladders of live months, on a day when no register can stand.
    fn test_too_late(&self, run: &mut Run, random: &mut Random, case: Arguments) {
        let first = LATEST_FIRST_MONTH + 1 + random.below(9);
        let day = self.live_day(first, random);
        let register = made(first, day, 1, random);
        let rows = Request::Rows {
            month: first.into(),
        };
        let case = format_args!("{case}, too late");
        self.expect_malformed(run, &register, &[rows], case);
    }

    /// All prices of all grids, new on the day: the longest file.
    fn test_all_new(&self, run: &mut Run, first: u16, random: &mut Random, case: Arguments) {
        let day = self.live_day(first, random);
        let mut rows = Vec::new();
        for (month, tier) in live_tiers(first) {
            for &price in grid::prices(tier) {
                rows.push(Row {
                    month,
                    price,
                    first_day: day,
                    origin: random.pick(&ORIGINS),
                });
            }
        }
        let register = Register {
            day,
            waiting: Vec::new(),
            rows,
        };
        assert_eq!(lengths::of_file(&register), MOST_FILE_BYTES);
        let mut pair = Pair::of(self.bytes, &written(&register));
        lengths::test_around(run, &register, &mut pair, case);
    }

    /// A well formed register with at least so many rows for each month.
    fn any_register(&self, least: usize, random: &mut Random) -> Register {
        let first = random.below(LATEST_FIRST_MONTH + 1);
        let register = made(first, self.live_day(first, random), least, random);
        let mut bytes = written(&register);
        for _ in 0..random.pick(&[0, 4, 80]) {
            let (month, price) = announcements::any(self.calendar, &register, random);
            // Only some of them can wait.
            let _ = calls::announce(self.bytes, &mut bytes, month, price);
        }
        let register = Register::read(self.calendar, &bytes);
        register.expect("it is well formed").expect("it is running")
    }

    /// A session day on which a month is the first live one; often its expiry date.
    fn live_day(&self, month: u16, random: &mut Random) -> u16 {
        let expiry = self.calendar.expiry(month);
        let from = first_day(month) + random.below(25);
        let session = self.calendar.next_session(from);
        session.map_or(expiry, |day| day.min(expiry))
    }

    /// A call of each kind.
    fn requests(&self, register: &Register, random: &mut Random) -> [Request; 5] {
        let day = register.next_session(self.calendar).into();
        let anywhere = closes::anywhere(random);
        let close = random.pick(&[LOWEST_CLOSE, anywhere, HIGHEST_CLOSE]);
        let (month, price) = announcements::any(self.calendar, register, random);
        let near_first = u32::from(register.rows[0].month + random.below(16));
        [
            Call::Start { day, close }.into(),
            Call::Session { day, close }.into(),
            Call::Announce { month, price }.into(),
            Request::Rows { month: near_first },
            Request::File {
                length: lengths::any(register, random),
            },
        ]
    }

    fn expect_malformed(
        &self,
        run: &mut Run,
        register: &Register,
        requests: &[Request],
        case: Arguments,
    ) {
        let read = Register::read(self.calendar, &written(register));
        assert_eq!(read, Err(RegisterError::Malformed), "{case}");
        for &request in requests {
            self.compare(run, register, request, case);
        }
    }

    fn compare(&self, run: &mut Run, register: &Register, request: Request, case: Arguments) {
        Pair::of(self.bytes, &written(register)).call(run, request, case);
    }
}

const ORIGINS: [Origin; 5] = [
    Origin::NewMonth,
    Origin::FinerGrid,
    Origin::Close,
    Origin::Announcement,
    Origin::Start,
];

/// Ladders anywhere on the grids of the live months, with any first days and origins; few of the
/// rows are new on the day, or many, or all.
fn made(first: u16, day: u16, least: usize, random: &mut Random) -> Register {
    let new_one_in = random.pick(&[1, 5, 30, 1_000]);
    let mut rows = Vec::new();
    for (month, tier) in live_tiers(first) {
        for &price in stretch(tier, least, random) {
            rows.push(Row {
                month,
                price,
                first_day: if random.one_in(new_one_in) {
                    day
                } else {
                    random.within(0..=day.into()) as u16
                },
                origin: random.pick(&ORIGINS),
            });
        }
    }
    Register {
        day,
        waiting: Vec::new(),
        rows,
    }
}

/// Some prices next to each other on a grid.
fn stretch(tier: Tier, least: usize, random: &mut Random) -> &'static [u16] {
    let prices = grid::prices(tier);
    let length = random.pick(&[least, 10, 100, prices.len()]);
    let places = prices.len() - length + 1;
    &prices[usize::from(random.below(places as u16))..][..length]
}

fn written(register: &Register) -> [u8; REGISTER_BYTES] {
    let mut bytes = [0; REGISTER_BYTES];
    register.write(&mut bytes);
    bytes
}
