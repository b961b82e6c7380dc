//! The history of demand 3: what a register must hold after a list of calls, told from the calls
//! and the numbers that they returned. It never looks into a register. With the engine it shares
//! the calendar, the live months, the grids and what a close requires, and nothing else.

use std::collections::BTreeMap;

use crate::calendar::{live_months, tier, Calendar};
use crate::grid;

/// A call and its arguments.
#[derive(Debug, Clone, Copy, PartialEq, Eq)]
pub enum Call {
    Start { day: u32, close: u32 },
    Session { day: u32, close: u32 },
    Announce { month: u32, price: u32 },
}

/// A month and one of its prices.
type Strike = (u16, u16);

/// What the history keeps.
#[derive(Debug, Clone)]
pub struct History<'a> {
    calendar: Option<Calendar<'a>>,
    day: Option<u16>,
    waiting: Vec<Strike>,
    /// The lowest and the highest price of each live month.
    ends: BTreeMap<u16, (u16, u16)>,
    first_days: BTreeMap<Strike, u16>,
}

impl<'a> History<'a> {
    /// The history before the first call. The calendar is that of the whole list.
    pub fn new(calendar: &'a [u8]) -> Self {
        Self {
            calendar: Calendar::check(calendar).ok(),
            day: None,
            waiting: Vec::new(),
            ends: BTreeMap::new(),
            first_days: BTreeMap::new(),
        }
    }

    /// Takes in a call with the number that it returned. An accepted call's arguments are taken
    /// for such as can be accepted.
    pub fn feed(&mut self, call: Call, number: u16) {
        if number != 0 {
            return;
        }
        match call {
            Call::Start { day, close } => self.start(narrow(day), close),
            Call::Session { day, close } => self.session(narrow(day), close),
            Call::Announce { month, price } => self.waiting.push((narrow(month), narrow(price))),
        }
    }

    fn start(&mut self, day: u16, close: u32) {
        self.day = Some(day);
        let first = self.first_live_month(day);
        for month in live_months(first) {
            self.ends.insert(month, required_ends(first, month, close));
        }
        self.give_first_days(first, day);
    }

    fn session(&mut self, day: u16, close: u32) {
        self.day = Some(day);
        let first = self.first_live_month(day);
        let live = live_months(first);
        self.ends.retain(|month, _| live.contains(month));
        self.first_days.retain(|(month, _), _| live.contains(month));
        for month in live {
            let required = required_ends(first, month, close);
            let Some(ends) = self.ends.get_mut(&month) else {
                self.ends.insert(month, required);
                continue;
            };
            take_in(ends, required.0);
            take_in(ends, required.1);
            for strike in self.waiting.iter().filter(|strike| strike.0 == month) {
                take_in(ends, strike.1);
            }
        }
        self.waiting.clear();
        self.give_first_days(first, day);
    }

    /// Gives the day to the prices from lowest to highest that have no first day.
    fn give_first_days(&mut self, first: u16, day: u16) {
        for strike in self.strikes(first) {
            self.first_days.entry(strike).or_insert(day);
        }
    }

    /// Each live month's grid prices from its lowest to its highest, ascending by month, then
    /// price.
    fn strikes(&self, first: u16) -> Vec<Strike> {
        let mut strikes = Vec::new();
        for (&month, &(lowest, highest)) in &self.ends {
            let tier = tier(first, month).expect("the months kept are live");
            let prices = grid::prices(tier).iter();
            let listed = prices.filter(|&&price| lowest <= price && price <= highest);
            strikes.extend(listed.map(|&price| (month, price)));
        }
        strikes
    }

    fn first_live_month(&self, day: u16) -> u16 {
        let calendar = self.calendar.expect("an accepted call had a good calendar");
        calendar.first_live_month(day)
    }

    /// What the register must hold now; where that is nothing, it must be all zero.
    pub fn demand(&self) -> Option<Demand> {
        let day = self.day?;
        let strikes = self.strikes(self.first_live_month(day));
        let rows = strikes.into_iter().map(|(month, price)| Row {
            month,
            price,
            first_day: self.first_days[&(month, price)],
        });
        Some(Demand {
            day,
            rows: rows.collect(),
        })
    }

    /// Compares a register's bytes with what they must hold.
    pub fn judge(&self, register: &[u8]) -> Result<(), Complaint> {
        if register.len() != REGISTER_BYTES {
            return Err(Complaint::Length(register.len()));
        }
        match self.demand() {
            Some(demand) => demand.judge(register),
            None => match register.iter().position(|&byte| byte != 0) {
                Some(at) => Err(Complaint::NotEmpty { at }),
                None => Ok(()),
            },
        }
    }
}

/// The least and the greatest price that a close requires of a live month.
fn required_ends(first: u16, month: u16, close: u32) -> (u16, u16) {
    let tier = tier(first, month).expect("the month is live");
    let required = grid::required(tier, close);
    (required[0], required[required.len() - 1])
}

/// Moves the ends outwards, where need be, to a price.
fn take_in((lowest, highest): &mut (u16, u16), price: u16) {
    *lowest = price.min(*lowest);
    *highest = price.max(*highest);
}

fn narrow(argument: u32) -> u16 {
    let argument = argument.try_into();
    argument.expect("days, months and prices that are accepted have 16 bits")
}

const REGISTER_BYTES: usize = 11_264;
const ROWS_AT: usize = 136;
const ROW_BYTES: usize = 8;
/// The most rows that demand 3 allows.
const MOST_ROWS: usize = 1_391;

/// What a running register must hold.
#[derive(Debug, Clone, PartialEq, Eq)]
pub struct Demand {
    pub day: u16,
    /// Ascending by month, then price.
    pub rows: Vec<Row>,
}

/// A row as the history knows it, without its origin.
#[derive(Debug, Clone, Copy, PartialEq, Eq)]
pub struct Row {
    pub month: u16,
    pub price: u16,
    pub first_day: u16,
}

/// The first thing in a register that is not as it must be.
#[derive(Debug, Clone, Copy, PartialEq, Eq)]
pub enum Complaint {
    Length(usize),
    /// No start was accepted, yet this byte is not zero.
    NotEmpty {
        at: usize,
    },
    Day {
        found: u16,
        demanded: u16,
    },
    Count {
        found: usize,
        demanded: usize,
    },
    TooMany(usize),
    Row {
        place: usize,
        found: Row,
        demanded: Row,
    },
}

impl Demand {
    fn judge(&self, register: &[u8]) -> Result<(), Complaint> {
        let (found, demanded) = (word(register, 2), self.day);
        if found != demanded {
            return Err(Complaint::Day { found, demanded });
        }
        let (found, demanded) = (usize::from(word(register, 4)), self.rows.len());
        if found != demanded {
            return Err(Complaint::Count { found, demanded });
        }
        if found > MOST_ROWS {
            return Err(Complaint::TooMany(found));
        }
        let rows = register[ROWS_AT..].chunks_exact(ROW_BYTES).map(Row::read);
        for (place, (found, &demanded)) in rows.zip(&self.rows).enumerate() {
            if found != demanded {
                return Err(Complaint::Row {
                    place,
                    found,
                    demanded,
                });
            }
        }
        Ok(())
    }
}

impl Row {
    fn read(bytes: &[u8]) -> Self {
        Self {
            month: word(bytes, 0),
            price: word(bytes, 2),
            first_day: word(bytes, 4),
        }
    }
}

fn word(bytes: &[u8], at: usize) -> u16 {
    u16::from(bytes[at]) + 256 * u16::from(bytes[at + 1])
}

#[cfg(test)]
mod tests {
    use super::*;
    use crate::calendar::{bytes_of, CALENDAR_BYTES};
    use crate::dates::DAYS;

    /// The third Friday of June 2026, month 317.
    const JUNE_EXPIRY: u32 = 9_666;

    fn every_day() -> [u8; CALENDAR_BYTES] {
        bytes_of(0..DAYS)
    }

    fn start(day: u32, close: u32) -> Call {
        Call::Start { day, close }
    }

    fn session(day: u32, close: u32) -> Call {
        Call::Session { day, close }
    }

    fn demand_after(calls: &[Call]) -> Demand {
        let calendar = every_day();
        let mut history = History::new(&calendar);
        for &call in calls {
            history.feed(call, 0);
        }
        history.demand().unwrap()
    }

    /// The lowest and the highest price of a month, and how many of its rows came on which day.
    fn ladder(demand: &Demand, month: u16) -> (u16, u16, BTreeMap<u16, usize>) {
        let rows: Vec<&Row> = demand
            .rows
            .iter()
            .filter(|row| row.month == month)
            .collect();
        let mut days = BTreeMap::new();
        for row in &rows {
            *days.entry(row.first_day).or_default() += 1;
        }
        (rows[0].price, rows[rows.len() - 1].price, days)
    }

    #[test]
    fn a_start_demands_94_rows() {
        let demand = demand_after(&[start(JUNE_EXPIRY, 241_337)]);
        assert_eq!(demand.day, 9_666);
        assert_eq!(demand.rows.len(), 94);
        assert!(demand.rows.iter().all(|row| row.first_day == 9_666));
    }

    #[test]
    fn a_finer_grid_fills_the_ladder() {
        let demand = demand_after(&[
            start(JUNE_EXPIRY, 241_337),
            session(JUNE_EXPIRY + 1, 241_337),
        ]);
        let days = BTreeMap::from([(9_666, 9), (9_667, 8)]);
        assert_eq!(ladder(&demand, 320), (2_000, 2_800, days));
    }

    #[test]
    fn a_far_close_widens_and_its_return_takes_nothing_back() {
        let demand = demand_after(&[
            start(JUNE_EXPIRY - 2, 241_337),
            session(JUNE_EXPIRY - 1, 341_337),
            session(JUNE_EXPIRY, 241_337),
        ]);
        let days = BTreeMap::from([(9_664, 17), (9_665, 20)]);
        assert_eq!(ladder(&demand, 318), (2_000, 3_800, days));
    }

    #[test]
    fn an_announced_price_comes_with_the_next_session_and_once() {
        let announce = Call::Announce {
            month: 318,
            price: 3_100,
        };
        let calls = [
            start(JUNE_EXPIRY - 2, 241_337),
            announce,
            session(JUNE_EXPIRY - 1, 241_337),
            session(JUNE_EXPIRY, 241_337),
        ];
        let (_, highest, _) = ladder(&demand_after(&calls[..2]), 318);
        assert_eq!(highest, 2_800);
        let days = BTreeMap::from([(9_664, 17), (9_665, 6)]);
        assert_eq!(ladder(&demand_after(&calls), 318), (2_000, 3_100, days));
    }

    #[test]
    fn an_expired_month_goes_and_a_new_one_comes() {
        let demand = demand_after(&[
            start(JUNE_EXPIRY, 241_337),
            session(JUNE_EXPIRY + 1, 341_337),
        ]);
        let mut months: Vec<u16> = demand.rows.iter().map(|row| row.month).collect();
        months.dedup();
        assert_eq!(months, [318, 319, 320, 323, 326, 329]);
        let days = BTreeMap::from([(9_667, 9)]);
        assert_eq!(ladder(&demand, 329), (3_000, 3_800, days));
    }

    #[test]
    fn refused_calls_leave_it_as_it_is() {
        let mut history = History::new(&[]);
        history.feed(start(JUNE_EXPIRY, 241_337), 11);
        assert_eq!(history.demand(), None);
        let mut register = [0; REGISTER_BYTES];
        assert_eq!(history.judge(&register), Ok(()));
        register[9] = 1;
        assert_eq!(history.judge(&register), Err(Complaint::NotEmpty { at: 9 }));
    }
}
