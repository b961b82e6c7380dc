//! Months and prices to announce.

use independent::register::Span;
use independent::{grid, live_months, tier, Calendar, Register, Tier};

use crate::numbers::Random;

/// A month and a price to announce. About every second is accepted, if there is room.
pub fn any(calendar: Calendar, register: &Register, random: &mut Random) -> (u32, u32) {
    let first = calendar.first_live_month(register.day);
    let next_first = calendar.first_live_month(register.next_session(calendar));
    let live = random.pick(&live_months(first));
    let month = match random.below(16) {
        // It may expire on the register's day.
        0 => first.into(),
        // It may be live from the next session day on, and not before.
        1 => random.pick(&live_months(next_first)).into(),
        2 => random.below(1_210).into(),
        // Cut to 16 bits it is live.
        3 => 65_536 + u32::from(live),
        _ => live.into(),
    };
    let price = Ladder::new(register, live, next_first).price(register, random);
    (month, price)
}

/// What prices of a live month are chosen by.
struct Ladder {
    span: Span,
    /// The prices of the next session day.
    prices: &'static [u16],
}

impl Ladder {
    fn new(register: &Register, month: u16, next_first: u16) -> Self {
        // A month that expires before has no tier then.
        let tier = tier(next_first, month).unwrap_or(Tier::N);
        Self {
            span: register.span(month).expect("a live month has a ladder"),
            prices: grid::prices(tier),
        }
    }

    fn price(&self, register: &Register, random: &mut Random) -> u32 {
        let beside = u32::from(self.beside(random));
        match random.below(16) {
            0 => self.prices[0].into(),
            1 => self.prices[self.prices.len() - 1].into(),
            2 => random.pick(grid::prices(Tier::N)).into(),
            3 => random.within(self.span.low.into()..=self.span.high.into()),
            4 if !register.waiting.is_empty() => random.pick(&register.waiting).price.into(),
            // On no grid, or on a finer one.
            5 => beside + random.pick(&[1, 5, 10, 20, 25, 50]),
            // Cut to 16 bits it is on the grid.
            6 => 65_536 + beside,
            7 => random.pick(&[0, 10_000, u32::MAX]),
            _ => beside,
        }
    }

    /// A price up to 20 places above or below the ladder, or at the end of the grid.
    fn beside(&self, random: &mut Random) -> u16 {
        let places = usize::from(random.below(20));
        let prices = self.prices;
        if random.one_in(2) {
            let above = prices.partition_point(|&price| price <= self.span.high);
            prices[(above + places).min(prices.len() - 1)]
        } else {
            let from_lowest = prices.partition_point(|&price| price < self.span.low);
            prices[from_lowest.saturating_sub(1 + places)]
        }
    }
}
