//! Start, session, announce and rows. Causes are tried in document 01's order; a refusal changes no
//! byte.

use std::ops::Range;

use crate::calendar::{live_tiers, Calendar};
use crate::grid::{self, Tier, HIGHEST_CLOSE, LOWEST_CLOSE};
use crate::register::{
    first_month, Announcement, Origin, Register, RegisterError, Row, Span, MOST_ANNOUNCEMENTS,
    ROWS_AT, ROW_BYTES,
};

/// What a start or a session did.
#[derive(Debug, Clone, Copy, PartialEq, Eq)]
pub struct Listing {
    /// Rows whose first day is the new day.
    pub added: u16,
    /// Old rows of the month that expired.
    pub removed: u16,
    /// Rows that stand now.
    pub rows: u16,
}

/// Starts an empty register on a session day.
pub fn start(
    calendar: &[u8],
    bytes: &mut [u8],
    day: u32,
    close: u32,
) -> Result<Listing, RegisterError> {
    let calendar = Calendar::check(calendar)?;
    if Register::read(calendar, bytes)?.is_some() {
        return Err(RegisterError::Running);
    }
    let day = session_day(calendar, day)?;
    let first = first_month(calendar, day)?;
    check_close(close)?;

    let mut rows = Vec::new();
    for (month, tier) in live_tiers(first) {
        let span = required_span(tier, close);
        extend(&mut rows, tier, span, &[], |price| Row {
            month,
            price,
            first_day: day,
            origin: Origin::Start,
        });
    }
    Ok(put(bytes, day, rows, 0))
}

/// Moves a register to the next session day, with the close before it.
pub fn session(
    calendar: &[u8],
    bytes: &mut [u8],
    day: u32,
    close: u32,
) -> Result<Listing, RegisterError> {
    let calendar = Calendar::check(calendar)?;
    let old = running(calendar, bytes)?;
    let next = old.next_session(calendar);
    if day != next.into() {
        return Err(RegisterError::NotNextSession);
    }
    let first = first_month(calendar, next)?;
    check_close(close)?;

    let mut rows = Vec::with_capacity(old.rows.len());
    for (month, tier) in live_tiers(first) {
        let reach = Reach::new(&old, month, required_span(tier, close));
        extend(&mut rows, tier, reach.whole, old.ladder(month), |price| {
            Row {
                month,
                price,
                first_day: next,
                origin: reach.origin(price),
            }
        });
    }
    let expired = old.rows.partition_point(|row| row.month < first);
    Ok(put(bytes, next, rows, expired))
}

/// Announces a price of a month for the next session, and tells how many wait.
pub fn announce(
    calendar: &[u8],
    bytes: &mut [u8],
    month: u32,
    price: u32,
) -> Result<u16, RegisterError> {
    let calendar = Calendar::check(calendar)?;
    let register = running(calendar, bytes)?;
    let next_first = register.next_first_month(calendar)?;
    let waiting = &register.waiting;
    let announcement = register.check_announcement(calendar, next_first, month, price, waiting)?;
    if waiting.len() == MOST_ANNOUNCEMENTS {
        return Err(RegisterError::Full);
    }
    announcement.append(bytes, waiting.len());
    Ok(waiting.len() as u16 + 1)
}

/// The stretch of a register's bytes that holds a month's rows.
pub fn rows(calendar: &[u8], bytes: &[u8], month: u32) -> Result<Range<usize>, RegisterError> {
    let calendar = Calendar::check(calendar)?;
    let register = running(calendar, bytes)?;
    let month = u16::try_from(month).map_err(|_| RegisterError::NotLive)?;
    let places = register.places(month);
    if places.is_empty() {
        return Err(RegisterError::NotLive);
    }
    Ok(ROWS_AT + ROW_BYTES * places.start..ROWS_AT + ROW_BYTES * places.end)
}

pub(crate) fn running(calendar: Calendar, bytes: &[u8]) -> Result<Register, RegisterError> {
    Register::read(calendar, bytes)?.ok_or(RegisterError::Empty)
}

fn session_day(calendar: Calendar, day: u32) -> Result<u16, RegisterError> {
    match u16::try_from(day) {
        Ok(day) if calendar.has_session(day) => Ok(day),
        _ => Err(RegisterError::NoSession),
    }
}

fn check_close(close: u32) -> Result<(), RegisterError> {
    if !(LOWEST_CLOSE..=HIGHEST_CLOSE).contains(&close) {
        return Err(RegisterError::Close);
    }
    Ok(())
}

fn required_span(tier: Tier, close: u32) -> Span {
    let required = grid::required(tier, close);
    Span {
        low: required[0],
        high: required[required.len() - 1],
    }
}

/// How far a month's ladder reaches: before a session, by its close, and with what was announced.
struct Reach {
    before: Option<Span>,
    by_close: Span,
    whole: Span,
}

impl Reach {
    fn new(old: &Register, month: u16, required: Span) -> Self {
        let before = old.span(month);
        let by_close = before.map_or(required, |before| before.joined(required));
        let announced = old.waiting.iter().filter(|one| one.month == month);
        let whole = announced.fold(by_close, |span, &Announcement { price, .. }| {
            span.joined(Span {
                low: price,
                high: price,
            })
        });
        Self {
            before,
            by_close,
            whole,
        }
    }

    /// The origin of a row that is new.
    fn origin(&self, price: u16) -> Origin {
        match self.before {
            None => Origin::NewMonth,
            Some(before) if before.contains(price) => Origin::FinerGrid,
            Some(_) if self.by_close.contains(price) => Origin::Close,
            Some(_) => Origin::Announcement,
        }
    }
}

/// Adds a month's ladder to the rows: those that stand stay as they are, the rest is new.
fn extend(
    rows: &mut Vec<Row>,
    tier: Tier,
    span: Span,
    mut standing: &[Row],
    new: impl Fn(u16) -> Row,
) {
    for &price in grid::between(tier, span.low, span.high) {
        match standing {
            [row, rest @ ..] if row.price == price => {
                rows.push(*row);
                standing = rest;
            }
            _ => rows.push(new(price)),
        }
    }
}

/// Writes the register of a new day and tells what was done.
fn put(bytes: &mut [u8], day: u16, rows: Vec<Row>, removed: usize) -> Listing {
    let added = rows.iter().filter(|row| row.first_day == day).count();
    let listing = Listing {
        added: added as u16,
        removed: removed as u16,
        rows: rows.len() as u16,
    };
    let register = Register {
        day,
        waiting: Vec::new(),
        rows,
    };
    register.write(bytes);
    listing
}

#[cfg(test)]
mod tests {
    use super::*;
    use crate::desk::Desk;
    use crate::register::MOST_ROWS;
    use crate::CalendarError;

    /// The third Friday of June 2026, month 317.
    const JUNE_EXPIRY: u32 = 9_666;
    const CLOSE: u32 = 241_337;

    impl Desk {
        fn register(&self) -> Register {
            let calendar = Calendar::check(&self.calendar).unwrap();
            running(calendar, &self.bytes).unwrap()
        }

        /// The span of a month's rows of one origin, and how many they are.
        fn of_origin(&self, month: u16, origin: Origin) -> (u16, u16, usize) {
            let register = self.register();
            let rows = register.ladder(month).iter();
            let prices: Vec<u16> = rows
                .filter(|row| row.origin == origin)
                .map(|row| row.price)
                .collect();
            (prices[0], prices[prices.len() - 1], prices.len())
        }

        fn span(&self, month: u16) -> (u16, u16) {
            let span = self.register().span(month).unwrap();
            (span.low, span.high)
        }
    }

    fn listing(added: u16, removed: u16, rows: u16) -> Result<Listing, RegisterError> {
        Ok(Listing {
            added,
            removed,
            rows,
        })
    }

    #[test]
    fn a_start_adds_94_rows() {
        let mut desk = Desk::empty();
        assert_eq!(desk.start(JUNE_EXPIRY, CLOSE), listing(94, 0, 94));
        assert_eq!(desk.of_origin(317, Origin::Start), (2_025, 2_825, 33));
        for (month, count) in [(318, 17), (319, 17), (320, 9), (323, 9), (326, 9)] {
            assert_eq!(desk.of_origin(month, Origin::Start), (2_000, 2_800, count));
        }
    }

    #[test]
    fn a_finer_grid_fills_a_ladder() {
        let mut desk = Desk::started(JUNE_EXPIRY, CLOSE);
        // 318 gets 16 between and one at the top, 320 gets 8 and the new month 329 nine.
        let added = 17 + 8 + 9;
        let session = desk.session(JUNE_EXPIRY + 1, CLOSE);
        assert_eq!(session, listing(added, 33, 94 - 33 + added));
        assert_eq!(desk.register().ladder(320).len(), 17);
        assert_eq!(desk.of_origin(320, Origin::FinerGrid), (2_050, 2_750, 8));
        assert_eq!(desk.of_origin(318, Origin::FinerGrid), (2_025, 2_775, 16));
        assert_eq!(desk.of_origin(318, Origin::Close), (2_825, 2_825, 1));
        assert_eq!(desk.of_origin(329, Origin::NewMonth), (2_000, 2_800, 9));
    }

    #[test]
    fn a_far_close_lists_what_lies_between_and_its_return_takes_nothing_back() {
        let mut desk = Desk::started(JUNE_EXPIRY - 2, CLOSE);
        desk.session(JUNE_EXPIRY - 1, 341_337).unwrap();
        assert_eq!(desk.span(318), (2_000, 3_800));
        assert_eq!(desk.register().ladder(318).len(), 37);
        assert_eq!(desk.of_origin(318, Origin::Close), (2_850, 3_800, 20));
        let rows = desk.register().rows;
        let session = desk.session(JUNE_EXPIRY, CLOSE);
        assert_eq!(session, listing(0, 0, rows.len() as u16));
        assert_eq!(desk.register().rows, rows);
    }

    #[test]
    fn an_announced_price_comes_with_the_next_session() {
        let mut desk = Desk::started(JUNE_EXPIRY - 2, CLOSE);
        assert_eq!(desk.announce(318, 3_100), Ok(1));
        assert_eq!(desk.announce(318, 3_100), Err(RegisterError::Known));
        assert_eq!(desk.session(JUNE_EXPIRY - 1, CLOSE), listing(6, 0, 100));
        assert_eq!(desk.of_origin(318, Origin::Announcement), (2_850, 3_100, 6));
        assert_eq!(desk.register().waiting, []);
    }

    #[test]
    fn the_grids_in_full_are_1391_rows() {
        let mut desk = Desk::started(JUNE_EXPIRY - 2, LOWEST_CLOSE);
        desk.session(JUNE_EXPIRY - 1, HIGHEST_CLOSE).unwrap();
        desk.announce(317, 5).unwrap();
        desk.announce(317, 9_975).unwrap();
        let session = desk.session(JUNE_EXPIRY, CLOSE);
        assert_eq!(session, listing(2, 0, MOST_ROWS as u16));
        for (month, tier) in live_tiers(317) {
            assert_eq!(
                desk.register().ladder(month).len(),
                grid::prices(tier).len()
            );
        }
    }

    #[test]
    fn a_month_stays_on_its_expiry_day_and_takes_no_announcement() {
        let mut desk = Desk::started(JUNE_EXPIRY - 1, CLOSE);
        assert_eq!(desk.announce(317, 3_000), Ok(1));
        desk.session(JUNE_EXPIRY, CLOSE).unwrap();
        assert_eq!(desk.span(317), (2_025, 3_000));
        assert_eq!(desk.announce(317, 3_100), Err(RegisterError::MonthClosed));
        // 318 has the grid of the nearest month at the next session, 329 is not live before it.
        assert_eq!(desk.announce(318, 3_025), Ok(1));
        assert_eq!(desk.announce(329, 3_000), Err(RegisterError::MonthClosed));
    }

    #[test]
    fn the_last_first_month_is_march_2099() {
        let last_day = crate::dates::third_friday(1_190).into();
        let mut desk = Desk::empty();
        assert_eq!(desk.start(last_day + 1, 0), Err(RegisterError::TooLate));
        desk.start(last_day, CLOSE).unwrap();
        let session = desk.session(last_day + 1, 0);
        assert_eq!(session, Err(RegisterError::TooLate));
        assert_eq!(desk.announce(9, 9), Err(RegisterError::TooLate));
    }

    #[test]
    fn causes_come_in_their_order() {
        let mut desk = Desk::empty();
        let lengths = Err(RegisterError::Calendar(CalendarError::Length));
        assert_eq!(start(&[], &mut [1], 0, 0), lengths);
        let length = Err(RegisterError::Length);
        assert_eq!(start(&desk.calendar, &mut [1], 0, 0), length);
        assert_eq!(desk.session(0, 0), Err(RegisterError::Empty));
        assert_eq!(desk.start(36_525, 0), Err(RegisterError::NoSession));
        assert_eq!(desk.start(JUNE_EXPIRY, 0), Err(RegisterError::Close));
        desk.start(JUNE_EXPIRY, CLOSE).unwrap();
        assert_eq!(desk.start(36_525, 0), Err(RegisterError::Running));
        assert_eq!(desk.session(0, 0), Err(RegisterError::NotNextSession));
        let next = JUNE_EXPIRY + 1;
        assert_eq!(desk.session(next, 955_000), Err(RegisterError::Close));
        assert_eq!(desk.announce(317, 1), Err(RegisterError::MonthClosed));
        assert_eq!(desk.announce(318, 2_401), Err(RegisterError::OffGrid));
        assert_eq!(desk.announce(318, 2_400), Err(RegisterError::Known));
        desk.bytes[7] = 1;
        assert_eq!(desk.start(36_525, 0), Err(RegisterError::Malformed));
    }

    #[test]
    fn rows_lie_behind_those_of_the_month_before() {
        let desk = Desk::started(JUNE_EXPIRY, CLOSE);
        let rows = |month| rows(&desk.calendar, &desk.bytes, month);
        assert_eq!(rows(317), Ok(136..136 + 33 * 8));
        assert_eq!(rows(318), Ok(136 + 33 * 8..136 + 50 * 8));
        for month in [0, 316, 321, 329, 65_536 + 317] {
            assert_eq!(rows(month), Err(RegisterError::NotLive));
        }
    }
}
