//! The register in memory and as bytes, and which bytes are a register.

use std::ops::Range;

use crate::calendar::{live_tiers, tier, Calendar, CalendarError};
use crate::grid::{self, Tier};

/// The length of a register in bytes.
pub const REGISTER_BYTES: usize = 11_264;
/// How many announcements can wait.
pub const MOST_ANNOUNCEMENTS: usize = 32;
/// How many rows can stand: all three grids of all six months in full.
pub const MOST_ROWS: usize = 1_391;
/// The length of a row in bytes.
pub const ROW_BYTES: usize = 8;
/// Where the first row begins.
pub const ROWS_AT: usize = 136;
/// The latest first live month: March 2099, whose last live month is the last of all.
pub const LATEST_FIRST_MONTH: u16 = 1_190;

const ANNOUNCEMENTS_AT: usize = 8;
const ANNOUNCEMENT_BYTES: usize = 4;
const RUNNING: u8 = 1;

/// Why a call on a register is refused.
#[derive(Debug, Clone, Copy, PartialEq, Eq)]
pub enum RegisterError {
    Calendar(CalendarError),
    /// The length is not 11,264.
    Length,
    /// The bytes are neither an empty register nor a well formed one.
    Malformed,
    /// The register to start is running.
    Running,
    /// The register is empty.
    Empty,
    /// There is no session on the day of a start.
    NoSession,
    /// The day of a session is not the next session day.
    NotNextSession,
    /// The first live month would come after March 2099.
    TooLate,
    /// The close is below 9,000 or above 954,999.
    Close,
    /// The month announced is not live, or its last session has come.
    MonthClosed,
    /// The price announced is not on the grid of the next session.
    OffGrid,
    /// The price announced lies within the ladder, or waits already.
    Known,
    /// 32 announcements wait.
    Full,
    /// The month of the rows is not live.
    NotLive,
}

impl RegisterError {
    /// The number of the cause in document 01.
    pub fn number(self) -> u16 {
        match self {
            Self::Calendar(error) => error.number(),
            Self::Length => 14,
            Self::Malformed => 15,
            Self::Running => 16,
            Self::Empty => 17,
            Self::NoSession => 18,
            Self::NotNextSession => 19,
            Self::TooLate => 20,
            Self::Close => 21,
            Self::MonthClosed => 22,
            Self::OffGrid => 23,
            Self::Known => 24,
            Self::Full => 25,
            Self::NotLive => 26,
        }
    }
}

impl From<CalendarError> for RegisterError {
    fn from(error: CalendarError) -> Self {
        Self::Calendar(error)
    }
}

/// What brought a row into the register.
#[derive(Debug, Clone, Copy, PartialEq, Eq)]
pub enum Origin {
    NewMonth = 1,
    FinerGrid = 2,
    Close = 3,
    Announcement = 4,
    Start = 5,
}

impl Origin {
    fn of_byte(byte: u8) -> Option<Self> {
        Some(match byte {
            1 => Self::NewMonth,
            2 => Self::FinerGrid,
            3 => Self::Close,
            4 => Self::Announcement,
            5 => Self::Start,
            _ => return None,
        })
    }
}

/// A listed strike, its call and its put together.
#[derive(Debug, Clone, Copy, PartialEq, Eq)]
pub struct Row {
    pub month: u16,
    pub price: u16,
    pub first_day: u16,
    pub origin: Origin,
}

impl Row {
    fn read(bytes: &[u8; ROW_BYTES]) -> Option<Self> {
        if bytes[7] != 0 {
            return None;
        }
        Some(Self {
            month: number_at(bytes, 0),
            price: number_at(bytes, 2),
            first_day: number_at(bytes, 4),
            origin: Origin::of_byte(bytes[6])?,
        })
    }

    fn write(self, bytes: &mut [u8; ROW_BYTES]) {
        put_number(bytes, 0, self.month);
        put_number(bytes, 2, self.price);
        put_number(bytes, 4, self.first_day);
        bytes[6] = self.origin as u8;
        bytes[7] = 0;
    }
}

/// A strike that the next session introduces.
#[derive(Debug, Clone, Copy, PartialEq, Eq)]
pub struct Announcement {
    pub month: u16,
    pub price: u16,
}

impl Announcement {
    fn read(bytes: &[u8; ANNOUNCEMENT_BYTES]) -> Self {
        Self {
            month: number_at(bytes, 0),
            price: number_at(bytes, 2),
        }
    }

    /// Writes it behind so many others that wait.
    pub(crate) fn append(self, register: &mut [u8], waiting: usize) {
        let place = &mut register[ANNOUNCEMENTS_AT + ANNOUNCEMENT_BYTES * waiting..];
        put_number(place, 0, self.month);
        put_number(place, 2, self.price);
        register[1] = waiting as u8 + 1;
    }
}

/// A running register.
#[derive(Debug, Clone, PartialEq, Eq)]
pub struct Register {
    pub day: u16,
    /// In the order received.
    pub waiting: Vec<Announcement>,
    /// Ascending by month, then price.
    pub rows: Vec<Row>,
}

impl Register {
    /// Takes bytes as a register, none for an empty one, or says why not.
    pub fn read(calendar: Calendar, bytes: &[u8]) -> Result<Option<Self>, RegisterError> {
        if bytes.len() != REGISTER_BYTES {
            return Err(RegisterError::Length);
        }
        if is_zero(bytes) {
            return Ok(None);
        }
        match Self::read_layout(bytes) {
            Some(register) if register.is_well_formed(calendar) => Ok(Some(register)),
            _ => Err(RegisterError::Malformed),
        }
    }

    /// What stands in bytes that keep the layout.
    fn read_layout(bytes: &[u8]) -> Option<Self> {
        let waiting = usize::from(bytes[1]);
        let rows = usize::from(number_at(bytes, 4));
        if bytes[0] != RUNNING
            || waiting > MOST_ANNOUNCEMENTS
            || rows > MOST_ROWS
            || !is_zero(&bytes[6..8])
        {
            return None;
        }
        let (waiting, unused_places) =
            bytes[ANNOUNCEMENTS_AT..ROWS_AT].split_at(ANNOUNCEMENT_BYTES * waiting);
        let (rows, unused_rows) = bytes[ROWS_AT..].split_at(ROW_BYTES * rows);
        if !is_zero(unused_places) || !is_zero(unused_rows) {
            return None;
        }
        let (waiting, _) = waiting.as_chunks();
        let (rows, _) = rows.as_chunks();
        Some(Self {
            day: number_at(bytes, 2),
            waiting: waiting.iter().map(Announcement::read).collect(),
            rows: rows.iter().map(Row::read).collect::<Option<_>>()?,
        })
    }

    fn is_well_formed(&self, calendar: Calendar) -> bool {
        calendar.has_session(self.day)
            && first_month(calendar, self.day).is_ok_and(|first| self.has_ladders(first))
            && self.rows.iter().all(|row| row.first_day <= self.day)
            && self.can_wait_together(calendar)
    }

    /// Whether the rows are a ladder without gaps for each live month, and no others.
    fn has_ladders(&self, first: u16) -> bool {
        let mut ladders = self.rows.chunk_by(|row, next| row.month == next.month);
        let all_there = live_tiers(first).all(|(month, tier)| {
            ladders
                .next()
                .is_some_and(|ladder| ladder[0].month == month && has_no_gap(ladder, tier))
        });
        all_there && ladders.next().is_none()
    }

    fn can_wait_together(&self, calendar: Calendar) -> bool {
        let Ok(next_first) = self.next_first_month(calendar) else {
            return self.waiting.is_empty();
        };
        let mut waiting = self.waiting.iter().enumerate();
        waiting.all(|(place, one)| {
            // Of two that are alike, the later one finds the earlier.
            let others = &self.waiting[..place];
            self.check_announcement(
                calendar,
                next_first,
                one.month.into(),
                one.price.into(),
                others,
            )
            .is_ok()
        })
    }

    /// Takes a month and a price as an announcement beside others, or says why not: causes 22 to
    /// 24, where `next_first` is the first live month of the next session day.
    pub(crate) fn check_announcement(
        &self,
        calendar: Calendar,
        next_first: u16,
        month: u32,
        price: u32,
        others: &[Announcement],
    ) -> Result<Announcement, RegisterError> {
        let month = u16::try_from(month).map_err(|_| RegisterError::MonthClosed)?;
        let span = self.span(month).ok_or(RegisterError::MonthClosed)?;
        if calendar.expiry(month) <= self.day {
            return Err(RegisterError::MonthClosed);
        }
        let next_tier = tier(next_first, month).expect("the month has not expired by then");
        if !grid::has_price(next_tier, price) {
            return Err(RegisterError::OffGrid);
        }
        let announcement = Announcement {
            month,
            price: price as u16,
        };
        if span.contains(announcement.price) || others.contains(&announcement) {
            return Err(RegisterError::Known);
        }
        Ok(announcement)
    }

    /// The first live month of the next session day; cause 20.
    pub(crate) fn next_first_month(&self, calendar: Calendar) -> Result<u16, RegisterError> {
        first_month(calendar, self.next_session(calendar))
    }

    /// The session day after the register's.
    pub fn next_session(&self, calendar: Calendar) -> u16 {
        calendar
            .next_session(self.day)
            .expect("months after the first live one have sessions")
    }

    /// The places of a month's rows; none stand where the month is not live.
    pub fn places(&self, month: u16) -> Range<usize> {
        let start = self.rows.partition_point(|row| row.month < month);
        let end = self.rows.partition_point(|row| row.month <= month);
        start..end
    }

    pub fn ladder(&self, month: u16) -> &[Row] {
        &self.rows[self.places(month)]
    }

    /// From the lowest to the highest price of a live month's ladder.
    pub fn span(&self, month: u16) -> Option<Span> {
        let ladder = self.ladder(month);
        Some(Span {
            low: ladder.first()?.price,
            high: ladder.last()?.price,
        })
    }

    /// Writes the register into its 11,264 bytes.
    pub fn write(&self, bytes: &mut [u8]) {
        bytes.fill(0);
        bytes[0] = RUNNING;
        put_number(bytes, 2, self.day);
        put_number(bytes, 4, self.rows.len() as u16);
        for (place, announcement) in self.waiting.iter().enumerate() {
            announcement.append(bytes, place);
        }
        let (places, _) = bytes[ROWS_AT..].as_chunks_mut();
        for (place, row) in places.iter_mut().zip(&self.rows) {
            row.write(place);
        }
    }
}

/// The prices from a lowest to a highest.
#[derive(Debug, Clone, Copy, PartialEq, Eq)]
pub struct Span {
    pub low: u16,
    pub high: u16,
}

impl Span {
    pub fn contains(self, price: u16) -> bool {
        (self.low..=self.high).contains(&price)
    }

    /// The least span that has all of both.
    pub fn joined(self, other: Self) -> Self {
        Self {
            low: self.low.min(other.low),
            high: self.high.max(other.high),
        }
    }
}

/// The first live month of a day up to 36,524, unless it is too late for a register: cause 20.
pub(crate) fn first_month(calendar: Calendar, day: u16) -> Result<u16, RegisterError> {
    let first = calendar.first_live_month(day);
    if first > LATEST_FIRST_MONTH {
        return Err(RegisterError::TooLate);
    }
    Ok(first)
}

/// Whether a ladder is a stretch of its grid.
fn has_no_gap(ladder: &[Row], tier: Tier) -> bool {
    let from_lowest = grid::between(tier, ladder[0].price, u16::MAX);
    let stretch = from_lowest.get(..ladder.len());
    stretch.is_some_and(|stretch| stretch.iter().eq(ladder.iter().map(|row| &row.price)))
}

fn is_zero(bytes: &[u8]) -> bool {
    static ZEROS: [u8; REGISTER_BYTES] = [0; REGISTER_BYTES];
    *bytes == ZEROS[..bytes.len()]
}

fn number_at(bytes: &[u8], at: usize) -> u16 {
    u16::from_le_bytes([bytes[at], bytes[at + 1]])
}

fn put_number(bytes: &mut [u8], at: usize, number: u16) {
    bytes[at..at + 2].copy_from_slice(&number.to_le_bytes());
}

#[cfg(test)]
mod tests {
    use super::*;
    use crate::calendar::{bytes_of, live_months, CALENDAR_BYTES};
    use crate::dates::DAYS;

    /// The third Friday of June 2026, and its month.
    const JUNE_EXPIRY: u16 = 9_666;
    const JUNE: u16 = 317;

    fn every_day() -> [u8; CALENDAR_BYTES] {
        bytes_of(0..DAYS)
    }

    fn row(month: u16, price: u16) -> Row {
        Row {
            month,
            price,
            first_day: 0,
            origin: Origin::Start,
        }
    }

    /// A single price for each month, and an announcement.
    fn small() -> Register {
        Register {
            day: JUNE_EXPIRY,
            waiting: vec![Announcement {
                month: JUNE + 1,
                price: 1_025,
            }],
            rows: live_months(JUNE).map(|month| row(month, 1_000)).to_vec(),
        }
    }

    fn bytes(register: &Register) -> [u8; REGISTER_BYTES] {
        let mut bytes = [0; REGISTER_BYTES];
        register.write(&mut bytes);
        bytes
    }

    fn read(bytes: &[u8]) -> Result<Option<Register>, RegisterError> {
        Register::read(Calendar::check(&every_day()).unwrap(), bytes)
    }

    #[test]
    fn what_is_written_is_read_back() {
        let bytes = bytes(&small());
        assert_eq!(bytes[..8], [1, 1, 0xc2, 0x25, 6, 0, 0, 0]);
        assert_eq!(bytes[8..12], [0x3e, 1, 1, 4]);
        assert_eq!(bytes[136..144], [0x3d, 1, 0xe8, 3, 0, 0, 5, 0]);
        assert_eq!(read(&bytes), Ok(Some(small())));
    }

    #[test]
    fn all_zero_is_empty() {
        assert_eq!(read(&[0; REGISTER_BYTES]), Ok(None));
        assert_eq!(read(&[0; REGISTER_BYTES + 1]), Err(RegisterError::Length));
    }

    #[test]
    fn a_byte_out_of_place_is_noticed() {
        let good = bytes(&small());
        // The header, a place for an announcement, origin and last byte of a row, and a place for
        // a row.
        for at in [0, 1, 4, 5, 6, 7, 12, 142, 143, 136 + 6 * 8] {
            let mut bad = good;
            bad[at] = 7;
            assert_eq!(read(&bad), Err(RegisterError::Malformed), "byte {at}");
        }
    }

    #[test]
    fn ladders_must_be_whole_and_those_of_the_live_months() {
        let changes: [fn(&mut Register); 6] = [
            |register| register.rows[0].first_day = JUNE_EXPIRY + 1,
            |register| register.rows.swap(0, 1),
            |register| register.rows.push(row(JUNE + 12, 1_000)),
            |register| register.rows.insert(1, row(JUNE, 1_050)),
            |register| register.rows[5].price = 1_050,
            |register| register.day += 1,
        ];
        for (number, change) in changes.iter().enumerate() {
            let mut register = small();
            change(&mut register);
            let read = read(&bytes(&register));
            assert_eq!(read, Err(RegisterError::Malformed), "change {number}");
        }
    }

    #[test]
    fn announcements_must_be_such_as_can_be_made() {
        let wrong = [(JUNE, 2_000), (319, 1_025), (318, 1_000), (318, 1_025)];
        for (month, price) in wrong {
            let mut register = small();
            register.waiting.push(Announcement { month, price });
            let read = read(&bytes(&register));
            assert_eq!(read, Err(RegisterError::Malformed), "{month} {price}");
        }
    }
}
