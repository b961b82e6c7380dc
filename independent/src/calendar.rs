//! The session calendar, expiry dates, live months and their tiers.

use crate::dates::{self, DAYS};
use crate::grid::Tier;

/// The length of a calendar in bytes.
pub const CALENDAR_BYTES: usize = 4_566;

/// The bits of the last byte that come after day 36,524.
pub const TAIL_BITS: u8 = 0b1110_0000;

/// The bytes of a calendar with sessions on these days.
pub fn bytes_of(days: impl IntoIterator<Item = u16>) -> [u8; CALENDAR_BYTES] {
    let mut bytes = [0; CALENDAR_BYTES];
    for day in days {
        bytes[usize::from(day / 8)] |= 1 << (day % 8);
    }
    bytes
}

/// Why bytes are no calendar.
#[derive(Debug, Clone, Copy, PartialEq, Eq)]
pub enum CalendarError {
    /// The length is not 4,566.
    Length,
    /// A bit after day 36,524 is set.
    TailBit,
    /// This month is the first without a session from its first day to its third Friday.
    NoSession { month: u16 },
}

impl CalendarError {
    /// The number of the cause in document 01.
    pub fn number(self) -> u16 {
        match self {
            Self::Length => 11,
            Self::TailBit => 12,
            Self::NoSession { .. } => 13,
        }
    }
}

/// A calendar that passed the check.
#[derive(Debug, Clone, Copy)]
pub struct Calendar<'a>(&'a [u8; CALENDAR_BYTES]);

impl<'a> Calendar<'a> {
    /// Takes bytes as a calendar, or says why not.
    pub fn check(bytes: &'a [u8]) -> Result<Self, CalendarError> {
        let bytes: &[u8; CALENDAR_BYTES] = bytes.try_into().map_err(|_| CalendarError::Length)?;
        if bytes[CALENDAR_BYTES - 1] & TAIL_BITS != 0 {
            return Err(CalendarError::TailBit);
        }
        for (month, (first_day, third_friday)) in (0..).zip(dates::windows()) {
            if sessions_between(bytes, first_day, third_friday) == 0 {
                return Err(CalendarError::NoSession { month });
            }
        }
        Ok(Self(bytes))
    }

    /// Whether a day of any number has a session.
    pub fn has_session(self, day: u16) -> bool {
        let byte = self.0.get(usize::from(day / 8));
        byte.is_some_and(|byte| byte >> (day % 8) & 1 == 1)
    }

    /// The expiry date of a month up to 1,199.
    pub fn expiry(self, month: u16) -> u16 {
        let mut days = (0..=dates::third_friday(month)).rev();
        days.find(|&day| self.has_session(day))
            .expect("the check found a session in the month")
    }

    /// The first session after a day, if there is one.
    pub fn next_session(self, day: u16) -> Option<u16> {
        (day + 1..DAYS).find(|&day| self.has_session(day))
    }

    /// The earliest month whose expiry date is the day, up to 36,524, or later; 1,200 where there
    /// is none.
    pub fn first_live_month(self, day: u16) -> u16 {
        // A month's expiry date lies in the month, so the earlier months have expired by now and
        // the later ones have not.
        let month = dates::month_of(day);
        month + u16::from(self.expiry(month) < day)
    }
}

/// The sessions from a first day to a third Friday as the bits of one number. At most 21 days,
/// starting anywhere within a byte, lie within four bytes.
fn sessions_between(bytes: &[u8; CALENDAR_BYTES], first_day: u16, third_friday: u16) -> u32 {
    let at = usize::from(first_day / 8);
    let days = third_friday - first_day + 1;
    let word = bytes[at..at + 4].try_into().map(u32::from_le_bytes);
    let word = word.expect("four bytes are a word");
    word >> (first_day % 8) & ((1 << days) - 1)
}

/// The six live months where this one is the first. Months after 1,199 are counted on.
pub fn live_months(first: u16) -> [u16; 6] {
    // March, June, September, December.
    let is_quarterly = |month: &u16| matches!(month % 12, 2 | 5 | 8 | 11);
    let mut quarterly = (first + 3..).filter(is_quarterly);
    let mut next_quarterly = || quarterly.next().expect("every third month is quarterly");
    [
        first,
        first + 1,
        first + 2,
        next_quarterly(),
        next_quarterly(),
        next_quarterly(),
    ]
}

/// The tiers of the six live months.
const TIERS: [Tier; 6] = [Tier::N, Tier::M, Tier::M, Tier::F, Tier::F, Tier::F];

/// The six live months where this one is the first, each with its tier.
pub fn live_tiers(first: u16) -> impl Iterator<Item = (u16, Tier)> {
    live_months(first).into_iter().zip(TIERS)
}

/// The tier of a month where `first` is the first live month; none for a month that is not live.
pub fn tier(first: u16, month: u16) -> Option<Tier> {
    live_tiers(first).find_map(|(live, tier)| (live == month).then_some(tier))
}

#[cfg(test)]
mod tests {
    use super::*;
    use crate::dates::MONTHS;

    fn error(bytes: &[u8]) -> Option<CalendarError> {
        Calendar::check(bytes).err()
    }

    #[test]
    fn one_session_at_any_place_of_its_window_is_enough() {
        for month in 0..MONTHS {
            let others = (0..MONTHS)
                .filter(|&other| other != month)
                .map(dates::third_friday);
            let mut bytes = bytes_of(others);
            assert_eq!(error(&bytes), Some(CalendarError::NoSession { month }));
            for day in dates::first_day(month)..=dates::third_friday(month) {
                bytes[usize::from(day / 8)] ^= 1 << (day % 8);
                assert_eq!(error(&bytes), None);
                bytes[usize::from(day / 8)] ^= 1 << (day % 8);
            }
        }
    }

    #[test]
    fn sessions_outside_a_window_do_not_count() {
        let month = 317;
        let window = dates::first_day(month)..=dates::third_friday(month);
        let bytes = bytes_of((0..DAYS).filter(|day| !window.contains(day)));
        assert_eq!(error(&bytes), Some(CalendarError::NoSession { month }));
    }

    #[test]
    fn length_comes_before_tail_and_tail_before_months() {
        let mut bytes = vec![0xff; CALENDAR_BYTES + 1];
        assert_eq!(error(&bytes), Some(CalendarError::Length));
        bytes.fill(0);
        bytes[CALENDAR_BYTES - 1] = TAIL_BITS;
        assert_eq!(
            error(&bytes[..CALENDAR_BYTES]),
            Some(CalendarError::TailBit)
        );
    }

    #[test]
    fn a_missing_third_friday_moves_the_expiry() {
        let bytes = bytes_of((0..DAYS).filter(|&day| day != 9_239));
        let calendar = Calendar::check(&bytes).unwrap();
        assert_eq!(calendar.expiry(303), 9_238);
        assert_eq!(calendar.first_live_month(9_238), 303);
        assert_eq!(calendar.first_live_month(9_239), 304);
        assert_eq!(calendar.next_session(9_238), Some(9_240));
    }

    #[test]
    fn after_the_last_expiry_no_month_is_live() {
        let bytes = bytes_of((0..MONTHS).map(dates::third_friday));
        let calendar = Calendar::check(&bytes).unwrap();
        let last = dates::third_friday(MONTHS - 1);
        assert_eq!(calendar.first_live_month(last), MONTHS - 1);
        assert_eq!(calendar.first_live_month(last + 1), MONTHS);
        assert_eq!(calendar.next_session(last), None);
    }

    #[test]
    fn the_first_live_month_is_the_earliest_that_has_not_expired() {
        let sparse = (0..DAYS).filter(|day| day % 11 == 0);
        let bytes = bytes_of(sparse);
        let calendar = Calendar::check(&bytes).unwrap();
        let mut earliest = 0;
        for day in 0..DAYS {
            while earliest < MONTHS && calendar.expiry(earliest) < day {
                earliest += 1;
            }
            assert_eq!(calendar.first_live_month(day), earliest);
        }
    }

    #[test]
    fn three_months_and_three_quarterly_months_are_live() {
        assert_eq!(live_months(0), [0, 1, 2, 5, 8, 11]);
        assert_eq!(live_months(1), [1, 2, 3, 5, 8, 11]);
        assert_eq!(live_months(2), [2, 3, 4, 5, 8, 11]);
        assert_eq!(
            live_months(1_190),
            [1_190, 1_191, 1_192, 1_193, 1_196, 1_199]
        );
        let tiers = [0, 1, 2, 3, 5].map(|month| tier(0, month));
        let (n, m, f) = (Some(Tier::N), Some(Tier::M), Some(Tier::F));
        assert_eq!(tiers, [n, m, m, None, f]);
    }
}
