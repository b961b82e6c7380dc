use std::fmt::{self, Debug, Formatter};

use crate::{raw, Refusal};

/// The length of a calendar in bytes.
pub const CALENDAR_BYTES: usize = 4_566;

/// 31 December 2099.
const LAST_DAY: u16 = 36_524;

/// The days of the years 2000 to 2099 that have a session. It has passed the check.
#[derive(Clone, PartialEq, Eq)]
pub struct Calendar {
    bytes: Box<[u8; CALENDAR_BYTES]>,
}

impl Calendar {
    /// Takes the bytes of a calendar: day n has a session when the bit of weight 2^(n mod 8) in
    /// byte n div 8 is set.
    ///
    /// # Errors
    ///
    /// [`Refusal::CalendarLength`], [`Refusal::CalendarTail`] or [`Refusal::CalendarMonth`].
    ///
    /// ```
    /// use sindhopul::{Calendar, Refusal};
    ///
    /// let nothing = [0; 4_566];
    /// assert_eq!(Calendar::new(&nothing), Err(Refusal::CalendarMonth { month: 0 }));
    /// assert_eq!(Calendar::new(&nothing[1..]), Err(Refusal::CalendarLength));
    /// ```
    pub fn new(bytes: &[u8]) -> Result<Self, Refusal> {
        let checked = raw::calendar_check(bytes);
        Refusal::unless_accepted(checked.number, &[checked.month.into()])?;
        let bytes = Box::<[u8]>::from(bytes).try_into();
        Ok(Self {
            bytes: bytes.expect("the check has looked at the length"),
        })
    }

    /// A calendar with sessions on these days, in any order.
    ///
    /// # Errors
    ///
    /// [`Refusal::CalendarTail`] for a day after 36,524, [`Refusal::CalendarMonth`] where a month
    /// has no session from its first day to its third Friday.
    pub fn with_sessions(days: impl IntoIterator<Item = u16>) -> Result<Self, Refusal> {
        let mut bytes = [0; CALENDAR_BYTES];
        for day in days {
            if day > LAST_DAY {
                return Err(Refusal::CalendarTail);
            }
            bytes[usize::from(day / 8)] |= 1 << (day % 8);
        }
        Self::new(&bytes)
    }

    /// Whether a day has a session.
    pub fn has_session(&self, day: u16) -> bool {
        let byte = self.bytes.get(usize::from(day / 8));
        byte.is_some_and(|byte| byte >> (day % 8) & 1 == 1)
    }

    /// The first session after a day. It is none after the last session.
    pub fn next_session(&self, day: u16) -> Option<u16> {
        (day.saturating_add(1)..=LAST_DAY).find(|&day| self.has_session(day))
    }

    /// The bytes, as [`Calendar::new`] takes them.
    pub fn as_bytes(&self) -> &[u8; CALENDAR_BYTES] {
        &self.bytes
    }
}

impl Debug for Calendar {
    fn fmt(&self, f: &mut Formatter) -> fmt::Result {
        f.debug_struct("Calendar").finish_non_exhaustive()
    }
}
