use std::fmt::{self, Debug, Formatter};

use crate::raw::{self, ListingResult};
use crate::{Calendar, Refusal, Rows};

/// The length of a register in bytes.
pub const REGISTER_BYTES: usize = 11_264;

/// The length of the longest file of a register.
const MOST_FILE_BYTES: usize = 41_735;

/// What a start or a session did.
#[derive(Debug, Clone, Copy, PartialEq, Eq, Hash)]
pub struct Listed {
    /// Rows whose first day is the new day.
    pub added: u16,
    /// Old rows of the month that expired.
    pub removed: u16,
    /// Rows that stand now.
    pub rows: u16,
}

impl Listed {
    fn of(result: ListingResult) -> Result<Self, Refusal> {
        Refusal::unless_accepted(result.number, &[result.added.into()])?;
        Ok(Self {
            added: result.added,
            removed: result.removed,
            rows: result.rows,
        })
    }
}

/// The listed strikes of the six live months, and what was announced for the next session.
///
/// The numbers that calls take may be any: one that is out of range is refused by its cause.
#[derive(Clone, PartialEq, Eq)]
pub struct Register {
    bytes: Box<[u8; REGISTER_BYTES]>,
}

impl Register {
    /// An empty register.
    pub fn new() -> Self {
        Self {
            bytes: Box::new([0; REGISTER_BYTES]),
        }
    }

    /// Takes the bytes of a register that was saved. Whether they are well formed depends on the
    /// calendar: every call looks first, and [`Refusal::RegisterForm`] tells of it.
    ///
    /// # Errors
    ///
    /// [`Refusal::RegisterLength`].
    ///
    /// ```
    /// use sindhopul::{Refusal, Register};
    ///
    /// let saved = Register::new().as_bytes().to_vec();
    /// assert_eq!(Register::from_bytes(&saved), Ok(Register::new()));
    /// assert_eq!(Register::from_bytes(&saved[1..]), Err(Refusal::RegisterLength));
    /// ```
    pub fn from_bytes(bytes: &[u8]) -> Result<Self, Refusal> {
        let bytes = Box::<[u8]>::from(bytes).try_into();
        let bytes = bytes.map_err(|_| Refusal::RegisterLength)?;
        Ok(Self { bytes })
    }

    /// The bytes to save.
    pub fn as_bytes(&self) -> &[u8; REGISTER_BYTES] {
        &self.bytes
    }

    /// The day of the last start or session, as it stands in the bytes; none for an empty
    /// register.
    pub fn day(&self) -> Option<u16> {
        let day = u16::from_le_bytes([self.bytes[2], self.bytes[3]]);
        (self.bytes[0] != 0).then_some(day)
    }

    /// Starts an empty register on a session day, with the close before it, and lists all six
    /// live months.
    ///
    /// # Errors
    ///
    /// The first that holds of [`Refusal::RegisterForm`], [`Refusal::Running`],
    /// [`Refusal::StartDay`], [`Refusal::TooLate`] and [`Refusal::Close`].
    pub fn start(&mut self, calendar: &Calendar, day: u32, close: u32) -> Result<Listed, Refusal> {
        let calendar = calendar.as_bytes();
        Listed::of(raw::start(calendar, &mut *self.bytes, day, close))
    }

    /// Moves the register on to the next session day: drops the month that expired, lists what
    /// the close before that day requires and what was announced.
    ///
    /// # Errors
    ///
    /// The first that holds of [`Refusal::RegisterForm`], [`Refusal::Empty`],
    /// [`Refusal::SessionDay`], [`Refusal::TooLate`] and [`Refusal::Close`].
    pub fn session(
        &mut self,
        calendar: &Calendar,
        day: u32,
        close: u32,
    ) -> Result<Listed, Refusal> {
        let calendar = calendar.as_bytes();
        Listed::of(raw::session(calendar, &mut *self.bytes, day, close))
    }

    /// Takes in a strike that the exchange announced, for the next session, and tells how many
    /// announcements wait now.
    ///
    /// # Errors
    ///
    /// The first that holds of [`Refusal::RegisterForm`], [`Refusal::Empty`],
    /// [`Refusal::TooLate`], [`Refusal::AnnounceMonth`], [`Refusal::AnnouncePrice`],
    /// [`Refusal::AnnounceKnown`] and [`Refusal::AnnounceFull`].
    pub fn announce(
        &mut self,
        calendar: &Calendar,
        month: u32,
        price: u32,
    ) -> Result<u16, Refusal> {
        let calendar = calendar.as_bytes();
        let result = raw::announce(calendar, &mut *self.bytes, month, price);
        Refusal::unless_accepted(result.number, &[result.waiting.into()])?;
        Ok(result.waiting)
    }

    /// The rows of a live month.
    ///
    /// # Errors
    ///
    /// The first that holds of [`Refusal::RegisterForm`], [`Refusal::Empty`] and
    /// [`Refusal::RowsMonth`].
    pub fn rows(&self, calendar: &Calendar, month: u32) -> Result<Rows<'_>, Refusal> {
        let result = raw::rows(calendar.as_bytes(), &*self.bytes, month);
        // No value stands beside a refusal: 13, which has one, is never told of a Calendar.
        Refusal::unless_accepted(result.number, &[])?;
        Ok(Rows::of(result.part(&*self.bytes)))
    }

    /// The file of the day's new series: call and put of each row whose first day is the
    /// register's day. [`SeriesFile::read`](crate::SeriesFile::read) reads it.
    ///
    /// # Errors
    ///
    /// The first that holds of [`Refusal::RegisterForm`] and [`Refusal::Empty`].
    pub fn file(&self, calendar: &Calendar) -> Result<Vec<u8>, Refusal> {
        let mut file = vec![0; MOST_FILE_BYTES];
        let result = raw::file_write(calendar.as_bytes(), &*self.bytes, &mut file);
        Refusal::unless_accepted(result.number, &[result.length])?;
        file.truncate(result.length as usize);
        Ok(file)
    }
}

impl Default for Register {
    fn default() -> Self {
        Self::new()
    }
}

impl Debug for Register {
    fn fmt(&self, f: &mut Formatter) -> fmt::Result {
        f.debug_struct("Register")
            .field("day", &self.day())
            .finish_non_exhaustive()
    }
}
