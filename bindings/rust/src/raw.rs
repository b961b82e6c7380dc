//! The functions of `include/sindhopul.h` as they stand, over buffers of any length that the
//! caller owns. What the numbers mean stands there. The types of this crate are made from these;
//! use them directly where a register lies in memory of your own.

/// What [`calendar_check`] returns.
#[repr(C)]
#[derive(Debug, Clone, Copy, PartialEq, Eq)]
pub struct CalendarResult {
    /// 0 for an accepted call, otherwise the cause of the refusal.
    pub number: u16,
    /// With 13, the first month without its session.
    pub month: u16,
}

/// What [`start`] and [`session`] return.
#[repr(C)]
#[derive(Debug, Clone, Copy, PartialEq, Eq)]
pub struct ListingResult {
    /// 0 for an accepted call, otherwise the cause of the refusal.
    pub number: u16,
    /// Rows whose first day is the new day; with 13, the month.
    pub added: u16,
    /// Old rows of the month that expired.
    pub removed: u16,
    /// Rows that stand now.
    pub rows: u16,
}

/// What [`announce`] returns.
#[repr(C)]
#[derive(Debug, Clone, Copy, PartialEq, Eq)]
pub struct AnnounceResult {
    /// 0 for an accepted call, otherwise the cause of the refusal.
    pub number: u16,
    /// Announcements that wait now; with 13, the month.
    pub waiting: u16,
}

/// What [`rows`] returns.
#[repr(C)]
#[derive(Debug, Clone, Copy, PartialEq, Eq)]
pub struct RowsResult {
    /// 0 for an accepted call, otherwise the cause of the refusal.
    pub number: u16,
    /// The byte of the register where the month's rows begin.
    pub at: u16,
    /// How many bytes they are.
    pub size: u16,
}

impl RowsResult {
    /// The part of the register that the result tells of.
    pub fn part(self, register: &[u8]) -> &[u8] {
        &register[self.at.into()..][..self.size.into()]
    }
}

/// What [`name_read`] returns.
#[repr(C)]
#[derive(Debug, Clone, Copy, PartialEq, Eq)]
pub struct NameResult {
    /// 0 for an accepted call, otherwise the cause of the refusal.
    pub number: u16,
    /// The month; with 29, the first place, 0 to 10, whose byte cannot stand there.
    pub month: u16,
    /// 0 for a call, 1 for a put.
    pub option_type: u16,
    /// In whole index points.
    pub price: u16,
}

/// What [`file_write`] returns.
#[repr(C)]
#[derive(Debug, Clone, Copy, PartialEq, Eq)]
pub struct FileWriteResult {
    /// 0 for an accepted call, otherwise the cause of the refusal.
    pub number: u16,
    /// How many bytes the file has; with 13, the month.
    pub length: u32,
}

/// What [`file_read`] returns.
#[repr(C)]
#[derive(Debug, Clone, Copy, PartialEq, Eq)]
pub struct FileReadResult {
    /// 0 for an accepted call, otherwise the cause of the refusal.
    pub number: u16,
    /// The file's day; with 31, the lowest place at fault.
    pub day: u32,
    /// How many series the file has.
    pub series: u32,
}

mod archive {
    use super::{
        AnnounceResult, CalendarResult, FileReadResult, FileWriteResult, ListingResult, NameResult,
        RowsResult,
    };

    extern "C" {
        pub fn sindhopul_calendar_check(calendar: *const u8, length: usize) -> CalendarResult;
        pub fn sindhopul_start(
            calendar: *const u8,
            calendar_length: usize,
            register: *mut u8,
            register_length: usize,
            day: u32,
            close: u32,
        ) -> ListingResult;
        pub fn sindhopul_session(
            calendar: *const u8,
            calendar_length: usize,
            register: *mut u8,
            register_length: usize,
            day: u32,
            close: u32,
        ) -> ListingResult;
        pub fn sindhopul_announce(
            calendar: *const u8,
            calendar_length: usize,
            register: *mut u8,
            register_length: usize,
            month: u32,
            price: u32,
        ) -> AnnounceResult;
        pub fn sindhopul_rows(
            calendar: *const u8,
            calendar_length: usize,
            register: *const u8,
            register_length: usize,
            month: u32,
        ) -> RowsResult;
        pub fn sindhopul_name_write(
            name: *mut u8,
            length: usize,
            month: u32,
            option_type: u32,
            price: u32,
        ) -> u16;
        pub fn sindhopul_name_read(name: *const u8, length: usize) -> NameResult;
        pub fn sindhopul_file_write(
            calendar: *const u8,
            calendar_length: usize,
            register: *const u8,
            register_length: usize,
            file: *mut u8,
            file_length: usize,
        ) -> FileWriteResult;
        pub fn sindhopul_file_read(
            file: *const u8,
            file_length: usize,
            series: *mut u8,
            series_length: usize,
        ) -> FileReadResult;
    }
}

/// Checks a calendar.
pub fn calendar_check(calendar: &[u8]) -> CalendarResult {
    // SAFETY: the call reads this slice and nothing else.
    unsafe { archive::sindhopul_calendar_check(calendar.as_ptr(), calendar.len()) }
}

/// Starts an empty register on a session day.
pub fn start(calendar: &[u8], register: &mut [u8], day: u32, close: u32) -> ListingResult {
    // SAFETY: the call reads the calendar, reads and writes the register, and nothing else.
    unsafe {
        archive::sindhopul_start(
            calendar.as_ptr(),
            calendar.len(),
            register.as_mut_ptr(),
            register.len(),
            day,
            close,
        )
    }
}

/// Moves a register on to the next session day.
pub fn session(calendar: &[u8], register: &mut [u8], day: u32, close: u32) -> ListingResult {
    // SAFETY: the call reads the calendar, reads and writes the register, and nothing else.
    unsafe {
        archive::sindhopul_session(
            calendar.as_ptr(),
            calendar.len(),
            register.as_mut_ptr(),
            register.len(),
            day,
            close,
        )
    }
}

/// Announces a price of a month for the next session.
pub fn announce(calendar: &[u8], register: &mut [u8], month: u32, price: u32) -> AnnounceResult {
    // SAFETY: the call reads the calendar, reads and writes the register, and nothing else.
    unsafe {
        archive::sindhopul_announce(
            calendar.as_ptr(),
            calendar.len(),
            register.as_mut_ptr(),
            register.len(),
            month,
            price,
        )
    }
}

/// Tells where in a register a month's rows stand.
pub fn rows(calendar: &[u8], register: &[u8], month: u32) -> RowsResult {
    // SAFETY: the call reads these two slices and nothing else.
    unsafe {
        archive::sindhopul_rows(
            calendar.as_ptr(),
            calendar.len(),
            register.as_ptr(),
            register.len(),
            month,
        )
    }
}

/// Writes the name of a series.
pub fn name_write(name: &mut [u8], month: u32, option_type: u32, price: u32) -> u16 {
    let (at, length) = (name.as_mut_ptr(), name.len());
    // SAFETY: the call reads and writes this slice and nothing else.
    unsafe { archive::sindhopul_name_write(at, length, month, option_type, price) }
}

/// Reads the series of a name.
pub fn name_read(name: &[u8]) -> NameResult {
    // SAFETY: the call reads this slice and nothing else.
    unsafe { archive::sindhopul_name_read(name.as_ptr(), name.len()) }
}

/// Writes the file of a register's new series.
pub fn file_write(calendar: &[u8], register: &[u8], file: &mut [u8]) -> FileWriteResult {
    // SAFETY: the call reads calendar and register, reads and writes the file, and nothing else.
    unsafe {
        archive::sindhopul_file_write(
            calendar.as_ptr(),
            calendar.len(),
            register.as_ptr(),
            register.len(),
            file.as_mut_ptr(),
            file.len(),
        )
    }
}

/// Reads a file of series, which go into the buffer, 12 bytes each.
pub fn file_read(file: &[u8], series: &mut [u8]) -> FileReadResult {
    // SAFETY: the call reads the file, reads and writes the other slice, and nothing else.
    unsafe {
        archive::sindhopul_file_read(file.as_ptr(), file.len(), series.as_mut_ptr(), series.len())
    }
}
