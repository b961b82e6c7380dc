//! The calls of the C interface and the numbers that they return.

// Made from causes.txt by causes.py.

#[derive(Debug, Clone, Copy, PartialEq, Eq, PartialOrd, Ord)]
pub enum Call {
    CalendarCheck,
    Start,
    Session,
    Announce,
    Rows,
    NameWrite,
    NameRead,
    FileWrite,
    FileRead,
}

impl Call {
    pub const ALL: [Self; 9] = [
        Self::CalendarCheck,
        Self::Start,
        Self::Session,
        Self::Announce,
        Self::Rows,
        Self::NameWrite,
        Self::NameRead,
        Self::FileWrite,
        Self::FileRead,
    ];

    pub fn name(self) -> &'static str {
        match self {
            Self::CalendarCheck => "calendar_check",
            Self::Start => "start",
            Self::Session => "session",
            Self::Announce => "announce",
            Self::Rows => "rows",
            Self::NameWrite => "name_write",
            Self::NameRead => "name_read",
            Self::FileWrite => "file_write",
            Self::FileRead => "file_read",
        }
    }

    /// The numbers that the call can return, causes in the order in which they are tried.
    pub fn numbers(self) -> &'static [u16] {
        match self {
            Self::CalendarCheck => &[0, 11, 12, 13],
            Self::Start => &[0, 11, 12, 13, 14, 15, 16, 18, 20, 21],
            Self::Session => &[0, 11, 12, 13, 14, 15, 17, 19, 20, 21],
            Self::Announce => &[0, 11, 12, 13, 14, 15, 17, 20, 22, 23, 24, 25],
            Self::Rows => &[0, 11, 12, 13, 14, 15, 17, 26],
            Self::NameWrite => &[0, 27, 28],
            Self::NameRead => &[0, 27, 29, 28],
            Self::FileWrite => &[0, 11, 12, 13, 14, 15, 17, 30],
            Self::FileRead => &[0, 31, 30],
        }
    }
}
