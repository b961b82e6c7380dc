use std::iter::FusedIterator;
use std::slice::ChunksExact;

use crate::{Name, OptionType, Series};

const ROW_BYTES: usize = 8;

/// What brought a row into the register, each with the gap up to the ladder that stood.
#[derive(Debug, Clone, Copy, PartialEq, Eq, Hash)]
pub enum Origin {
    /// Its month being new.
    NewMonth = 1,
    /// A finer grid.
    FinerGrid = 2,
    /// A close.
    Close = 3,
    /// An announcement.
    Announcement = 4,
    /// The start.
    Start = 5,
}

impl Origin {
    /// The origin of a byte of a register or a file that was not refused.
    #[inline]
    pub(crate) fn of_byte(byte: u8) -> Self {
        match byte {
            1 => Self::NewMonth,
            2 => Self::FinerGrid,
            3 => Self::Close,
            4 => Self::Announcement,
            5 => Self::Start,
            other => unreachable!("what has origin {other} is refused"),
        }
    }
}

/// A listed strike, its call and its put together.
#[derive(Debug, Clone, Copy, PartialEq, Eq, Hash)]
pub struct Row {
    /// The month in which the strike's options expire.
    pub month: u16,
    /// In whole index points.
    pub price: u16,
    /// The first session on which the strike was listed.
    pub first_day: u16,
    /// What brought the row.
    pub origin: Origin,
}

impl Row {
    #[inline]
    fn read(bytes: &[u8]) -> Self {
        let number = |at| u16::from_le_bytes([bytes[at], bytes[at + 1]]);
        Self {
            month: number(0),
            price: number(2),
            first_day: number(4),
            origin: Origin::of_byte(bytes[6]),
        }
    }

    /// The name of the strike's call or put.
    pub fn name(self, option_type: OptionType) -> Name {
        let series = Series {
            month: self.month,
            option_type,
            price: self.price,
        };
        series.name().expect("a listed strike has a name")
    }
}

/// The rows of a month, ascending by price, read from where they stand in the register.
#[derive(Debug, Clone)]
pub struct Rows<'a> {
    part: &'a [u8],
    left: ChunksExact<'a, u8>,
}

impl<'a> Rows<'a> {
    /// The rows of a part of a register that was found well formed.
    pub(crate) fn of(part: &'a [u8]) -> Self {
        Self {
            part,
            left: part.chunks_exact(ROW_BYTES),
        }
    }

    /// The part of the register that holds all of the month's rows, 8 bytes each.
    pub fn as_bytes(&self) -> &'a [u8] {
        self.part
    }
}

impl Iterator for Rows<'_> {
    type Item = Row;

    #[inline]
    fn next(&mut self) -> Option<Row> {
        self.left.next().map(Row::read)
    }

    #[inline]
    fn size_hint(&self) -> (usize, Option<usize>) {
        self.left.size_hint()
    }

    #[inline]
    fn nth(&mut self, n: usize) -> Option<Row> {
        self.left.nth(n).map(Row::read)
    }
}

impl DoubleEndedIterator for Rows<'_> {
    #[inline]
    fn next_back(&mut self) -> Option<Row> {
        self.left.next_back().map(Row::read)
    }
}

impl ExactSizeIterator for Rows<'_> {}

impl FusedIterator for Rows<'_> {}
