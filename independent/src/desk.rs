//! A register with a calendar where every day is a session, for tests.

use crate::calendar::{bytes_of, CALENDAR_BYTES};
use crate::calls::{self, Listing};
use crate::dates::DAYS;
use crate::register::{RegisterError, REGISTER_BYTES};

pub struct Desk {
    pub calendar: [u8; CALENDAR_BYTES],
    pub bytes: [u8; REGISTER_BYTES],
}

impl Desk {
    pub fn empty() -> Self {
        Self {
            calendar: bytes_of(0..DAYS),
            bytes: [0; REGISTER_BYTES],
        }
    }

    pub fn started(day: u32, close: u32) -> Self {
        let mut desk = Self::empty();
        desk.start(day, close).unwrap();
        desk
    }

    pub fn start(&mut self, day: u32, close: u32) -> Result<Listing, RegisterError> {
        calls::start(&self.calendar, &mut self.bytes, day, close)
    }

    pub fn session(&mut self, day: u32, close: u32) -> Result<Listing, RegisterError> {
        calls::session(&self.calendar, &mut self.bytes, day, close)
    }

    pub fn announce(&mut self, month: u32, price: u32) -> Result<u16, RegisterError> {
        calls::announce(&self.calendar, &mut self.bytes, month, price)
    }
}
