//! Buffers to lend.

/// Odd, so that what is lent stands at an odd address.
const GUARD: usize = 63;
const GUARD_BYTE: u8 = 0xa5;

/// What stands in a buffer that is to be written.
const BLANK_BYTE: u8 = 0x5a;

/// A buffer between guard bytes.
#[derive(Clone)]
pub struct Room {
    bytes: Vec<u8>,
}

impl Room {
    pub fn of(content: &[u8]) -> Self {
        let guard = [GUARD_BYTE; GUARD];
        Self {
            bytes: [&guard, content, &guard].concat(),
        }
    }

    pub fn blank(length: usize) -> Self {
        Self::of(&vec![BLANK_BYTE; length])
    }

    pub fn content(&self) -> &[u8] {
        &self.bytes[GUARD..self.bytes.len() - GUARD]
    }

    /// So many bytes from the first on, a few more than there are at most.
    pub fn lend(&mut self, length: usize) -> &mut [u8] {
        &mut self.bytes[GUARD..][..length]
    }

    pub fn lend_all(&mut self) -> &mut [u8] {
        self.lend(self.content().len())
    }

    pub fn set(&mut self, place: usize, byte: u8) {
        self.bytes[GUARD + place] = byte;
    }

    /// The first place where rooms of one size differ, below 0 in the guard bytes before, with
    /// the bytes that stand there.
    pub fn difference(&self, other: &Self) -> Option<(isize, u8, u8)> {
        if self.bytes == other.bytes {
            return None;
        }
        let mut pairs = self.bytes.iter().zip(&other.bytes);
        let at = pairs.position(|(byte, other)| byte != other)?;
        let place = at as isize - GUARD as isize;
        Some((place, self.bytes[at], other.bytes[at]))
    }
}
