//! Names of series, as `OW20L262400`: written by std's formatting, read by std's parsing.

use std::io::Write;

use crate::dates::MONTHS;
use crate::grid::{self, Tier};

/// The length of a name in bytes.
pub const NAME_BYTES: usize = 11;

#[derive(Debug, Clone, Copy, PartialEq, Eq)]
pub enum OptionType {
    Call,
    Put,
}

/// What a name stands for.
#[derive(Debug, Clone, Copy, PartialEq, Eq)]
pub struct Series {
    pub month: u16,
    pub option_type: OptionType,
    pub price: u16,
}

/// Why a name is not written or not read.
#[derive(Debug, Clone, Copy, PartialEq, Eq)]
pub enum NameError {
    /// The buffer is not 11 bytes long.
    Length,
    /// The byte at this place, the first such, cannot stand there.
    Byte { place: u16 },
    /// Month, type or price are those of no series.
    NoSeries,
}

impl NameError {
    /// The number of the cause in document 01.
    pub fn number(self) -> u16 {
        match self {
            Self::Length => 27,
            Self::NoSeries => 28,
            Self::Byte { .. } => 29,
        }
    }
}

/// Writes the name of a series; type 0 is a call, 1 a put. A refusal writes nothing.
pub fn write(
    mut name: &mut [u8],
    month: u32,
    option_type: u32,
    price: u32,
) -> Result<(), NameError> {
    if name.len() != NAME_BYTES {
        return Err(NameError::Length);
    }
    if month >= MONTHS.into() || option_type > 1 || !grid::has_price(Tier::N, price) {
        return Err(NameError::NoSeries);
    }
    let letter = char::from_u32(u32::from('A') + 12 * option_type + month % 12)
        .expect("24 letters from A on are characters");
    let year = month / 12;
    write!(name, "OW20{letter}{year:02}{price:04}").expect("the name has room for 11 bytes");
    Ok(())
}

/// Reads the series that a name stands for.
pub fn read(name: &[u8]) -> Result<Series, NameError> {
    if name.len() != NAME_BYTES {
        return Err(NameError::Length);
    }
    let mut bytes = (0..).zip(name);
    if let Some((place, _)) = bytes.find(|&(place, &byte)| !can_stand(byte, place)) {
        return Err(NameError::Byte { place });
    }
    let letter = u16::from(name[4] - b'A');
    let year = number(&name[5..7]);
    let price = number(&name[7..]);
    if !grid::has_price(Tier::N, price.into()) {
        return Err(NameError::NoSeries);
    }
    let option_type = if letter < 12 {
        OptionType::Call
    } else {
        OptionType::Put
    };
    Ok(Series {
        month: 12 * year + letter % 12,
        option_type,
        price,
    })
}

pub(crate) fn can_stand(byte: u8, place: u16) -> bool {
    match place {
        0 => byte == b'O',
        1 => byte == b'W',
        2 => byte == b'2',
        3 => byte == b'0',
        4 => (b'A'..=b'X').contains(&byte),
        _ => byte.is_ascii_digit(),
    }
}

fn number(digits: &[u8]) -> u16 {
    let digits = std::str::from_utf8(digits).expect("digits are text");
    digits.parse().expect("at most four digits are a number")
}

#[cfg(test)]
mod tests {
    use super::*;

    #[test]
    fn worked_examples() {
        let written = [(0, b"OW20L262400"), (1, b"OW20X262400")];
        for (option_type, expected) in written {
            let mut name = [0; NAME_BYTES];
            assert_eq!(write(&mut name, 323, option_type, 2_400), Ok(()));
            assert_eq!(&name, expected);
        }
        let series = |option_type| Series {
            month: 323,
            option_type,
            price: 2_400,
        };
        assert_eq!(read(b"OW20L262400"), Ok(series(OptionType::Call)));
        assert_eq!(read(b"OW20X262400"), Ok(series(OptionType::Put)));
    }

    #[test]
    fn small_prices_have_leading_zeros() {
        let mut name = [0; NAME_BYTES];
        assert_eq!(write(&mut name, 0, 0, 5), Ok(()));
        assert_eq!(&name, b"OW20A000005");
    }

    #[test]
    fn a_refused_write_leaves_the_buffer() {
        let mut name = *b"           ";
        for (month, option_type, price) in [(1_200, 0, 5), (0, 2, 5), (0, 0, 4), (0, 0, 10_000)] {
            assert_eq!(
                write(&mut name, month, option_type, price),
                Err(NameError::NoSeries)
            );
        }
        assert_eq!(write(&mut name[..10], 0, 0, 5), Err(NameError::Length));
        assert_eq!(&name, b"           ");
    }

    #[test]
    fn form_comes_before_price() {
        assert_eq!(read(b"OW20L26240"), Err(NameError::Length));
        assert_eq!(read(b"OW20L262401"), Err(NameError::NoSeries));
        assert_eq!(read(b"OW20Y262401"), Err(NameError::Byte { place: 4 }));
        assert_eq!(read(b"OW20L26+400"), Err(NameError::Byte { place: 7 }));
    }
}
