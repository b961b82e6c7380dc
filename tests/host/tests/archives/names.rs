//! Every name there is, and all that a damaged or missized one may be.

use std::fmt::{self, Debug, Formatter};

use independent::dates::MONTHS;
use independent::names::{self, NAME_BYTES};
use independent::{grid, NameError, Tier};
use sindhopul::raw::{self, NameResult};

use crate::numbers::{beyond, Random};
use crate::run::{Call, Run};

const LONGEST: usize = 40;
const GUARD: usize = 8;
const GUARD_BYTE: u8 = b'#';

/// Room for the longest buffer between guard bytes.
const ROOM: usize = GUARD + LONGEST + GUARD;

/// Bytes that are told as text.
#[derive(PartialEq)]
struct Text<'a>(&'a [u8]);

impl Debug for Text<'_> {
    fn fmt(&self, f: &mut Formatter) -> fmt::Result {
        write!(f, "\"{}\"", self.0.escape_ascii())
    }
}

/// Writes into equal rooms and compares the number and every byte, the guards too.
pub fn compare_writing(
    run: &mut Run,
    length: usize,
    month: u32,
    option_type: u32,
    price: u32,
) -> u16 {
    let mut archive_room = [GUARD_BYTE; ROOM];
    let mut wanted_room = archive_room;
    let name = &mut archive_room[GUARD..][..length];
    let archive = raw::name_write(name, month, option_type, price);
    let name = &mut wanted_room[GUARD..][..length];
    let wanted = match names::write(name, month, option_type, price) {
        Ok(()) => 0,
        Err(error) => error.number(),
    };
    run.count(Call::NameWrite, archive);
    let case = format_args!(
        "writing month {month}, type {option_type}, price {price} into {length} bytes"
    );
    run.equal(archive, wanted, case);
    run.equal(Text(&archive_room), Text(&wanted_room), case);
    archive
}

fn result(number: u16, month: u16, option_type: u16, price: u16) -> NameResult {
    NameResult {
        number,
        month,
        option_type,
        price,
    }
}

fn independent_read(name: &[u8]) -> NameResult {
    match names::read(name) {
        Ok(series) => result(0, series.month, series.option_type as u16, series.price),
        Err(NameError::Byte { place }) => result(29, place, 0, 0),
        Err(error) => result(error.number(), 0, 0, 0),
    }
}

/// Reads a name that is to give this result.
fn expect_reading(run: &mut Run, name: &[u8], wanted: NameResult) -> u16 {
    let archive = raw::name_read(name);
    run.count(Call::NameRead, archive.number);
    run.equal(archive, wanted, format_args!("reading {:?}", Text(name)));
    archive.number
}

pub fn compare_reading(run: &mut Run, name: &[u8]) -> u16 {
    expect_reading(run, name, independent_read(name))
}

pub fn name_of(month: u16, option_type: u16, price: u16) -> [u8; NAME_BYTES] {
    let mut name = [0; NAME_BYTES];
    names::write(&mut name, month.into(), option_type.into(), price.into())
        .expect("the series has a name");
    name
}

/// Writes every name, and reads it back.
pub fn test_all(run: &mut Run) {
    for month in 0..MONTHS {
        for option_type in 0..2 {
            for &price in grid::prices(Tier::N) {
                compare_writing(
                    run,
                    NAME_BYTES,
                    month.into(),
                    option_type.into(),
                    price.into(),
                );
                let name = name_of(month, option_type, price);
                expect_reading(run, &name, result(0, month, option_type, price));
            }
        }
    }
}

/// Writes what has no name, and into buffers of the wrong length.
pub fn test_writing(run: &mut Run) {
    for price in 0..=20_000 {
        compare_writing(run, NAME_BYTES, 323, 0, price);
    }
    let prices = [0, 4, 5, 475, 485, 995, 1_010, 2_400, 9_975].into_iter();
    let prices: Vec<u32> = prices.chain(beyond(10_000u32)).collect();
    for month in [0, 323, 1_199].into_iter().chain(beyond(MONTHS)) {
        for option_type in [0, 1].into_iter().chain(beyond(2u32)) {
            for &price in &prices {
                compare_writing(run, NAME_BYTES, month, option_type, price);
            }
        }
    }
    for length in 0..=LONGEST {
        compare_writing(run, length, 323, 0, 2_400);
        compare_writing(run, length, 1_200, 2, 2_401);
    }
}

/// Reads damaged names, names off the grid and names of the wrong length.
pub fn test_reading(run: &mut Run) {
    let random = &mut Random::new(3);
    for name in sample(random) {
        test_damaged_once(run, name);
        test_damaged_twice(run, name, random);
    }
    for price in 0..10_000 {
        compare_reading(run, format!("OW20L26{price:04}").as_bytes());
        compare_reading(run, format!("OW20Y26{price:04}").as_bytes());
    }
    for length in 0..=LONGEST {
        compare_reading(run, &b"OW20L262400".repeat(4)[..length]);
        compare_reading(run, &vec![0; length]);
    }
}

/// Names of calls and puts of every month of the year, with prices of every band.
fn sample(random: &mut Random) -> Vec<[u8; NAME_BYTES]> {
    let prices = grid::prices(Tier::N);
    let bands: Vec<&[u16]> = prices
        .chunk_by(|&low, &high| band(low) == band(high))
        .collect();
    let mut names = Vec::new();
    for month_of_year in 0..12 {
        for option_type in 0..2 {
            for band in &bands {
                for _ in 0..4 {
                    let month = 12 * random.below(100) + month_of_year;
                    names.push(name_of(month, option_type, random.pick(band)));
                }
            }
        }
    }
    names
}

fn band(price: u16) -> u16 {
    match price {
        0..480 => 0,
        480..1_000 => 1,
        _ => 2,
    }
}

fn test_damaged_once(run: &mut Run, name: [u8; NAME_BYTES]) {
    for place in 0..NAME_BYTES {
        for byte in 0..=u8::MAX {
            let mut damaged = name;
            damaged[place] = byte;
            compare_reading(run, &damaged);
        }
    }
}

fn test_damaged_twice(run: &mut Run, name: [u8; NAME_BYTES], random: &mut Random) {
    for _ in 0..100 {
        let mut damaged = name;
        for _ in 0..2 {
            damaged[usize::from(random.below(11))] = random.byte();
        }
        compare_reading(run, &damaged);
    }
}
