//! Files of series, read: those of registers, all that damage makes of them, and files that no
//! register has.

use std::fmt::Arguments;
use std::mem;

use independent::dates::{DAYS, MONTHS};
use independent::files::{self, Contents, FileError, MOST_FILE_BYTES, SERIES_BYTES};
use independent::names::NAME_BYTES;
use independent::register::MOST_ROWS;
use independent::{grid, Tier};
use sindhopul::raw::{self, FileReadResult};

use crate::names::name_of;
use crate::numbers::Random;
use crate::register::specimens;
use crate::room::Room;
use crate::run::{Call, Run};

/// The fields of a day and of a series.
pub const DAY_FIELD: usize = 5;
pub const SERIES_FIELD: usize = 15;

/// Reads a file into a list of so many bytes; compares the result and every byte, guards too.
pub fn compare_reading(run: &mut Run, file: &[u8], length: usize, case: Arguments) -> u16 {
    let file = Room::of(file);
    let lent = file.clone();
    let mut list = Room::blank(length);
    let mut wanted_list = list.clone();
    let archive = raw::file_read(lent.content(), list.lend_all());
    let wanted = independent_read(file.content(), wanted_list.lend_all());
    let case = format_args!("{case}, reading into {length} bytes");
    run.count(Call::FileRead, archive.number);
    run.equal(archive, wanted, case);
    run.equal_rooms(&list, &wanted_list, "list", case);
    run.equal_rooms(&lent, &file, "file", case);
    archive.number
}

fn independent_read(file: &[u8], list: &mut [u8]) -> FileReadResult {
    let result = |number, day, series| FileReadResult {
        number,
        day,
        series,
    };
    match files::read(file, list) {
        Ok(Contents { day, series }) => result(0, day.into(), series as u32),
        Err(FileError::NoFile { place }) => result(31, place as u32, 0),
        Err(error) => result(error.number(), 0, 0),
    }
}

/// How long the list of a file is.
pub fn list_length(file: &[u8]) -> usize {
    file.len() / SERIES_FIELD * SERIES_BYTES
}

/// Reads what may be a file. There is room for all series that it can have.
fn compare(run: &mut Run, file: &[u8], case: Arguments) {
    compare_reading(run, file, list_length(file), case);
}

/// Reads a file that was made to give this number.
fn expect(run: &mut Run, file: &[u8], length: usize, wanted: u16, case: Arguments) {
    let number = compare_reading(run, file, length, case);
    run.equal(number, wanted, case);
}

fn day_field(day: u16) -> Vec<u8> {
    [&[1, 2, 0], &day.to_le_bytes()[..]].concat()
}

fn series_field(name: &[u8], origin: u8) -> Vec<u8> {
    [&[2, 12, 0], name, &[origin]].concat()
}

/// A file of series with these names and all origins by turns.
fn file_of(names: impl Iterator<Item = [u8; NAME_BYTES]>) -> Vec<u8> {
    let mut file = day_field(9_666);
    for (name, origin) in names.zip([1, 2, 3, 4, 5].into_iter().cycle()) {
        file.extend(series_field(&name, origin));
    }
    file
}

/// Every name that there is: by letter, then year, then price.
fn all_names() -> impl Iterator<Item = [u8; NAME_BYTES]> {
    let letters = (0..2).flat_map(|option_type| (0..12).map(move |month| (option_type, month)));
    letters.flat_map(|(option_type, month_of_year)| {
        let months = (month_of_year..MONTHS).step_by(12);
        months.flat_map(move |month| {
            let prices = grid::prices(Tier::N).iter();
            prices.map(move |&price| name_of(month, option_type, price))
        })
    })
}

/// A file of a few series, the lowest name and the highest among them.
pub fn small() -> Vec<u8> {
    let names = [
        b"OW20A000005",
        b"OW20A000010",
        b"OW20C271000",
        b"OW20L262400",
        b"OW20L262425",
        b"OW20M000475",
        b"OW20X999975",
    ];
    file_of(names.into_iter().copied())
}

/// The files of registers that calls leave behind, and one as long as a register's can be.
fn of_registers() -> Vec<(&'static str, Vec<u8>)> {
    let mut files = Vec::new();
    for specimen in specimens::all() {
        let mut file = vec![0; MOST_FILE_BYTES];
        let written = files::write(specimen.sessions.bytes(), &specimen.bytes, &mut file);
        if let Ok(length) = written {
            file.truncate(length);
            files.push((specimen.name, file));
        }
    }
    let longest = file_of(all_names().step_by(437).take(2 * MOST_ROWS));
    assert_eq!(longest.len(), MOST_FILE_BYTES);
    files.push(("1,391 new rows", longest));
    files
}

/// Places in a file from the first to the last: all of them, or so many that each place of a field
/// is among them.
fn places(file: &[u8]) -> impl Iterator<Item = usize> {
    let step = if file.len() < 3_000 {
        1
    } else {
        SERIES_FIELD - 1
    };
    (0..file.len()).step_by(step)
}

/// One byte after the other is another one, then two anywhere.
pub fn test_damaged(run: &mut Run) {
    let random = &mut Random::new(7);
    let small = small();
    for (place, &byte) in small.iter().enumerate() {
        for other in (0..=u8::MAX).filter(|&other| other != byte) {
            test_damage(run, &small, &[(place, other)], format_args!("a small file"));
        }
    }
    for (name, file) in of_registers() {
        let case = format_args!("file of {name}");
        for place in places(&file) {
            let byte = file[place];
            for other in [byte ^ 1, byte.wrapping_add(1), random.byte()] {
                test_damage(run, &file, &[(place, other)], case);
            }
        }
    }
    for _ in 0..50_000 {
        let damage = [(); 2].map(|()| {
            let place = usize::from(random.below(small.len() as u16));
            (place, likely_byte(random))
        });
        test_damage(run, &small, &damage, format_args!("a small file"));
    }
}

/// Reads a file with other bytes at some places.
fn test_damage(run: &mut Run, file: &[u8], damage: &[(usize, u8)], case: Arguments) {
    let mut damaged = file.to_vec();
    for &(place, byte) in damage {
        damaged[place] = byte;
    }
    compare(run, &damaged, format_args!("{case} with bytes {damage:?}"));
}

/// A byte that can stand somewhere in a file, or nearly.
fn likely_byte(random: &mut Random) -> u8 {
    random.pick(b"\x00\x01\x02\x03\x05\x06\x0b\x0c\x0dOW20ALMX@Y123459/:ow\xff")
}

/// Files cut off one byte after the other, and lists too short or longer than need be.
pub fn test_lengths(run: &mut Run) {
    for (name, file) in of_registers() {
        for length in places(&file) {
            let case = format_args!("file of {name} cut to {length}");
            compare(run, &file[..length], case);
        }
        let exact = list_length(&file);
        let around = exact.saturating_sub(SERIES_BYTES)..=exact + SERIES_BYTES;
        for length in (0..=SERIES_BYTES).chain(around) {
            compare_reading(run, &file, length, format_args!("file of {name}"));
        }
    }
    let small = small();
    for length in 0..=small.len() {
        for list in 0..=list_length(&small) + 2 {
            let case = format_args!("a small file cut to {length}");
            compare_reading(run, &small[..length], list, case);
        }
    }
}

/// Fields in another sequence, twice or left out, and a day in between.
pub fn test_fields(run: &mut Run) {
    let random = &mut Random::new(8);
    for (name, file) in of_registers() {
        let (day, series) = file.split_at(DAY_FIELD);
        let fields: Vec<&[u8]> = series.chunks(SERIES_FIELD).collect();
        for _ in 0..300.min(20 * fields.len()) {
            let place = usize::from(random.below(fields.len() as u16));
            let other = usize::from(random.below(fields.len() as u16));
            let next = (place + 1).min(fields.len() - 1);
            for (change, changed) in [
                ("swapped with the next", swapped(&fields, place, next)),
                ("swapped with another", swapped(&fields, place, other)),
                ("twice", with(&fields, place, fields[place])),
                ("again elsewhere", with(&fields, other, fields[place])),
                ("left out", without(&fields, place)),
                ("behind a day", with(&fields, place, day)),
            ] {
                let changed = [day, &changed.concat()].concat();
                let case = format_args!("file of {name}, field {place} {change}");
                compare(run, &changed, case);
            }
        }
    }
}

fn swapped<'a>(fields: &[&'a [u8]], place: usize, other: usize) -> Vec<&'a [u8]> {
    let mut fields = fields.to_vec();
    fields.swap(place, other);
    fields
}

fn with<'a>(fields: &[&'a [u8]], place: usize, field: &'a [u8]) -> Vec<&'a [u8]> {
    let mut fields = fields.to_vec();
    fields.insert(place, field);
    fields
}

fn without<'a>(fields: &[&'a [u8]], place: usize) -> Vec<&'a [u8]> {
    let mut fields = fields.to_vec();
    fields.remove(place);
    fields
}

/// Every day that two bytes can hold, alone, before a series and before a fault; every price, with
/// letters at the ends of those that can stand; then bytes of any kind.
pub fn test_any(run: &mut Run) {
    for day in 0..=u16::MAX {
        let case = format_args!("file of day {day}");
        let mut file = day_field(day);
        expect(run, &file, 0, if day < DAYS { 0 } else { 31 }, case);
        file.extend(series_field(b"OW20L262400", 5));
        compare(run, &file, case);
        file[DAY_FIELD] = 1;
        compare(run, &file, case);
    }
    for price in 0..10_000 {
        for letter in ['@', 'A', 'X', 'Y'] {
            let name = format!("OW20{letter}26{price:04}");
            let file = [day_field(9_666), series_field(name.as_bytes(), 1)].concat();
            compare(run, &file, format_args!("file of {name}"));
        }
    }
    let random = &mut Random::new(9);
    for number in 0..40_000 {
        let length = random.below(40).into();
        let file: Vec<u8> = (0..length).map(|_| random.byte()).collect();
        compare(run, &file, format_args!("random bytes {number}"));
        let file: Vec<u8> = (0..length).map(|_| likely_byte(random)).collect();
        compare(run, &file, format_args!("likely bytes {number}"));
    }
    for number in 0..200_000 {
        let file = likely(random);
        let list = random.pick(&[0, SERIES_BYTES, list_length(&file)]);
        compare_reading(run, &file, list, format_args!("likely file {number}"));
    }
}

/// A few fields, most of them right and ascending, now and then with a fault or cut off.
fn likely(random: &mut Random) -> Vec<u8> {
    let far = random.pick(&[DAYS - 1, DAYS, u16::MAX]);
    let day = random.pick(&[9_666, 9_666, 9_666, 0, far]);
    let mut names: Vec<[u8; NAME_BYTES]> =
        (0..random.below(6)).map(|_| likely_name(random)).collect();
    if !random.one_in(4) {
        names.sort();
        names.dedup();
    }
    let mut file = day_field(day);
    for name in &names {
        file.extend(series_field(name, 1 + random.below(5) as u8));
    }
    if random.one_in(3) {
        let place = usize::from(random.below(file.len() as u16));
        file[place] = likely_byte(random);
    }
    if random.one_in(4) {
        file.truncate(random.below(file.len() as u16 + 1).into());
    }
    file
}

/// A name out of few, so that some are alike; one in eight has a price of no grid.
fn likely_name(random: &mut Random) -> [u8; NAME_BYTES] {
    let month = 12 * random.pick(&[0, 26, 27, 99]) + random.pick(&[0, 1, 11]);
    let price = random.pick(&[5, 475, 480, 2_400, 2_425, 9_975]);
    let mut name = name_of(month, random.below(2), price);
    if random.one_in(8) {
        name[NAME_BYTES - 1] = b'1';
    }
    name
}

/// Every name that there is, in one file: the longest that can be read, far longer than any
/// register's.
pub fn test_long(run: &mut Run) {
    let mut file = file_of(all_names());
    let (end, exact) = (file.len(), list_length(&file));
    let case = format_args!("a file of all names");
    expect(run, &file, exact, 0, case);
    expect(run, &file, exact - 1, 30, case);
    expect(run, &file[..end - 1], exact, 31, case);
    for (place, byte) in [(end - 1, 0), (end - SERIES_FIELD, 1), (end - 2, b'1')] {
        let before = mem::replace(&mut file[place], byte);
        let case = format_args!("{case}, byte {place} is {byte}");
        expect(run, &file, exact, 31, case);
        file[place] = before;
    }
    // Whatever follows is not above the last one.
    file.extend_from_within(end - SERIES_FIELD..);
    expect(run, &file, exact, 31, case);
    let case = format_args!("a file of some months");
    let part = &file[..DAY_FIELD + 100_000 * SERIES_FIELD];
    expect(run, part, list_length(part), 0, case);
}
