//! The file of a day's new series: written through a map by name, read byte by byte.

use std::collections::BTreeMap;

use crate::calendar::{Calendar, CalendarError};
use crate::calls::running;
use crate::dates::DAYS;
use crate::names::{self, NAME_BYTES};
use crate::register::{Register, RegisterError, MOST_ROWS};

/// The length of a series in a list of them: its name and its origin.
pub const SERIES_BYTES: usize = NAME_BYTES + 1;
/// The length of the longest file of a register: its day, a call and a put for each row.
pub const MOST_FILE_BYTES: usize =
    HEAD_BYTES + DAY_BYTES + 2 * MOST_ROWS * (HEAD_BYTES + SERIES_BYTES);

/// A field's tag and its length come before its content.
const HEAD_BYTES: usize = 3;
const DAY_BYTES: usize = 2;

const DAY_TAG: u8 = 1;
const SERIES_TAG: u8 = 2;

type Name = [u8; NAME_BYTES];

/// Why a file is not written or not read.
#[derive(Debug, Clone, Copy, PartialEq, Eq)]
pub enum FileError {
    Register(RegisterError),
    /// The output buffer is too short.
    Short,
    /// The bytes are no file; this is the lowest place at fault.
    NoFile {
        place: usize,
    },
}

impl FileError {
    /// The number of the cause in documents 01 and 02.
    pub fn number(self) -> u16 {
        match self {
            Self::Register(error) => error.number(),
            Self::Short => 30,
            Self::NoFile { .. } => 31,
        }
    }
}

impl From<RegisterError> for FileError {
    fn from(error: RegisterError) -> Self {
        Self::Register(error)
    }
}

impl From<CalendarError> for FileError {
    fn from(error: CalendarError) -> Self {
        Self::Register(error.into())
    }
}

/// What a file holds beside its list.
#[derive(Debug, Clone, Copy, PartialEq, Eq)]
pub struct Contents {
    pub day: u16,
    /// How many there are.
    pub series: usize,
}

/// Writes the file of a register's new series, and tells its length.
pub fn write(calendar: &[u8], register: &[u8], file: &mut [u8]) -> Result<usize, FileError> {
    let calendar = Calendar::check(calendar)?;
    let register = running(calendar, register)?;
    let bytes = file_of(register.day, &new_series(&register));
    put(file, &bytes)?;
    Ok(bytes.len())
}

/// The file of a day and of series with their origins.
fn file_of(day: u16, series: &BTreeMap<Name, u8>) -> Vec<u8> {
    let mut file = Vec::new();
    append_field(&mut file, DAY_TAG, &day.to_le_bytes());
    for (name, &origin) in series {
        append_field(&mut file, SERIES_TAG, &[name, &[origin][..]].concat());
    }
    file
}

fn append_field(file: &mut Vec<u8>, tag: u8, content: &[u8]) {
    file.push(tag);
    file.extend((content.len() as u16).to_le_bytes());
    file.extend(content);
}

/// Call and put of each row whose first day is the register's day.
fn new_series(register: &Register) -> BTreeMap<Name, u8> {
    let mut series = BTreeMap::new();
    for row in &register.rows {
        if row.first_day == register.day {
            for option_type in [0, 1] {
                let mut name = [0; NAME_BYTES];
                names::write(&mut name, row.month.into(), option_type, row.price.into())
                    .expect("a listed strike has a name");
                series.insert(name, row.origin as u8);
            }
        }
    }
    series
}

/// Reads a file: the series go into the buffer, 12 bytes each.
pub fn read(file: &[u8], series: &mut [u8]) -> Result<Contents, FileError> {
    let mut reader = Reader::default();
    let misplaced = file.iter().position(|&byte| !reader.take(byte));
    let ends_early = misplaced.is_none() && !reader.is_between_fields();
    let faults = [misplaced, reader.unfit, ends_early.then_some(file.len())];
    if let Some(place) = faults.into_iter().flatten().min() {
        return Err(FileError::NoFile { place });
    }
    put(series, &reader.list)?;
    Ok(Contents {
        day: reader.day.expect("the first field is whole"),
        series: reader.list.len() / SERIES_BYTES,
    })
}

/// Puts bytes into a buffer, all of them or none.
fn put(buffer: &mut [u8], bytes: &[u8]) -> Result<(), FileError> {
    let part = buffer.get_mut(..bytes.len()).ok_or(FileError::Short)?;
    part.copy_from_slice(bytes);
    Ok(())
}

/// Takes the bytes of a file one at a time, as long as each can stand where it does.
#[derive(Default)]
struct Reader {
    taken: usize,
    /// The bytes of the field that is not whole yet.
    field: Vec<u8>,
    /// None before the first field is whole.
    day: Option<u16>,
    /// The series of whole fields, fit or not.
    list: Vec<u8>,
    /// The first content byte of the first whole field that does not fit.
    unfit: Option<usize>,
}

impl Reader {
    fn take(&mut self, byte: u8) -> bool {
        let (tag, length) = match self.day {
            None => (DAY_TAG, DAY_BYTES),
            Some(_) => (SERIES_TAG, SERIES_BYTES),
        };
        let stands = match self.field.len() {
            0 => byte == tag,
            1 => usize::from(byte) == length,
            2 => byte == 0,
            place => self.day.is_none() || can_stand(byte, place - HEAD_BYTES),
        };
        if stands {
            self.field.push(byte);
            self.taken += 1;
            if self.field.len() == HEAD_BYTES + length {
                self.end_field(length);
            }
        }
        stands
    }

    fn end_field(&mut self, length: usize) {
        let content = &self.field[HEAD_BYTES..];
        let fits = if self.day.is_none() {
            let day = u16::from_le_bytes([content[0], content[1]]);
            self.day = Some(day);
            day < DAYS
        } else {
            let name = &content[..NAME_BYTES];
            let last = self.list.rchunks(SERIES_BYTES).next();
            let is_above = last.is_none_or(|last| *name > last[..NAME_BYTES]);
            self.list.extend(content);
            is_above && names::read(name).is_ok()
        };
        if !fits {
            self.unfit.get_or_insert(self.taken - length);
        }
        self.field.clear();
    }

    fn is_between_fields(&self) -> bool {
        self.day.is_some() && self.field.is_empty()
    }
}

/// Whether a byte can stand at a place of a series.
fn can_stand(byte: u8, place: usize) -> bool {
    if place < NAME_BYTES {
        names::can_stand(byte, place as u16)
    } else {
        (1..=5).contains(&byte)
    }
}

#[cfg(test)]
mod tests {
    use super::*;
    use crate::desk::Desk;
    use crate::grid::{HIGHEST_CLOSE, LOWEST_CLOSE};

    /// Monday, 16 November 2026, after whose week November expires.
    const MONDAY: u32 = 9_816;
    const CLOSE: u32 = 241_337;

    impl Desk {
        /// The file, from a buffer that is longer and keeps its other bytes.
        fn file(&self) -> Vec<u8> {
            let mut buffer = vec![0xa5; MOST_FILE_BYTES + 1];
            let length = self.write(&mut buffer).unwrap();
            assert!(buffer[length..].iter().all(|&byte| byte == 0xa5));
            buffer[..length].to_vec()
        }

        fn write(&self, buffer: &mut [u8]) -> Result<usize, FileError> {
            write(&self.calendar, &self.bytes, buffer)
        }
    }

    /// The series of a file that is one, as text and origin.
    fn listed(file: &[u8]) -> Vec<(String, u8)> {
        let mut list = vec![0; file.len()];
        let contents = read(file, &mut list).unwrap();
        let series = list[..SERIES_BYTES * contents.series].chunks(SERIES_BYTES);
        let text = |name: &[u8]| name.escape_ascii().to_string();
        series
            .map(|one| (text(&one[..NAME_BYTES]), one[NAME_BYTES]))
            .collect()
    }

    /// A file of day 5 and of some series.
    fn file_with(series: &[(&[u8; NAME_BYTES], u8)]) -> Vec<u8> {
        let mut file = vec![1, 2, 0, 5, 0];
        for &(name, origin) in series {
            file.extend([2, 12, 0]);
            file.extend(name);
            file.push(origin);
        }
        file
    }

    fn fault(file: &[u8]) -> Option<usize> {
        let mut list = vec![0; file.len()];
        match read(file, &mut list) {
            Ok(_) => None,
            Err(FileError::NoFile { place }) => Some(place),
            Err(other) => panic!("{other:?}"),
        }
    }

    #[test]
    fn a_start_has_188_series() {
        let file = Desk::started(MONDAY, CLOSE).file();
        assert_eq!(file.len(), 2_825);
        assert_eq!(file[..8], [1, 2, 0, 0x58, 0x26, 2, 12, 0]);
        let series = listed(&file);
        assert_eq!(series.len(), 188);
        assert!(series.iter().all(|(_, origin)| *origin == 5));
        assert!(series.is_sorted_by(|(one, _), (next, _)| one < next));
        // January 2027 is among the next two months, and comes before November 2026.
        let mut letters: Vec<&str> = series.iter().map(|(name, _)| &name[4..5]).collect();
        letters.dedup();
        assert_eq!(letters.concat(), "ACFIKLMORUWX");
        assert_eq!(series[0].0, "OW20A272000");
    }

    #[test]
    fn a_session_names_what_is_new() {
        let mut desk = Desk::started(MONDAY, CLOSE);
        desk.session(MONDAY + 1, CLOSE).unwrap();
        assert_eq!(desk.file(), [1, 2, 0, 0x59, 0x26]);
        desk.announce(323, 2_850).unwrap();
        desk.session(MONDAY + 2, CLOSE).unwrap();
        let new = ["OW20L262850", "OW20X262850"].map(|name| (name.to_string(), 4));
        assert_eq!(listed(&desk.file()), new);
    }

    #[test]
    fn the_longest_file_has_41735_bytes() {
        let mut desk = Desk::started(MONDAY, LOWEST_CLOSE);
        desk.session(MONDAY + 1, HIGHEST_CLOSE).unwrap();
        assert_eq!(desk.file().len(), 5 + 30 * 1_295);
        desk.announce(322, 5).unwrap();
        desk.announce(322, 9_975).unwrap();
        desk.session(MONDAY + 2, CLOSE).unwrap();
        let calendar = Calendar::check(&desk.calendar).unwrap();
        let mut register = running(calendar, &desk.bytes).unwrap();
        for row in &mut register.rows {
            row.first_day = register.day;
        }
        register.write(&mut desk.bytes);
        assert_eq!(desk.file().len(), 41_735);
        assert_eq!(MOST_FILE_BYTES, 41_735);
        assert_eq!(listed(&desk.file()).len(), 2 * MOST_ROWS);
    }

    #[test]
    fn a_buffer_that_is_too_short_stays_as_it_is() {
        let desk = Desk::started(MONDAY, CLOSE);
        for length in [0, 5, 2_824] {
            let mut buffer = vec![0xa5; length];
            assert_eq!(desk.write(&mut buffer), Err(FileError::Short));
            assert_eq!(buffer, vec![0xa5; length]);
        }
        assert_eq!(desk.write(&mut [0; 2_825]), Ok(2_825));
        let mut list = [0xa5; 188 * SERIES_BYTES - 1];
        assert_eq!(read(&desk.file(), &mut list), Err(FileError::Short));
        assert_eq!(list, [0xa5; 188 * SERIES_BYTES - 1]);
    }

    #[test]
    fn causes_come_in_their_order() {
        let mut desk = Desk::empty();
        let register = |error| Err(FileError::Register(error));
        assert_eq!(desk.write(&mut []), register(RegisterError::Empty));
        desk.bytes[7] = 1;
        assert_eq!(desk.write(&mut []), register(RegisterError::Malformed));
        let no_register = write(&desk.calendar, &[], &mut []);
        assert_eq!(no_register, register(RegisterError::Length));
        let lengths = RegisterError::Calendar(CalendarError::Length);
        assert_eq!(write(&[], &[], &mut []), register(lengths));
        let cut = file_with(&[(b"OW20L262400", 5)]);
        let no_file = Err(FileError::NoFile { place: 19 });
        assert_eq!(read(&cut[..19], &mut []), no_file);
        assert_eq!(read(&cut, &mut []), Err(FileError::Short));
    }

    #[test]
    fn a_day_is_read_and_need_not_be_a_session() {
        for (day, place) in [
            (0, None),
            (36_524, None),
            (36_525, Some(3)),
            (65_535, Some(3)),
        ] {
            let file = file_of(day, &BTreeMap::new());
            assert_eq!(fault(&file), place, "{day}");
            // A later fault is not told in its place.
            let more = [file, vec![7]].concat();
            assert_eq!(fault(&more), place.or(Some(5)), "{day}");
        }
        let contents = read(&[1, 2, 0, 0xac, 0x8e], &mut []).unwrap();
        assert_eq!((contents.day, contents.series), (36_524, 0));
    }

    #[test]
    fn the_first_byte_that_cannot_stand_is_told() {
        let heads: [(&[u8], usize); 9] = [
            (&[], 0),
            (&[2], 0),
            (&[1], 1),
            (&[1, 3], 1),
            (&[1, 2, 1], 2),
            (&[1, 2, 0, 0xff], 4),
            (&[1, 2, 0, 0, 0, 1], 5),
            (&[1, 2, 0, 0, 0, 2, 12, 1], 7),
            (&[1, 2, 0, 0, 0, 2, 12, 0, b'O', b'X'], 9),
        ];
        for (file, place) in heads {
            assert_eq!(fault(file), Some(place), "{file:?}");
        }
        assert_eq!(fault(&file_with(&[(b"OW20Y262400", 5)])), Some(12));
        for origin in [0, 6, 9, 255] {
            assert_eq!(fault(&file_with(&[(b"OW20L262400", origin)])), Some(19));
        }
    }

    #[test]
    fn where_the_bytes_end_early_their_length_is_told() {
        let file = file_with(&[(b"OW20L262401", 5), (b"OW20L262400", 5)]);
        for length in (0..5).chain(6..20) {
            assert_eq!(fault(&file[..length]), Some(length));
        }
        assert_eq!(fault(&file[..5]), None);
    }

    #[test]
    fn only_a_whole_field_is_judged_by_its_content() {
        let off_grid = file_with(&[(b"OW20L262401", 5)]);
        assert_eq!(fault(&off_grid), Some(8));
        assert_eq!(fault(&off_grid[..19]), Some(19));
        assert_eq!(fault(&file_with(&[(b"OW20L262401", 9)])), Some(19));
        let more = file_with(&[(b"OW20L262401", 5), (b"OW20L262400", 9)]);
        assert_eq!(fault(&more), Some(8));
    }

    #[test]
    fn names_ascend_by_byte_value() {
        let second = |name| fault(&file_with(&[(b"OW20L262400", 5), (name, 1)]));
        for name in [b"OW20L262400", b"OW20L262375", b"OW20A272400"] {
            assert_eq!(second(name), Some(23));
        }
        for name in [b"OW20L262425", b"OW20L272400", b"OW20X002400"] {
            assert_eq!(second(name), None);
        }
    }

    #[test]
    fn what_is_read_is_written_again() {
        let file = Desk::started(MONDAY, CLOSE).file();
        let mut list = vec![0; file.len()];
        let contents = read(&file, &mut list).unwrap();
        let mut series = BTreeMap::new();
        for one in list[..SERIES_BYTES * contents.series].chunks(SERIES_BYTES) {
            series.insert(one[..NAME_BYTES].try_into().unwrap(), one[NAME_BYTES]);
        }
        assert_eq!(file_of(contents.day, &series), file);
    }
}
