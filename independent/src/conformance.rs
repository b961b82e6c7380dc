//! The table of conformance cases, answered by this implementation. The table says at its head
//! what its lines mean.

use crate::calendar::{bytes_of, Calendar, CalendarError};
use crate::calls::{self, Listing};
use crate::dates::DAYS;
use crate::files::{self, Contents, FileError, SERIES_BYTES};
use crate::names::{self, NameError, OptionType, Series, NAME_BYTES};
use crate::register::{Register, RegisterError, Row, REGISTER_BYTES};

/// The table with the right answers in place of those that stand in it.
///
/// # Panics
///
/// Where a line is none of those that the table's head describes.
pub fn answered(table: &str) -> String {
    let mut desk = Desk::default();
    let mut calls = 0;
    let mut text = String::new();
    for (number, line) in (1..).zip(table.lines()) {
        let asked = line.split_once(" =").map_or(line, |(asked, _)| asked);
        let words: Vec<&str> = asked.split_whitespace().collect();
        let right = match words.as_slice() {
            [] | ["#", ..] => Some(line.to_string()),
            ["calls", ..] => Some(format!("calls {calls}")),
            ["calendar" | "register" | "file", ..] => desk.make(&words).map(|()| line.to_string()),
            _ => {
                calls += 1;
                let answer = desk.answer(&words);
                answer.map(|answer| format!("{asked} = {answer}"))
            }
        };
        text += &right.unwrap_or_else(|| panic!("line {number}: {line}"));
        text.push('\n');
    }
    text
}

/// The calendar, the register and the file of a run.
#[derive(Default)]
struct Desk {
    calendar: Vec<u8>,
    register: Vec<u8>,
    file: Vec<u8>,
}

impl Desk {
    /// Makes bytes; none for a line that there is not.
    fn make(&mut self, words: &[&str]) -> Option<()> {
        match *words {
            ["calendar", "every-day"] => self.calendar = bytes_of(0..DAYS).to_vec(),
            ["calendar", "weekdays"] => {
                self.calendar = bytes_of((0..DAYS).filter(|day| day % 7 >= 2)).to_vec();
            }
            ["calendar", "open", first, last] => {
                for day in number(first)?..=number(last)? {
                    *self.calendar.get_mut(day as usize / 8)? |= 1 << (day % 8);
                }
            }
            ["calendar", "closed", first, last] => {
                for day in number(first)?..=number(last)? {
                    *self.calendar.get_mut(day as usize / 8)? &= !(1 << (day % 8));
                }
            }
            ["calendar", "length", length] => self.calendar.resize(number(length)? as usize, 0),
            ["register", "empty"] => self.register = vec![0; REGISTER_BYTES],
            ["register", "length", length] => self.register.resize(number(length)? as usize, 0),
            ["register", "byte", place, value] => {
                *self.register.get_mut(number(place)? as usize)? = value.parse().ok()?;
            }
            ["file", "day", day] => {
                let day: u16 = day.parse().ok()?;
                self.file = [&[1, 2, 0][..], &day.to_le_bytes()].concat();
            }
            ["file", "series", name, origin] => {
                self.file.extend([2, 12, 0]);
                self.file.extend(name.bytes());
                self.file.push(origin.parse().ok()?);
            }
            ["file", "length", length] => self.file.resize(number(length)? as usize, 0),
            ["file", "byte", place, value] => {
                *self.file.get_mut(number(place)? as usize)? = value.parse().ok()?;
            }
            _ => return None,
        }
        Some(())
    }

    /// Makes a call; none for one that there is not.
    fn answer(&mut self, words: &[&str]) -> Option<String> {
        Some(match *words {
            ["check"] => match Calendar::check(&self.calendar) {
                Ok(_) => "0".to_string(),
                Err(error) => refusal(error.into()),
            },
            ["start", day, close] => {
                let (day, close) = (number(day)?, number(close)?);
                let result = calls::start(&self.calendar, &mut self.register, day, close);
                self.listed(result)
            }
            ["session", day, close] => {
                let (day, close) = (number(day)?, number(close)?);
                let result = calls::session(&self.calendar, &mut self.register, day, close);
                self.listed(result)
            }
            ["announce", month, price] => {
                let (month, price) = (number(month)?, number(price)?);
                match calls::announce(&self.calendar, &mut self.register, month, price) {
                    Ok(waiting) => format!("0 {waiting} {:08x}", crc(&self.register)),
                    Err(error) => refusal(error),
                }
            }
            ["rows", month] => self.rows(number(month)?),
            ["write", month, option_type, price] => {
                let types = ["call", "put"];
                let option_type = types.iter().position(|name| *name == option_type)? as u32;
                let (month, price) = (number(month)?, number(price)?);
                let mut name = [0; NAME_BYTES];
                match names::write(&mut name, month, option_type, price) {
                    Ok(()) => format!("0 {}", name.escape_ascii()),
                    Err(error) => error.number().to_string(),
                }
            }
            ["read"] => read(""),
            ["read", name] => read(name),
            ["file_write", length] => {
                let mut file = vec![0; number(length)? as usize];
                match files::write(&self.calendar, &self.register, &mut file) {
                    Ok(length) => {
                        file.truncate(length);
                        self.file = file;
                        format!("0 {length} {:08x}", crc(&self.file))
                    }
                    Err(error) => file_refusal(error),
                }
            }
            ["file_read", length] => {
                let mut list = vec![0; number(length)? as usize];
                match files::read(&self.file, &mut list) {
                    Ok(Contents { day, series }) => {
                        list.truncate(SERIES_BYTES * series);
                        format!("0 {day} {series} {:08x}", crc(&list))
                    }
                    Err(error) => file_refusal(error),
                }
            }
            _ => return None,
        })
    }

    fn listed(&self, result: Result<Listing, RegisterError>) -> String {
        match result {
            Ok(Listing {
                added,
                removed,
                rows,
            }) => format!("0 {added} {removed} {rows} {:08x}", crc(&self.register)),
            Err(error) => refusal(error),
        }
    }

    fn rows(&self, month: u32) -> String {
        if let Err(error) = calls::rows(&self.calendar, &self.register, month) {
            return error.number().to_string();
        }
        let calendar = Calendar::check(&self.calendar).expect("the call was accepted");
        let register = Register::read(calendar, &self.register);
        let register = register.expect("the call was accepted");
        let register = register.expect("the call was accepted");
        told(register.ladder(month as u16))
    }
}

/// A ladder as the table tells it.
fn told(ladder: &[Row]) -> String {
    let line = |row: &Row| {
        let origin = row.origin as u8;
        format!("{} {} {} {origin}\n", row.month, row.price, row.first_day)
    };
    let text: String = ladder.iter().map(line).collect();
    let of_origin = |origin| {
        let rows = ladder.iter().filter(|row| row.origin as u8 == origin);
        rows.count().to_string()
    };
    let origins = [1, 2, 3, 4, 5].map(of_origin).join(",");
    format!(
        "0 {} {} {} {origins} {:08x}",
        ladder.len(),
        ladder[0].price,
        ladder[ladder.len() - 1].price,
        crc(text.as_bytes())
    )
}

fn read(name: &str) -> String {
    match names::read(name.as_bytes()) {
        Ok(Series {
            month,
            option_type,
            price,
        }) => {
            let option_type = match option_type {
                OptionType::Call => "call",
                OptionType::Put => "put",
            };
            format!("0 {month} {option_type} {price}")
        }
        Err(NameError::Byte { place }) => format!("29 {place}"),
        Err(error) => error.number().to_string(),
    }
}

fn refusal(error: RegisterError) -> String {
    match error {
        RegisterError::Calendar(CalendarError::NoSession { month }) => format!("13 {month}"),
        _ => error.number().to_string(),
    }
}

fn file_refusal(error: FileError) -> String {
    match error {
        FileError::Register(error) => refusal(error),
        FileError::NoFile { place } => format!("31 {place}"),
        FileError::Short => error.number().to_string(),
    }
}

fn number(word: &str) -> Option<u32> {
    word.parse().ok()
}

/// The CRC-32 of zip and png.
fn crc(bytes: &[u8]) -> u32 {
    !bytes.iter().fold(!0, |crc, &byte| {
        (0..8).fold(crc ^ u32::from(byte), |crc, _| {
            (crc >> 1) ^ (0xedb8_8320 * (crc & 1))
        })
    })
}

#[cfg(test)]
mod tests {
    use super::*;
    use crate::numbers::NUMBERS;

    const TABLE: &str = include_str!("../../conformance/cases.txt");

    #[test]
    fn the_answers_in_the_table_are_right() {
        let answered = answered(TABLE);
        for (number, (line, right)) in (1..).zip(TABLE.lines().zip(answered.lines())) {
            assert_eq!(line, right, "line {number}");
        }
        assert_eq!(TABLE, answered);
    }

    #[test]
    fn the_table_has_every_number_that_a_call_returns() {
        for (call, numbers) in NUMBERS {
            let call = match call {
                "calendar_check" => "check",
                "name_write" => "write",
                "name_read" => "read",
                _ => call,
            };
            // A binding's buffer for a name always has its 11 bytes.
            let never = (call == "write").then_some(27);
            for number in numbers.iter().filter(|&&number| Some(number) != never) {
                let number = number.to_string();
                let answers = |line: &str| {
                    let (asked, answer) = line.split_once(" = ").unwrap_or_default();
                    asked.split(' ').next() == Some(call)
                        && answer.split(' ').next() == Some(&number)
                };
                assert!(TABLE.lines().any(answers), "{call} = {number}");
            }
        }
    }

    #[test]
    fn a_wrong_answer_is_set_right() {
        let table = "calendar every-day\ncheck = 11\nread OW20Y262400\ncalls";
        let right = "calendar every-day\ncheck = 0\nread OW20Y262400 = 29 4\ncalls 2\n";
        assert_eq!(answered(table), right);
    }

    #[test]
    fn the_crc_is_that_of_zip() {
        assert_eq!(crc(b"123456789"), 0xcbf4_3926);
    }
}
