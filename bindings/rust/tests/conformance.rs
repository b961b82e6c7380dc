//! The table of conformance cases, run over the safe types, and where a line tells a buffer's
//! length over the raw calls too. What its lines mean stands at its head.

use sindhopul::{
    raw, Calendar, Listed, NewSeries, OptionType, Refusal, Register, Row, Series, SeriesFile,
};

const TABLE: &str = include_str!("../../../conformance/cases.txt");

/// What stands in a buffer before a call writes into it.
const FILLED: u8 = 0xa5;

#[test]
fn every_case() {
    let mut desk = Desk::default();
    let mut calls = 0;
    let mut wanted_calls = 0;
    for (line_number, line) in (1..).zip(TABLE.lines()) {
        let (asked, answer) = line.split_once(" = ").unwrap_or((line, ""));
        let words: Vec<&str> = asked.split(' ').collect();
        match words.as_slice() {
            [""] | ["#", ..] => (),
            ["calls", wanted] => wanted_calls = number(wanted),
            ["calendar" | "register" | "file", ..] => desk.make(&words),
            _ => {
                let (register, file) = (desk.register.clone(), desk.file.clone());
                assert_eq!(desk.answer(&words), answer, "line {line_number}: {asked}");
                if !answer.starts_with("0 ") {
                    let unchanged = desk.register == register && desk.file == file;
                    assert!(unchanged, "line {line_number}: {asked}");
                }
                calls += 1;
            }
        }
    }
    assert!(calls > 0);
    assert_eq!(calls, wanted_calls);
}

/// The calendar, the register and the file of the run. A call takes them up as bytes, as one that
/// loads them would.
#[derive(Default)]
struct Desk {
    calendar: Vec<u8>,
    register: Vec<u8>,
    file: Vec<u8>,
}

impl Desk {
    fn make(&mut self, words: &[&str]) {
        match *words {
            ["calendar", "every-day"] => self.sessions(|_| true),
            ["calendar", "weekdays"] => self.sessions(|day| day % 7 >= 2),
            ["calendar", "open", first, last] => {
                for day in number(first)..=number(last) {
                    self.calendar[day as usize / 8] |= 1 << (day % 8);
                }
            }
            ["calendar", "closed", first, last] => {
                for day in number(first)..=number(last) {
                    self.calendar[day as usize / 8] &= !(1 << (day % 8));
                }
            }
            ["calendar", "length", length] => self.calendar.resize(number(length) as usize, 0),
            ["register", "empty"] => self.register = Register::new().as_bytes().to_vec(),
            ["register", "length", length] => self.register.resize(number(length) as usize, 0),
            ["register", "byte", place, value] => {
                self.register[number(place) as usize] = number(value) as u8;
            }
            ["file", "day", day] => {
                let day = number(day) as u16;
                self.file = [&[1, 2, 0][..], &day.to_le_bytes()].concat();
            }
            ["file", "series", name, origin] => {
                self.file.extend([2, 12, 0]);
                self.file.extend(name.bytes());
                self.file.push(number(origin) as u8);
            }
            ["file", "length", length] => self.file.resize(number(length) as usize, 0),
            ["file", "byte", place, value] => {
                self.file[number(place) as usize] = number(value) as u8;
            }
            _ => panic!("there is no line {words:?}"),
        }
    }

    fn sessions(&mut self, on: fn(&u16) -> bool) {
        let calendar = Calendar::with_sessions((0..36_525).filter(on));
        self.calendar = calendar
            .expect("every month has weekdays")
            .as_bytes()
            .to_vec();
    }

    fn answer(&mut self, words: &[&str]) -> String {
        let answer = match *words {
            ["check"] => Calendar::new(&self.calendar).map(|_| "0".to_string()),
            ["start", day, close] => self.change(|register, calendar| {
                let listed = register.start(calendar, number(day), number(close));
                listed.map(listing)
            }),
            ["session", day, close] => self.change(|register, calendar| {
                let listed = register.session(calendar, number(day), number(close));
                listed.map(listing)
            }),
            ["announce", month, price] => self.change(|register, calendar| {
                let waiting = register.announce(calendar, number(month), number(price));
                waiting.map(|waiting| waiting.to_string())
            }),
            ["rows", month] => {
                let rows = self.rows(number(month));
                // Here the table has no month behind 13.
                return rows.unwrap_or_else(|refusal| refusal.number().to_string());
            }
            ["write", month, option_type, price] => write(month, option_type, price),
            ["read"] => read(""),
            ["read", name] => read(name),
            ["file_write", room] => self.write_file(number(room) as usize),
            ["file_read", room] => self.read_file(number(room) as usize),
            _ => panic!("there is no call {words:?}"),
        };
        answer.unwrap_or_else(|refusal| match refusal {
            Refusal::CalendarMonth { month } => format!("13 {month}"),
            Refusal::NameByte { place } => format!("29 {place}"),
            Refusal::FileForm { place } => format!("31 {place}"),
            _ => refusal.number().to_string(),
        })
    }

    fn change(
        &mut self,
        call: impl FnOnce(&mut Register, &Calendar) -> Result<String, Refusal>,
    ) -> Result<String, Refusal> {
        let calendar = Calendar::new(&self.calendar)?;
        let mut register = Register::from_bytes(&self.register)?;
        let values = call(&mut register, &calendar);
        self.register.copy_from_slice(register.as_bytes());
        Ok(format!("0 {} {:08x}", values?, crc(&self.register)))
    }

    fn rows(&self, month: u32) -> Result<String, Refusal> {
        let calendar = Calendar::new(&self.calendar)?;
        let register = Register::from_bytes(&self.register)?;
        let rows: Vec<Row> = register.rows(&calendar, month)?.collect();
        let line = |row: &Row| {
            let origin = row.origin as u8;
            format!("{} {} {} {origin}\n", row.month, row.price, row.first_day)
        };
        let text: String = rows.iter().map(line).collect();
        let of_origin = |origin| {
            let rows = rows.iter().filter(|row| row.origin as u8 == origin);
            rows.count().to_string()
        };
        let origins = [1, 2, 3, 4, 5].map(of_origin).join(",");
        let (lowest, highest) = (rows[0].price, rows[rows.len() - 1].price);
        let crc = crc(text.as_bytes());
        Ok(format!(
            "0 {} {lowest} {highest} {origins} {crc:08x}",
            rows.len()
        ))
    }

    /// Writes into the binding's own buffer, which is always long enough, then into one of the
    /// line's length.
    fn write_file(&mut self, room: usize) -> Result<String, Refusal> {
        let calendar = Calendar::new(&self.calendar)?;
        let register = Register::from_bytes(&self.register)?;
        let file = register.file(&calendar)?;
        let mut buffer = vec![FILLED; room];
        let result = raw::file_write(calendar.as_bytes(), register.as_bytes(), &mut buffer);
        if result.number != 0 {
            assert!(is_filled(&buffer));
            return Ok(result.number.to_string());
        }
        assert_eq!(result.length as usize, file.len());
        assert!(buffer.starts_with(&file) && is_filled(&buffer[file.len()..]));
        self.file = file;
        Ok(format!("0 {} {:08x}", self.file.len(), crc(&self.file)))
    }

    /// Reads into buffers alike.
    fn read_file(&self, room: usize) -> Result<String, Refusal> {
        let file = SeriesFile::read(&self.file)?;
        let bytes = |new: NewSeries| [&new.name.as_bytes()[..], &[new.origin as u8]].concat();
        let list: Vec<u8> = file.series().flat_map(bytes).collect();
        let mut buffer = vec![FILLED; room];
        let result = raw::file_read(&self.file, &mut buffer);
        if result.number != 0 {
            assert!(is_filled(&buffer));
            return Ok(result.number.to_string());
        }
        assert_eq!(result.day, file.day().into());
        assert_eq!(result.series as usize, file.len());
        assert!(buffer.starts_with(&list) && is_filled(&buffer[list.len()..]));
        Ok(format!(
            "0 {} {} {:08x}",
            file.day(),
            file.len(),
            crc(&list)
        ))
    }
}

fn is_filled(bytes: &[u8]) -> bool {
    bytes.iter().all(|&byte| byte == FILLED)
}

fn listing(listed: Listed) -> String {
    format!("{} {} {}", listed.added, listed.removed, listed.rows)
}

fn write(month: &str, option_type: &str, price: &str) -> Result<String, Refusal> {
    let series = Series {
        month: number(month) as u16,
        option_type: match option_type {
            "call" => OptionType::Call,
            "put" => OptionType::Put,
            _ => panic!("there is no type {option_type}"),
        },
        price: number(price) as u16,
    };
    Ok(format!("0 {}", series.name()?))
}

fn read(name: &str) -> Result<String, Refusal> {
    let series: Series = name.parse()?;
    let option_type = match series.option_type {
        OptionType::Call => "call",
        OptionType::Put => "put",
    };
    Ok(format!("0 {} {option_type} {}", series.month, series.price))
}

fn number(word: &str) -> u32 {
    word.parse().expect("the word is a number")
}

/// The CRC-32 of zip and png.
fn crc(bytes: &[u8]) -> u32 {
    !bytes.iter().fold(!0, |crc, &byte| {
        (0..8).fold(crc ^ u32::from(byte), |crc, _| {
            (crc >> 1) ^ (0xedb8_8320 * (crc & 1))
        })
    })
}
