//! The archive and the independent engine side by side, each at work on a register of its own.

use std::fmt::Arguments;

use independent::files::{self, FileError};
use independent::judge::Call;
use independent::{calls, CalendarError, Listing, RegisterError};
use sindhopul::raw::{self, ListingResult};

use crate::files::{compare_reading, list_length};
use crate::room::Room;
use crate::run::{self, Run};

/// A call on a register.
#[derive(Debug, Clone, Copy)]
pub enum Request {
    Change(Call),
    Rows {
        month: u32,
    },
    /// The file, in a buffer of so many bytes.
    File {
        length: usize,
    },
}

impl Request {
    /// How long a buffer is lent beside calendar and register.
    fn buffer_length(self) -> usize {
        match self {
            Self::File { length } => length,
            Self::Change(_) | Self::Rows { .. } => 0,
        }
    }
}

impl From<Call> for Request {
    fn from(call: Call) -> Self {
        Self::Change(call)
    }
}

/// A calendar, and a register for each of the two.
pub struct Pair {
    calendar: Room,
    registers: Registers,
}

impl Pair {
    pub fn of(calendar: &[u8], register: &[u8]) -> Self {
        Self {
            calendar: Room::of(calendar),
            registers: Registers::of(register),
        }
    }

    /// The archive's register.
    pub fn bytes(&self) -> &[u8] {
        self.registers.archive.content()
    }

    /// Makes a call, and gives back the number that it returned.
    pub fn call(&mut self, run: &mut Run, request: Request, case: Arguments) -> u16 {
        self.registers.call(run, &self.calendar, request, case)
    }

    /// Lends another calendar, and a copy of the register.
    pub fn call_with_calendar(
        &self,
        run: &mut Run,
        calendar: &[u8],
        request: Request,
        case: Arguments,
    ) {
        let case = format_args!("{case}, another calendar");
        let mut copy = self.registers.clone();
        copy.call(run, &Room::of(calendar), request, case);
    }

    /// Lends so many bytes of a copy of the register, guard bytes among them if they are too many.
    pub fn call_with_length(
        &self,
        run: &mut Run,
        length: usize,
        request: Request,
        case: Arguments,
    ) {
        let case = format_args!("{case}, {length} bytes of register");
        let mut copy = self.registers.clone();
        copy.call_on_part(run, &self.calendar, length, request, case);
    }

    /// Lends a copy of the register with another byte at a place.
    pub fn call_damaged(
        &self,
        run: &mut Run,
        (place, byte): (usize, u8),
        request: Request,
        case: Arguments,
    ) {
        let case = format_args!("{case}, byte {place} set to {byte}");
        let mut copy = self.registers.clone();
        copy.archive.set(place, byte);
        copy.engine.set(place, byte);
        copy.call(run, &self.calendar, request, case);
    }
}

/// The archive's register and the engine's. They have the same bytes whenever no call runs.
#[derive(Clone)]
struct Registers {
    archive: Room,
    engine: Room,
}

impl Registers {
    fn of(register: &[u8]) -> Self {
        let archive = Room::of(register);
        Self {
            engine: archive.clone(),
            archive,
        }
    }

    fn call(&mut self, run: &mut Run, calendar: &Room, request: Request, case: Arguments) -> u16 {
        let length = self.archive.content().len();
        self.call_on_part(run, calendar, length, request, case)
    }

    /// Makes a call of both, and compares what it says and every byte it could have written. A
    /// file that was written is read too.
    fn call_on_part(
        &mut self,
        run: &mut Run,
        calendar: &Room,
        length: usize,
        request: Request,
        case: Arguments,
    ) -> u16 {
        let lent = calendar.clone();
        let mut file = Room::blank(request.buffer_length());
        let mut wanted_file = file.clone();
        let (register, buffer) = (self.archive.lend(length), file.lend_all());
        let archive = ask_archive(request, lent.content(), register, buffer);
        let (register, buffer) = (self.engine.lend(length), wanted_file.lend_all());
        let wanted = ask_engine(request, calendar.content(), register, buffer);
        let case = format_args!("{case}, {request:?}");
        let number = archive[0] as u16;
        run.count(counted(request), number);
        run.equal(archive, wanted, case);
        run.equal_rooms(&self.archive, &self.engine, "register", case);
        run.equal_rooms(&lent, calendar, "calendar", case);
        if let Request::File { .. } = request {
            run.equal_rooms(&file, &wanted_file, "file", case);
            if number == 0 {
                let file = &file.content()[..archive[1] as usize];
                compare_reading(run, file, list_length(file), case);
            }
        }
        number
    }
}

fn counted(request: Request) -> run::Call {
    match request {
        Request::Change(Call::Start { .. }) => run::Call::Start,
        Request::Change(Call::Session { .. }) => run::Call::Session,
        Request::Change(Call::Announce { .. }) => run::Call::Announce,
        Request::Rows { .. } => run::Call::Rows,
        Request::File { .. } => run::Call::FileWrite,
    }
}

/// The number that a call returns, its values in their order, then zeros.
type Answer = [u32; 4];

fn ask_archive(
    request: Request,
    calendar: &[u8],
    register: &mut [u8],
    buffer: &mut [u8],
) -> Answer {
    let listing = |result: ListingResult| {
        [result.number, result.added, result.removed, result.rows].map(u32::from)
    };
    match request {
        Request::Change(Call::Start { day, close }) => {
            listing(raw::start(calendar, register, day, close))
        }
        Request::Change(Call::Session { day, close }) => {
            listing(raw::session(calendar, register, day, close))
        }
        Request::Change(Call::Announce { month, price }) => {
            let result = raw::announce(calendar, register, month, price);
            [result.number, result.waiting, 0, 0].map(u32::from)
        }
        Request::Rows { month } => {
            let result = raw::rows(calendar, register, month);
            [result.number, result.at, result.size, 0].map(u32::from)
        }
        Request::File { .. } => {
            let result = raw::file_write(calendar, register, buffer);
            [result.number.into(), result.length, 0, 0]
        }
    }
}

fn ask_engine(request: Request, calendar: &[u8], register: &mut [u8], buffer: &mut [u8]) -> Answer {
    let listing =
        |listing: Listing| [0, listing.added, listing.removed, listing.rows].map(u32::from);
    match request {
        Request::Change(Call::Start { day, close }) => {
            calls::start(calendar, register, day, close).map_or_else(refusal, listing)
        }
        Request::Change(Call::Session { day, close }) => {
            calls::session(calendar, register, day, close).map_or_else(refusal, listing)
        }
        Request::Change(Call::Announce { month, price }) => {
            calls::announce(calendar, register, month, price)
                .map_or_else(refusal, |waiting| [0, waiting.into(), 0, 0])
        }
        Request::Rows { month } => match calls::rows(calendar, register, month) {
            Ok(part) => [0, part.start as u32, part.len() as u32, 0],
            Err(error) => [error.number().into(), 0, 0, 0],
        },
        Request::File { .. } => match files::write(calendar, register, buffer) {
            Ok(length) => [0, length as u32, 0, 0],
            Err(FileError::Register(error)) => refusal(error),
            Err(error) => [error.number().into(), 0, 0, 0],
        },
    }
}

/// A refusal has zeros beside its number, but for the month that lacks its session.
fn refusal(error: RegisterError) -> Answer {
    let month = match error {
        RegisterError::Calendar(CalendarError::NoSession { month }) => month,
        _ => 0,
    };
    [error.number(), month, 0, 0].map(u32::from)
}
