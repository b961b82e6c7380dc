//! Lists of calls, refused ones among them, each on a register that is empty at first.

use std::fmt::Arguments;

use independent::calendar::CALENDAR_BYTES;
use independent::dates::{first_day, MONTHS};
use independent::judge::Call;
use independent::register::{LATEST_FIRST_MONTH, REGISTER_BYTES};
use independent::Register;

use super::announcements;
use super::closes::{self, Move};
use super::desk::Desk;
use super::lengths;
use super::pair::Request;
use crate::numbers::Random;
use crate::run::Run;
use crate::sessions::{self, window, Sessions};

/// How many lists there are with each calendar.
const LISTS: u32 = 260;

pub fn test(run: &mut Run) {
    let random = &mut Random::new(4);
    for (kind, sessions) in sessions::good(random) {
        for number in 0..LISTS {
            let mut list = List::new(kind, number, &sessions, Random::new(random.next()));
            list.test(run);
        }
    }
}

struct List<'a> {
    kind: &'static str,
    number: u32,
    desk: Desk<'a>,
    random: Random,
    /// One call in so many is made to be refused.
    refused_one_in: u16,
    /// Of the others one in so many is a session, and the rest announcements.
    session_one_in: u16,
    moves: &'static [Move],
    close: u32,
}

impl<'a> List<'a> {
    fn new(kind: &'static str, number: u32, sessions: &'a Sessions, mut random: Random) -> Self {
        Self {
            kind,
            number,
            desk: Desk::new(sessions),
            refused_one_in: random.pick(&[2, 10, 50]),
            session_one_in: random.pick(&[1, 1, 2, 5, 100]),
            moves: random.pick(&closes::HABITS),
            close: closes::anywhere(&mut random),
            random,
        }
    }

    fn test(&mut self, run: &mut Run) {
        let (kind, number) = (self.kind, self.number);
        for call in 0..self.random.within(20..=300) {
            let case = format_args!("{kind}, list {number}, call {call}");
            self.test_call(run, case);
            if self.random.one_in(20) {
                self.desk.judge(run, case);
            }
        }
        let case = format_args!("{kind}, after list {number}");
        self.desk.judge(run, case);
        if self.number.is_multiple_of(50) {
            self.desk.test_rows(run, case);
        }
        if self.number.is_multiple_of(5) {
            self.desk.test_file(run, case);
        }
    }

    fn test_call(&mut self, run: &mut Run, case: Arguments) {
        let to_be_refused = self.random.one_in(self.refused_one_in);
        let request = match self.desk.register() {
            None if to_be_refused => self.refused_on_empty(),
            None => self.start().into(),
            Some(register) if to_be_refused => self.refused_on_running(&register),
            Some(register) => self.request_on_running(&register),
        };
        if self.random.one_in(3 * self.refused_one_in) {
            self.lend_badly(run, request, case);
        } else {
            self.desk.call(run, request, case);
        }
    }

    fn start(&mut self) -> Call {
        Call::Start {
            day: self.start_day().into(),
            close: self.close,
        }
    }

    /// A session day, that of an expiry or any other. One list in eight begins near the end, where
    /// most days are too late.
    fn start_day(&mut self) -> u16 {
        let month = if self.number.is_multiple_of(8) {
            LATEST_FIRST_MONTH - 4 + self.random.below(14)
        } else {
            self.random.below(LATEST_FIRST_MONTH + 1)
        };
        let calendar = self.desk.calendar;
        let expiry = calendar.expiry(month);
        let from = first_day(month) + self.random.below(28);
        let other = calendar.next_session(from).unwrap_or(expiry);
        self.random.pick(&[expiry, other, other])
    }

    fn refused_on_empty(&mut self) -> Request {
        let day = u32::from(self.start_day());
        let close = self.close;
        let random = &mut self.random;
        let call = match random.below(7) {
            0 => return Request::Rows { month: 317 },
            1 => return Request::File { length: 5 },
            2 => Call::Session { day, close },
            3 => Call::Announce {
                month: 317,
                price: 2_400,
            },
            4 => Call::Start {
                day,
                close: closes::refused(random),
            },
            _ => Call::Start {
                day: random.pick(&[day + 1, day + 2, day + 65_536, 36_525, u32::MAX]),
                close,
            },
        };
        call.into()
    }

    fn request_on_running(&mut self, register: &Register) -> Request {
        let random = &mut self.random;
        if random.one_in(16) {
            let near = u32::from(register.rows[0].month + random.below(20));
            // Cut to 16 bits the greater numbers may be live.
            let month = near + random.pick(&[0, 0, 65_536]);
            return Request::Rows { month };
        }
        if random.one_in(8) {
            let length = lengths::any(register, random);
            return Request::File { length };
        }
        if !random.one_in(self.session_one_in) {
            let (month, price) = announcements::any(self.desk.calendar, register, random);
            return Call::Announce { month, price }.into();
        }
        self.close = random.pick(self.moves).after(self.close, random);
        let call = Call::Session {
            day: register.next_session(self.desk.calendar).into(),
            close: self.close,
        };
        call.into()
    }

    fn refused_on_running(&mut self, register: &Register) -> Request {
        let close = self.close;
        let random = &mut self.random;
        let day = u32::from(register.next_session(self.desk.calendar));
        let wrong_day = random.pick(&[
            register.day.into(),
            day - 1,
            day + 1,
            day + 65_536,
            36_525,
            u32::MAX,
        ]);
        let call = match random.below(4) {
            0 => Call::Start { day, close },
            1 => Call::Session {
                day: wrong_day,
                close,
            },
            2 => Call::Session {
                day,
                close: closes::refused(random),
            },
            _ => Call::Session {
                day: wrong_day,
                close: closes::refused(random),
            },
        };
        call.into()
    }

    /// Lends another calendar, a register of the wrong length, or a damaged one.
    fn lend_badly(&mut self, run: &mut Run, request: Request, case: Arguments) {
        let random = &mut self.random;
        let pair = &self.desk.pair;
        match random.below(6) {
            0 => {
                let length = random.pick(&[0, 1, REGISTER_BYTES - 1, REGISTER_BYTES + 1]);
                pair.call_with_length(run, length, request, case);
            }
            1 => {
                let place = random.within(0..=REGISTER_BYTES as u32 - 1) as usize;
                pair.call_damaged(run, (place, random.byte()), request, case);
            }
            _ => {
                let calendar = self.other_calendar();
                self.desk
                    .pair
                    .call_with_calendar(run, &calendar, request, case);
            }
        }
    }

    /// A calendar of the wrong length, with a bit too much or a month too little, or one with
    /// other sessions in the weeks from the register's day on, which may be a good one.
    fn other_calendar(&mut self) -> Vec<u8> {
        let random = &mut self.random;
        let mut sessions = self.desk.sessions.clone();
        match random.below(4) {
            0 => {
                let length = random.pick(&[0, CALENDAR_BYTES - 1, CALENDAR_BYTES + 1]);
                return sessions.bytes().repeat(2)[..length].to_vec();
            }
            1 => sessions.set_tail(random.pick(&[0x20, 0x40, 0x80])),
            2 => sessions.remove(window(random.below(MONTHS))),
            _ => {
                let register = self.desk.register();
                let day = register.map_or(0, |register| register.day);
                for _ in 0..3 {
                    sessions.flip(day + random.below(30));
                }
            }
        }
        sessions.bytes().to_vec()
    }
}
