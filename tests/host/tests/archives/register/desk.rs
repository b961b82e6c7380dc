//! A register from the empty one on, and its history.

use std::fmt::Arguments;

use independent::register::REGISTER_BYTES;
use independent::{Calendar, History, Register};

use super::pair::{Pair, Request};
use super::{lengths, rows};
use crate::run::Run;
use crate::sessions::Sessions;

pub struct Desk<'a> {
    pub sessions: &'a Sessions,
    pub calendar: Calendar<'a>,
    pub pair: Pair,
    history: History<'a>,
}

impl<'a> Desk<'a> {
    pub fn new(sessions: &'a Sessions) -> Self {
        let calendar = sessions.bytes();
        Self {
            sessions,
            calendar: Calendar::check(calendar).expect("the calendar is good"),
            pair: Pair::of(calendar, &[0; REGISTER_BYTES]),
            history: History::new(calendar),
        }
    }

    /// What stands in the register; nothing if it is empty.
    pub fn register(&self) -> Option<Register> {
        let register = Register::read(self.calendar, self.pair.bytes());
        register.expect("calls leave a register well formed")
    }

    /// Makes a call and tells the history of it.
    pub fn call(&mut self, run: &mut Run, request: impl Into<Request>, case: Arguments) -> u16 {
        let request = request.into();
        let number = self.pair.call(run, request, case);
        if let Request::Change(call) = request {
            self.history.feed(call, number);
        }
        number
    }

    /// Compares the register with what the history demands.
    pub fn judge(&self, run: &mut Run, case: Arguments) {
        run.judged(self.history.judge(self.pair.bytes()), case);
    }

    /// Writes the file into buffers of every length around its own.
    pub fn test_file(&mut self, run: &mut Run, case: Arguments) {
        if let Some(register) = self.register() {
            lengths::test_around(run, &register, &mut self.pair, case);
        }
    }

    /// Asks for the rows of every month.
    pub fn test_rows(&mut self, run: &mut Run, case: Arguments) {
        rows::test(
            run,
            self.calendar,
            self.sessions.bytes(),
            &mut self.pair,
            case,
        );
    }
}
