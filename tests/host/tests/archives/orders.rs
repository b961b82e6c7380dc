//! Two causes at once: the one that the call tries first is told.

use independent::dates::{third_friday, MONTHS};
use independent::files::MOST_FILE_BYTES;
use independent::grid::LOWEST_CLOSE;
use independent::judge;
use independent::register::{LATEST_FIRST_MONTH, REGISTER_BYTES};

use crate::register::pair::{Pair, Request};
use crate::register::specimens::{self, CLOSE, JUNE, JUNE_EXPIRY};
use crate::run::{Call, Run};
use crate::sessions::{window, Sessions};
use crate::{calendar, files, names};

/// Lets every two causes of every call meet. Each holds by itself too where its fault is made, so
/// that of two faults the second would be told if the first were not.
pub fn test(run: &mut Run) {
    for call in Call::ALL {
        for &cause in call.numbers() {
            expect(run, call, &[cause], cause);
        }
        for (first, second) in pairs(call) {
            expect(run, call, &[first, second], first);
            run.count_meeting(call, first, second);
        }
    }
}

/// Every two causes of a call that can hold at once, the one that is tried first before the other.
pub fn pairs(call: Call) -> Vec<(u16, u16)> {
    let causes = &call.numbers()[1..];
    let mut pairs = Vec::new();
    for (place, &first) in causes.iter().enumerate() {
        let behind = causes[place + 1..].iter();
        pairs.extend(behind.map(|&second| (first, second)));
    }
    pairs.retain(|&(first, second)| !are_apart(call, first, second));
    pairs
}

/// In an empty register nothing waits, nor does it stand on the last day; there nothing can wait.
fn are_apart(call: Call, first: u16, second: u16) -> bool {
    call == Call::Announce && matches!((first, second), (17, 20) | (17, 25) | (20, 25))
}

/// Makes a call with these faults and no others.
fn expect(run: &mut Run, call: Call, faults: &[u16], wanted: u16) {
    let case = format_args!("{} with faults {faults:?}", call.name());
    let has = |fault| faults.contains(&fault);
    let number = match call {
        Call::CalendarCheck => calendar::compare(run, &lent_calendar(has), case),
        Call::NameWrite => {
            let length = if has(27) { 12 } else { 11 };
            let price = if has(28) { 2_401 } else { 2_400 };
            names::compare_writing(run, length, JUNE.into(), 0, price)
        }
        Call::NameRead => names::compare_reading(run, &name(has)),
        Call::FileRead => {
            let length = if has(30) { 0 } else { MOST_FILE_BYTES };
            files::compare_reading(run, &file(has), length, case)
        }
        Call::Start | Call::Session | Call::Announce | Call::Rows | Call::FileWrite => {
            let mut pair = Pair::of(&lent_calendar(has), &register(call, has));
            pair.call(run, request(call, has), case)
        }
    };
    run.equal(number, wanted, case);
}

fn lent_calendar(has: impl Fn(u16) -> bool) -> Vec<u8> {
    let mut sessions = Sessions::weekdays();
    if has(13) {
        sessions.remove(window(MONTHS - 1));
    }
    if has(12) {
        sessions.set_tail(0x20);
    }
    let mut bytes = sessions.bytes().to_vec();
    // A byte too many leaves the faults before it where they are.
    if has(11) {
        bytes.push(0);
    }
    bytes
}

fn register(call: Call, has: impl Fn(u16) -> bool) -> Vec<u8> {
    let is_empty = if call == Call::Start {
        !has(16)
    } else {
        has(17)
    };
    let mut bytes = if is_empty {
        vec![0; REGISTER_BYTES]
    } else if has(20) {
        specimens::last_day().bytes.to_vec()
    } else if has(25) {
        specimens::all_places_taken().bytes.to_vec()
    } else {
        specimens::started().bytes.to_vec()
    };
    if has(15) {
        bytes[7] = 1;
    }
    if has(14) {
        bytes.push(0);
    }
    bytes
}

fn request(call: Call, has: impl Fn(u16) -> bool) -> Request {
    let close = if has(21) { LOWEST_CLOSE - 1 } else { CLOSE };
    // The day and the month after those of the register.
    let (next, month) = if has(20) {
        (third_friday(LATEST_FIRST_MONTH) + 3, LATEST_FIRST_MONTH + 1)
    } else {
        (JUNE_EXPIRY - 2, JUNE)
    };
    let month = if has(22) || has(26) { 0 } else { month.into() };
    let call = match call {
        Call::Start => judge::Call::Start {
            day: if has(18) { saturday(next) } else { next }.into(),
            close,
        },
        Call::Session => judge::Call::Session {
            day: if has(19) { next + 1 } else { next }.into(),
            close,
        },
        Call::Announce => judge::Call::Announce {
            month,
            price: match (has(23), has(24)) {
                (false, false) => 5_000,
                (false, true) => 2_400,
                (true, false) => 5_001,
                (true, true) => 2_401,
            },
        },
        Call::Rows => return Request::Rows { month },
        Call::FileWrite => {
            // No file is so short.
            let length = if has(30) { 4 } else { MOST_FILE_BYTES };
            return Request::File { length };
        }
        Call::CalendarCheck | Call::NameWrite | Call::NameRead | Call::FileRead => {
            unreachable!("{} takes no register", call.name())
        }
    };
    call.into()
}

/// The Saturday after a weekday. Day 0 is one.
fn saturday(day: u16) -> u16 {
    day.next_multiple_of(7)
}

fn name(has: impl Fn(u16) -> bool) -> Vec<u8> {
    let letter = if has(29) { 'Y' } else { 'L' };
    let price = if has(28) { 2_401 } else { 2_400 };
    let more = if has(27) { "0" } else { "" };
    format!("OW20{letter}26{price}{more}").into_bytes()
}

fn file(has: impl Fn(u16) -> bool) -> Vec<u8> {
    let mut file = files::small();
    if has(31) {
        file.pop();
    }
    file
}
