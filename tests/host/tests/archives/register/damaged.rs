//! Registers with one byte changed, at every place and by every call.

use independent::files::MOST_FILE_BYTES;
use independent::judge::Call;

use super::lengths;
use super::pair::{Pair, Request};
use super::specimens::{self, Specimen, CLOSE, JUNE, JUNE_EXPIRY};
use crate::numbers::Random;
use crate::run::Run;

/// The bytes before the announcements.
const HEADER_BYTES: usize = 8;

pub fn test(run: &mut Run) {
    let random = &mut Random::new(5);
    for specimen in specimens::all() {
        let pair = Pair::of(specimen.sessions.bytes(), &specimen.bytes);
        let requests = requests(&specimen);
        let case = format_args!("{}", specimen.name);
        for (place, &byte) in specimen.bytes.iter().enumerate() {
            for other in other_bytes(place, byte, random) {
                for request in requests {
                    pair.call_damaged(run, (place, other), request, case);
                }
            }
        }
    }
}

/// In the header all other bytes, elsewhere some.
fn other_bytes(place: usize, byte: u8, random: &mut Random) -> Vec<u8> {
    let mut bytes: Vec<u8> = if place < HEADER_BYTES {
        (0..=u8::MAX).collect()
    } else {
        vec![byte ^ 1, byte ^ 0x80, random.byte()]
    };
    bytes.retain(|&other| other != byte);
    bytes
}

/// A call of each kind, such that as few causes as can be come after 15.
fn requests(specimen: &Specimen) -> [Request; 5] {
    let (day, month, length) = match specimen.register() {
        None => (JUNE_EXPIRY, JUNE, MOST_FILE_BYTES),
        Some(register) => (
            register.next_session(specimen.calendar()),
            register.rows[register.rows.len() - 1].month,
            // Too short where the damage makes a row new.
            lengths::of_file(&register),
        ),
    };
    let (day, month) = (day.into(), month.into());
    [
        Call::Start { day, close: CLOSE }.into(),
        Call::Session { day, close: CLOSE }.into(),
        Call::Announce {
            month,
            price: 9_900,
        }
        .into(),
        Request::Rows { month },
        Request::File { length },
    ]
}
