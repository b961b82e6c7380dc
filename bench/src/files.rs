//! Timing files of series, written and read.

use std::hint::black_box;

use independent::files::{self, MOST_FILE_BYTES, SERIES_BYTES};
use sindhopul::raw;

use crate::contest::{best_times, contestant};
use crate::registers::{Desk, CLOSE, FAR_CLOSE};
use crate::sum_of_words;
use crate::table::Row;

pub fn time_all() -> [Row; 4] {
    let expiry = Desk::on_quarterly_expiry().after_session(CLOSE);
    let far = Desk::with_rows(94).after_session(FAR_CLOSE);
    [
        write("file_write, quarterly expiry", &expiry),
        write("file_write, far close", &far),
        read("file_read, quarterly expiry", &expiry),
        read("file_read, far close", &far),
    ]
}

/// The yardstick sums up calendar and register, and copies the file.
fn write(case: &'static str, desk: &Desk) -> Row {
    let file = written(desk);
    let (calendar, register) = (&desk.calendar, &desk.register);
    let mut buffers = [(); 3].map(|()| vec![0; MOST_FILE_BYTES]);
    let [first, second, third] = &mut buffers;
    let result = raw::file_write(calendar, register, first);
    assert_eq!((result.number, result.length as usize), (0, file.len()));
    assert!(first.starts_with(&file), "{case}");
    let [sindhopul, independent, yardstick] = best_times([
        contestant(|| raw::file_write(black_box(calendar), black_box(register), black_box(first))),
        contestant(|| files::write(black_box(calendar), black_box(register), black_box(second))),
        contestant(|| {
            black_box(&mut third[..file.len()]).copy_from_slice(black_box(&file));
            sum_of_words(black_box(calendar)).wrapping_add(sum_of_words(black_box(register)))
        }),
    ]);
    Row {
        case,
        sindhopul,
        independent,
        yardstick: Some(yardstick),
    }
}

/// The yardstick sums up the file, and copies as many bytes as the list has.
fn read(case: &'static str, desk: &Desk) -> Row {
    let file = written(desk);
    let mut buffers = [(); 3].map(|()| vec![0; file.len()]);
    let [first, second, third] = &mut buffers;
    let contents = files::read(&file, second).expect("it is a file");
    let result = raw::file_read(&file, first);
    assert_eq!(
        (result.number, result.series as usize),
        (0, contents.series)
    );
    assert_eq!(first, second, "{case}");
    let list = second[..SERIES_BYTES * contents.series].to_vec();
    let [sindhopul, independent, yardstick] = best_times([
        contestant(|| raw::file_read(black_box(&file), black_box(first))),
        contestant(|| files::read(black_box(&file), black_box(second))),
        contestant(|| {
            black_box(&mut third[..list.len()]).copy_from_slice(black_box(&list));
            sum_of_words(black_box(&file))
        }),
    ]);
    Row {
        case,
        sindhopul,
        independent,
        yardstick: Some(yardstick),
    }
}

/// The register's file, by the independent engine.
fn written(desk: &Desk) -> Vec<u8> {
    let mut file = vec![0; MOST_FILE_BYTES];
    let length = files::write(&desk.calendar, &desk.register, &mut file);
    file.truncate(length.expect("the register is running"));
    file
}
