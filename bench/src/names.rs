//! Timing the names.

use std::hint::black_box;

use independent::names::{self, NAME_BYTES};
use independent::{grid, Tier};
use sindhopul::raw;

use crate::contest::{best_times, contestant};
use crate::table::Row;

pub fn time_all() -> [Row; 2] {
    let series = series();
    [
        write_names("name_write", &series),
        read_names("name_read", &series),
    ]
}

struct Series {
    month: u32,
    option_type: u32,
    price: u32,
}

/// Both types, all prices of grid N, months spread over the hundred years.
fn series() -> Vec<Series> {
    let mut series = Vec::new();
    let mut month = 0;
    for &price in grid::prices(Tier::N) {
        let price = price.into();
        for option_type in [0, 1] {
            series.push(Series {
                month,
                option_type,
                price,
            });
            // The step has no factor in common with 1,200, so no month comes again soon.
            month = (month + 487) % 1_200;
        }
    }
    series
}

fn write_names(case: &'static str, series: &[Series]) -> Row {
    let times = best_times([
        contestant(|| {
            let mut name = [0; NAME_BYTES];
            for one in black_box(series) {
                let name = black_box(&mut name);
                black_box(raw::name_write(name, one.month, one.option_type, one.price));
            }
        }),
        contestant(|| {
            let mut name = [0; NAME_BYTES];
            for one in black_box(series) {
                let name = black_box(&mut name);
                let written = names::write(name, one.month, one.option_type, one.price);
                black_box(written.is_ok());
            }
        }),
    ]);
    Row::of_each(case, series.len(), times)
}

fn read_names(case: &'static str, series: &[Series]) -> Row {
    let names: Vec<[u8; NAME_BYTES]> = series.iter().map(name_of).collect();
    let times = best_times([
        contestant(|| {
            for name in black_box(&names) {
                black_box(raw::name_read(name));
            }
        }),
        contestant(|| {
            for name in black_box(&names) {
                black_box(names::read(name).is_ok());
            }
        }),
    ]);
    Row::of_each(case, series.len(), times)
}

fn name_of(series: &Series) -> [u8; NAME_BYTES] {
    let mut name = [0; NAME_BYTES];
    let number = raw::name_write(&mut name, series.month, series.option_type, series.price);
    assert_eq!(number, 0);
    assert!(names::read(&name).is_ok());
    name
}
