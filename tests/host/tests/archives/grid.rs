//! Every price and every close in all three tiers.

use independent::grid::{self, HIGHEST_CLOSE, LOWEST_CLOSE};
use independent::Tier;
use lookup::{Span, OUT_OF_RANGE};

use crate::numbers::beyond;
use crate::run::Run;

pub fn test(run: &mut Run) {
    for tier in Tier::ALL {
        test_prices(run, tier);
        for close in LOWEST_CLOSE..=HIGHEST_CLOSE {
            test_close(run, tier, close);
        }
        let too_low = [0, 1, LOWEST_CLOSE - 1].into_iter();
        for close in too_low.chain(beyond(HIGHEST_CLOSE + 1)) {
            test_out_of_range(run, tier as u32, close);
        }
    }
    for tier in beyond(3u32) {
        let archive = lookup::on_grid(tier, 2_400);
        run.equal(archive, 0, format_args!("price 2400 on grid {tier}"));
        test_out_of_range(run, tier, 240_000);
    }
}

fn test_prices(run: &mut Run, tier: Tier) {
    for price in (0..=20_000).chain(beyond(20_001u32)) {
        let archive = lookup::on_grid(tier as u32, price);
        let wanted = grid::has_price(tier, price).into();
        let case = format_args!("price {price} on grid {tier:?}");
        run.equal(archive, wanted, case);
    }
}

fn test_close(run: &mut Run, tier: Tier, close: u32) {
    let nearest = lookup::nearest(tier as u32, close);
    let wanted = grid::nearest(tier, close).into();
    let case = format_args!("nearest to close {close} in {tier:?}");
    run.equal(nearest, wanted, case);
    let required = lookup::required(tier as u32, close);
    let wanted = grid::required(tier, close);
    let wanted = Span {
        low: wanted[0],
        high: wanted[wanted.len() - 1],
    };
    let case = format_args!("required by close {close} in {tier:?}");
    run.equal(required, wanted, case);
}

fn test_out_of_range(run: &mut Run, tier: u32, close: u32) {
    let nearest = lookup::nearest(tier, close);
    let case = format_args!("nearest to close {close} in {tier}");
    run.equal(nearest, OUT_OF_RANGE, case);
    let required = lookup::required(tier, close);
    let nothing = Span { low: 0, high: 0 };
    let case = format_args!("required by close {close} in {tier}");
    run.equal(required, nothing, case);
}
