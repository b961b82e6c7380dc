//! Closes, one after the other.

use independent::grid::{self, HIGHEST_CLOSE, LOWEST_CLOSE};
use independent::Tier;

use crate::numbers::Random;

/// How a close follows from the one before.
#[derive(Clone, Copy)]
pub enum Move {
    Still,
    /// By a fortieth at most.
    Walk,
    /// Halfway between two prices of some grid in the neighbourhood, or a hundredth off.
    Halfway,
    /// Near 480 or 1,000 points, where the steps of the grids change.
    BandEdge,
    /// To the lowest or the highest close.
    End,
    Anywhere,
}

/// The moves that come by turns in a list.
pub const HABITS: [&[Move]; 7] = [
    &[Move::Still],
    &[Move::Walk],
    &[Move::Walk, Move::Halfway],
    &[Move::Halfway, Move::BandEdge],
    &[Move::BandEdge, Move::Walk, Move::Walk],
    &[Move::Still, Move::Walk, Move::Walk, Move::Walk, Move::End],
    &[Move::Anywhere, Move::Still, Move::Walk, Move::Halfway],
];

impl Move {
    pub fn after(self, close: u32, random: &mut Random) -> u32 {
        let next = match self {
            Self::Still => close,
            Self::Walk => random.within(close - close / 40..=close + close / 40),
            Self::Halfway => halfway(close, random),
            Self::BandEdge => random.pick(&[48_000, 100_000]) - 3_000 + random.within(0..=6_000),
            Self::End => random.pick(&[LOWEST_CLOSE, HIGHEST_CLOSE]),
            Self::Anywhere => anywhere(random),
        };
        next.clamp(LOWEST_CLOSE, HIGHEST_CLOSE)
    }
}

pub fn anywhere(random: &mut Random) -> u32 {
    random.within(LOWEST_CLOSE..=HIGHEST_CLOSE)
}

/// Closes that are refused, among them some that 16 bits would make good.
pub fn refused(random: &mut Random) -> u32 {
    let closes = [
        0,
        LOWEST_CLOSE - 1,
        HIGHEST_CLOSE + 1,
        16 * 65_536 + LOWEST_CLOSE,
        u32::MAX,
    ];
    random.pick(&closes)
}

fn halfway(close: u32, random: &mut Random) -> u32 {
    let prices = grid::prices(random.pick(&Tier::ALL));
    let above = prices.partition_point(|&price| 100 * u32::from(price) <= close);
    let first = above.saturating_sub(4).min(prices.len() - 8);
    let pair = &prices[first + usize::from(random.below(7))..][..2];
    50 * u32::from(pair[0] + pair[1]) - 1 + random.within(0..=2)
}
