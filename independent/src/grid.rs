//! The three grids as lists of prices, and the prices that a close requires.

use std::sync::LazyLock;

/// Which of the three grids a live month has.
#[derive(Debug, Clone, Copy, PartialEq, Eq)]
pub enum Tier {
    /// The first live month.
    N,
    /// The two months after it.
    M,
    /// The three quarterly months after these.
    F,
}

impl Tier {
    pub const ALL: [Self; 3] = [Self::N, Self::M, Self::F];

    /// How many prices a close requires on either side of the nearest.
    fn neighbours(self) -> usize {
        match self {
            Self::N => 16,
            Self::M => 8,
            Self::F => 4,
        }
    }
}

/// The lowest close that is taken, in hundredths of a point.
pub const LOWEST_CLOSE: u32 = 9_000;
/// The highest close that is taken, in hundredths of a point.
pub const HIGHEST_CLOSE: u32 = 954_999;

/// A stretch of a grid: from the first price to the last, both included, by a step.
struct Band(u16, u16, u16);

/// Document 01's table, a row for each tier.
const BANDS: [[Band; 3]; 3] = [
    [Band(5, 475, 5), Band(480, 990, 10), Band(1000, 9975, 25)],
    [Band(10, 470, 10), Band(480, 980, 20), Band(1000, 9950, 50)],
    [Band(20, 460, 20), Band(480, 960, 40), Band(1000, 9900, 100)],
];

static GRIDS: LazyLock<[Vec<u16>; 3]> = LazyLock::new(|| BANDS.map(list));

fn list(bands: [Band; 3]) -> Vec<u16> {
    let mut prices = Vec::new();
    for Band(first, last, step) in bands {
        prices.extend((first..=last).step_by(step.into()));
    }
    prices
}

/// All prices of a tier's grid, ascending.
pub fn prices(tier: Tier) -> &'static [u16] {
    &GRIDS[tier as usize]
}

/// Whether a price of any size stands on a tier's grid.
pub fn has_price(tier: Tier, price: u32) -> bool {
    u16::try_from(price).is_ok_and(|price| prices(tier).binary_search(&price).is_ok())
}

/// The prices of a tier's grid from a lowest to a highest, both included.
pub fn between(tier: Tier, low: u16, high: u16) -> &'static [u16] {
    let prices = prices(tier);
    let first = prices.partition_point(|&price| price < low);
    let end = prices.partition_point(|&price| price <= high);
    &prices[first..end]
}

/// The place on a tier's grid of the price at least distance from a close; halfway, the higher.
fn nearest_place(tier: Tier, close: u32) -> usize {
    let prices = prices(tier);
    let hundredths = |price: u16| 100 * u32::from(price);
    let above = prices.partition_point(|&price| hundredths(price) <= close);
    // Only the prices on either side of the close can be nearest.
    let below = above.saturating_sub(1);
    let above = above.min(prices.len() - 1);
    let distance = |place: usize| close.abs_diff(hundredths(prices[place]));
    if distance(above) <= distance(below) {
        above
    } else {
        below
    }
}

/// The grid price at least distance from a close; halfway, the higher.
pub fn nearest(tier: Tier, close: u32) -> u16 {
    prices(tier)[nearest_place(tier, close)]
}

/// The prices that a close between the lowest and the highest requires: the nearest and its
/// neighbours on both sides.
pub fn required(tier: Tier, close: u32) -> &'static [u16] {
    let place = nearest_place(tier, close);
    &prices(tier)[place - tier.neighbours()..=place + tier.neighbours()]
}

#[cfg(test)]
mod tests {
    use std::cmp::Reverse;

    use super::*;

    fn span(tier: Tier, close: u32) -> (u16, u16) {
        let required = required(tier, close);
        (required[0], required[required.len() - 1])
    }

    #[test]
    fn the_grids_hold_507_253_and_126_prices() {
        assert_eq!(Tier::ALL.map(|tier| prices(tier).len()), [507, 253, 126]);
    }

    #[test]
    fn bands_change_step_at_their_ends() {
        for (price, on_grid) in [
            (475, true),
            (480, true),
            (485, false),
            (995, false),
            (1010, false),
        ] {
            assert_eq!(has_price(Tier::N, price), on_grid, "{price}");
        }
        assert!(!has_price(Tier::N, 65_536 + 2_400));
    }

    #[test]
    fn no_price_is_nearer_and_no_higher_one_as_near() {
        for tier in Tier::ALL {
            for pair in prices(tier).windows(2) {
                let halfway = 50 * u32::from(pair[0] + pair[1]);
                for close in halfway - 1..=halfway + 1 {
                    let distance = |price: u16| close.abs_diff(100 * u32::from(price));
                    let all = prices(tier).iter().copied();
                    let wanted = all.min_by_key(|&price| (distance(price), Reverse(price)));
                    assert_eq!(Some(nearest(tier, close)), wanted);
                }
            }
        }
    }

    #[test]
    fn a_stretch_of_a_grid_has_both_its_ends() {
        assert_eq!(between(Tier::N, 470, 500), [470, 475, 480, 490, 500]);
        assert_eq!(between(Tier::F, 445, 1_005), between(Tier::F, 460, 1_000));
        assert_eq!(between(Tier::M, 0, u16::MAX), prices(Tier::M));
    }

    #[test]
    fn worked_examples() {
        assert_eq!(nearest(Tier::N, 241_337), 2_425);
        assert_eq!(span(Tier::N, 241_337), (2_025, 2_825));
        for tier in [Tier::M, Tier::F] {
            assert_eq!(nearest(tier, 241_337), 2_400);
            assert_eq!(span(tier, 241_337), (2_000, 2_800));
        }
        for tier in Tier::ALL {
            assert_eq!(span(tier, 101_000), (840, 1_400));
        }
        assert_eq!(nearest(Tier::N, 47_750), 480);
        assert_eq!(span(Tier::N, 47_750), (400, 640));
        assert_eq!(nearest(Tier::F, 97_999), 960);
        assert_eq!(nearest(Tier::F, 98_000), 1_000);
        assert_eq!(span(Tier::F, LOWEST_CLOSE), (20, 180));
        assert_eq!(span(Tier::F, HIGHEST_CLOSE), (9_100, 9_900));
    }
}
