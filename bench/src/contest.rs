//! Timing several pieces of work by turns.

use std::hint::black_box;
use std::time::{Duration, Instant};

/// How many batches each contestant runs; the best counts.
pub const BATCHES: usize = 15;

/// How long a batch lasts at least.
const BATCH: Duration = Duration::from_millis(5);

/// Work that is done so many times over.
pub type Contestant<'a> = Box<dyn FnMut(u32) + 'a>;

pub fn contestant<'a, T>(mut work: impl FnMut() -> T + 'a) -> Contestant<'a> {
    Box::new(move |times| {
        for _ in 0..times {
            black_box(work());
        }
    })
}

/// The time of each contestant's work in nanoseconds. They take turns, so that a slow spell of
/// the machine meets all of them.
pub fn best_times<const N: usize>(mut contestants: [Contestant; N]) -> [f64; N] {
    let times = contestants.each_mut().map(warm_up);
    let mut best = [f64::INFINITY; N];
    for _ in 0..BATCHES {
        for place in 0..N {
            let batch = time(&mut contestants[place], times[place]);
            let nanoseconds = batch.as_nanos() as f64 / f64::from(times[place]);
            best[place] = best[place].min(nanoseconds);
        }
    }
    best
}

/// How many times the work is to be done for a batch to last.
fn warm_up(contestant: &mut Contestant) -> u32 {
    let mut times = 1;
    while time(contestant, times) < BATCH {
        times *= 2;
    }
    times
}

fn time(contestant: &mut Contestant, times: u32) -> Duration {
    let start = Instant::now();
    contestant(times);
    start.elapsed()
}
