//! The clock, and medians of what it showed. A sample is some stretches of work: each prepares what it needs, has the clock run while it works, and clears away. Samples of
//! the sides of a row alternate, so that what else the machine does meets all of them.

use std::hint::black_box;
use std::time::Instant;

/// So many of each side, in one sitting.
const SAMPLES: usize = 61;
/// A sample lasts at least so long, added up over its stretches, so that the clock's steps don't show.
const SAMPLE_NS: u64 = 20_000;

/// A clock that knows what reading it costs, and takes that off.
pub struct Clock {
    cost: u64,
}

impl Clock {
    pub fn new() -> Self {
        let free = Self { cost: 0 };
        Self { cost: middle((0..10_001).map(|_| free.time(|| ()) as f64).collect()) as u64 }
    }

    pub fn cost(&self) -> u64 {
        self.cost
    }

    /// How many nanoseconds the work took.
    #[inline(always)]
    pub fn time(&self, work: impl FnOnce()) -> u64 {
        let start = Instant::now();
        work();
        (start.elapsed().as_nanos() as u64).saturating_sub(self.cost)
    }
}

/// One side of a row: makes one stretch, and adds to each place of the slice what that kind of work took.
pub type Side<'a> = dyn FnMut(&mut [u64]) + 'a;

fn sample(side: &mut Side, kinds: usize, stretches: u64) -> Vec<u64> {
    let mut ns = vec![0; kinds];
    for _ in 0..stretches {
        side(black_box(&mut ns));
    }
    ns
}

/// The median.
fn middle(mut times: Vec<f64>) -> f64 {
    times.sort_unstable_by(f64::total_cmp);
    times[times.len() / 2]
}

/// Of each side the median of each kind of work, in nanoseconds a stretch.
pub fn medians(kinds: usize, sides: &mut [&mut Side]) -> Vec<Vec<f64>> {
    let mut stretches = 1;
    while sides.iter_mut().any(|side| sample(*side, kinds, stretches).iter().any(|ns| *ns < SAMPLE_NS)) {
        stretches *= 2;
    }
    let mut times = vec![vec![Vec::with_capacity(SAMPLES); kinds]; sides.len()];
    for _ in 0..SAMPLES {
        for (side, times) in sides.iter_mut().zip(&mut times) {
            let ns = sample(*side, kinds, stretches);
            times.iter_mut().zip(ns).for_each(|(times, ns)| times.push(ns as f64 / stretches as f64));
        }
    }
    times.into_iter().map(|side| side.into_iter().map(middle).collect()).collect()
}
