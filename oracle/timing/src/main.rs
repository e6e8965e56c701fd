//! Times the port beside the original, compiled unchanged, in one run: copying, counting and cutting; then the C entries, called on tables whose channels are all open. Both are given the
//! same octets and must give the same back. Samples of the two alternate, and their medians are printed, in the end. No time is asserted.

#[path = "../../entries/src/archive.rs"]
#[allow(dead_code)]
mod archive;
mod clock;
mod cutting;
mod frames;
mod growth;
mod intake;
mod joining;
mod original;
mod port;
mod portions;
mod row;
mod runs;
mod sending;
mod taking;

use clock::Clock;
use row::Table;

/// Every row is timed so often, with all others between.
const SITTINGS: usize = 5;

/// The table that most rows are timed on: the largest.
const N: usize = 16;
const D: usize = 4;
const M: usize = 1024;
/// The octets of a frame's payload.
const PAYLOADS: [usize; 3] = [23, 247, 1020];

/// Octets that differ from those of another seed.
fn octets(n: usize, seed: usize) -> Vec<u8> {
    (0..n).map(|i| (i * 7 + i / 251 + seed * 13) as u8).collect()
}

fn main() {
    let clock = Clock::new();
    let [mut cutting, mut entries, mut growth] = [(); 3].map(|()| Table::default());
    for _ in 0..SITTINGS {
        for table in [&mut cutting, &mut entries, &mut growth] {
            table.again();
        }
        cutting::rows(&clock, &mut cutting);
        intake::rows(&clock, &mut entries);
        joining::rows(&clock, &mut entries);
        sending::rows(&clock, &mut entries);
        runs::rows(&clock, &mut entries);
        portions::rows(&clock, &mut entries);
        taking::rows(&clock, &mut entries);
        growth::rows(&clock, &mut growth);
    }
    cutting.print("what | octets");
    entries.print("what | octets");
    growth.print("N | M | what | octets");
    println!("Reading the clock takes {} ns, which are taken off.", clock.cost());
}
