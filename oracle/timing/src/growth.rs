//! How a frame's cost grows: with the number of slots, and with the size of packets. In the original that is a constant of the pool, so that each size is a program of its own.

use crate::clock::Clock;
use crate::row::Table;
use crate::{intake, sending};

/// Of the shortest frame, and of one that fills its packet.
fn of<const M: usize>(clock: &Clock, table: &mut Table, n: usize) {
    for size in [23, M - 4] {
        table.add(format!("{n} | {M} | frame in, a whole job | {size}"), intake::whole::<M>(clock, n, size));
    }
    for mps in [23, M - 4] {
        table.add(format!("{n} | {M} | send, one frame | {mps}"), sending::jobs::<M>(clock, n, mps, 1).0);
    }
}

pub fn rows(clock: &Clock, table: &mut Table) {
    for n in [1, 16] {
        of::<29>(clock, table, n);
        of::<64>(clock, table, n);
        of::<251>(clock, table, n);
        of::<1024>(clock, table, n);
    }
}
