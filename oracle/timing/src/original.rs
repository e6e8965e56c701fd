//! The original's side: its table with all channels open.

use crate::frames::{link, Channels, SPSM};
use crate::{D, N};
pub use original_d4::timed::{clean_packets, Frame, Lined, Table, Unlooked};

/// A packet for every job that can wait, for every assembly, and for a frame on its way.
pub const PACKETS: usize = N * (D + 1) + 1;

pub fn open<const M: usize>(channels: &Channels, out: usize) -> Table<M> {
    clean_packets(PACKETS);
    let table = Table::new(channels.n, out.max(64));
    table.register_spsm(SPSM);
    for slot in 0..channels.n {
        table.empty_line();
        table.link(link(slot));
        let open = table.signal(link(slot), &channels.request(slot)) && table.accept(link(slot), channels.credits, channels.threshold);
        assert!(open && !table.signal_failed(), "the original's channels are not open");
    }
    table
}
