//! Takes, one slot after the other: of the one job that waits, with and without a grant; and of all four, where those behind move up.

use crate::clock::{medians, Clock};
use crate::frames::{cid, Channels, Frames};
use crate::original::{self, clean_packets, Frame, PACKETS};
use crate::port::Port;
use crate::row::{self, Times};
use crate::{D, M, N, PAYLOADS};
use std::hint::black_box;

/// Nanoseconds a take, where so many jobs wait in each slot.
fn takes(clock: &Clock, size: usize, waiting: usize, grants: bool) -> Times {
    let frames = Frames::whole(N * waiting, size);
    let job = size - 2;
    // Without a threshold to fall below there is no grant: the credits are enough for every stretch.
    let (credits, threshold) = if grants { (D as u16, None) } else { (65_535, Some(0)) };
    let channels = Channels { n: N, peer_mps: size as u16, peer_credits: 0, credits, threshold };
    let mut port = Port::open(M, &channels, 0);
    let table = original::open::<M>(&channels, 0);
    let mut taken = vec![0; N * waiting * job];

    let mut ours = |ns: &mut [u64]| {
        port.clean();
        taken.fill(0);
        let mut refused = 0;
        (0..frames.count()).for_each(|k| refused |= port.dispatch(k % N, frames.at(k)));
        ns[0] += clock.time(|| {
            for round in taken.chunks_exact_mut(N * job) {
                for (slot, buffer) in round.chunks_exact_mut(job).enumerate() {
                    refused |= port.receive(slot, black_box(buffer));
                }
            }
        });
        assert_eq!(refused, 0, "the port refuses a take");
        assert_eq!(port.grant().len(), if grants { 12 } else { 0 }, "the port's grant");
        (0..frames.count()).for_each(|k| assert_eq!(&taken[k * job..][..job], &frames.at(k)[2..], "the port's job has other octets"));
    };
    let mut buffers = vec![0; N * waiting * job];
    let mut theirs = |ns: &mut [u64]| {
        clean_packets(PACKETS);
        buffers.fill(0);
        let mut done = true;
        (0..frames.count()).for_each(|k| done &= table.dispatch(cid(k % N), Frame::copied(frames.at(k))));
        ns[0] += clock.time(|| {
            for round in buffers.chunks_exact_mut(N * job) {
                for (slot, buffer) in round.chunks_exact_mut(job).enumerate() {
                    table.empty_line();
                    done &= table.receive(slot as u8, black_box(buffer)) == Some(job);
                }
            }
        });
        assert!(done, "the original refuses a take");
        assert_eq!(table.line().len(), if grants { 12 } else { 0 }, "the original's grant");
        (0..frames.count()).for_each(|k| assert_eq!(&buffers[k * job..][..job], &frames.at(k)[2..], "the original's job has other octets"));
    };
    Times::each(&medians(1, &mut [&mut ours, &mut theirs]), 0, N * waiting)
}

pub fn rows(clock: &Clock, table: &mut row::Table) {
    for (what, waiting, grants) in [("take, with a grant", 1, true), ("take, without one", 1, false), ("take, of four that wait", D, false)]
    {
        PAYLOADS.iter().for_each(|size| table.add(format!("{what} | {size}"), takes(clock, *size, waiting, grants)));
    }
}
