//! Frames in, each of which brings a whole job, one slot after the other until every place is taken. Between the timed stretches the jobs are taken, compared and granted for.

use crate::clock::{medians, Clock};
use crate::frames::{cid, Channels, Frames};
use crate::original::{self, clean_packets, Frame, Table, PACKETS};
use crate::port::Port;
use crate::row::{self, Times};
use crate::{D, M, N, PAYLOADS};
use std::hint::black_box;

/// Channels whose peers have so many credits.
pub fn channels(n: usize, credits: usize) -> Channels {
    Channels { n, peer_mps: 1020, peer_credits: 65_535, credits: credits as u16, threshold: None }
}

/// Takes every job of the port's table, and looks at its octets.
pub fn empty_port(port: &mut Port, n: usize, jobs: &[Vec<u8>]) {
    let mut buffer = vec![0; M];
    for (k, job) in jobs.iter().enumerate() {
        assert_eq!(port.receive(k % n, &mut buffer), 0, "the port's take is refused");
        assert_eq!(&buffer[..job.len()], job, "the port's job has other octets");
    }
}

/// The same of the original's.
pub fn empty_original<const M: usize>(table: &Table<M>, n: usize, jobs: &[Vec<u8>]) {
    let mut buffer = vec![0; M];
    for (k, job) in jobs.iter().enumerate() {
        table.empty_line();
        assert_eq!(table.receive((k % n) as u8, &mut buffer), Some(job.len()), "the original has no such job");
        assert_eq!(&buffer[..job.len()], job, "the original's job has other octets");
    }
}

/// A side of the original: its packets have the frames already.
pub fn plain<'a, const M: usize>(
    clock: &'a Clock,
    table: &'a Table<M>,
    n: usize,
    frames: &'a Frames,
    jobs: &'a [Vec<u8>],
) -> impl FnMut(&mut [u64]) + 'a {
    move |ns: &mut [u64]| {
        clean_packets(PACKETS);
        let mut packets: Vec<Frame<M>> = (0..frames.count()).map(|k| Frame::copied(frames.at(k))).collect();
        let mut done = true;
        ns[0] += clock.time(|| {
            let mut packets = packets.drain(..);
            for _ in 0..D {
                for (slot, packet) in (0..n).zip(&mut packets) {
                    done &= table.dispatch(cid(slot), black_box(packet));
                }
            }
        });
        assert!(done, "the original refuses a frame");
        empty_original(table, n, jobs);
    }
}

/// A side of the original: each frame is copied into a packet first.
pub fn copying<'a, const M: usize>(
    clock: &'a Clock,
    table: &'a Table<M>,
    n: usize,
    frames: &'a Frames,
    jobs: &'a [Vec<u8>],
) -> impl FnMut(&mut [u64]) + 'a {
    move |ns: &mut [u64]| {
        clean_packets(PACKETS);
        let mut done = true;
        ns[0] += clock.time(|| {
            for round in 0..D {
                for slot in 0..n {
                    done &= table.dispatch(cid(slot), Frame::copied(black_box(frames.at(round * n + slot))));
                }
            }
        });
        assert!(done, "the original refuses a frame");
        empty_original(table, n, jobs);
    }
}

/// Nanoseconds a frame, on tables of n slots and packets of M octets.
pub fn whole<const M: usize>(clock: &Clock, n: usize, size: usize) -> Times {
    let frames = Frames::whole(n * D, size);
    let jobs = frames.jobs();
    let channels = channels(n, D);
    let mut port = Port::open(M, &channels, 0);
    let tables = [0; 2].map(|_| original::open::<M>(&channels, 0));

    let mut ours = |ns: &mut [u64]| {
        port.clean();
        let mut refused = 0;
        ns[0] += clock.time(|| {
            for round in 0..D {
                for slot in 0..n {
                    refused |= port.dispatch(slot, black_box(frames.at(round * n + slot)));
                }
            }
        });
        assert_eq!(refused, 0, "the port refuses a frame");
        empty_port(&mut port, n, &jobs);
    };
    let mut theirs = plain(clock, &tables[0], n, &frames, &jobs);
    let mut copied = copying(clock, &tables[1], n, &frames, &jobs);
    Times::each(&medians(1, &mut [&mut ours, &mut theirs, &mut copied]), 0, n * D)
}

pub fn rows(clock: &Clock, table: &mut row::Table) {
    for size in PAYLOADS {
        table.add(format!("frame in, a whole job | {size}"), whole::<M>(clock, N, size));
    }
}
