//! Frames in, of jobs that need four: the first, two that follow, the last. All slots get one of a kind, then all the next; one by one, or by a run of one for each slot.

use crate::clock::{medians, Clock};
use crate::frames::{cid, frame_record, Frames};
use crate::intake::{channels, empty_original, empty_port};
use crate::original::{self, clean_packets, Frame, PACKETS};
use crate::port::Port;
use crate::row::{self, Times};
use crate::{D, M, N};
use std::hint::black_box;

const PARTS: usize = 4;
/// Four frames of 1,020 octets are longer than our MTU.
const PAYLOADS: [usize; 2] = [23, 247];
const KINDS: [&str; 3] = ["frame in, a job's first of four", "frame in, one that joins", "frame in, a job's last of four"];
/// The kind of a part, and how many of a kind a job has.
const KIND: [usize; PARTS] = [0, 1, 1, 2];
const OF_KIND: [usize; 3] = [1, 2, 1];

/// Nanoseconds a frame, for each kind.
fn joined(clock: &Clock, size: usize, in_runs: bool) -> Vec<Times> {
    let parts = Frames::parts(N, PARTS, size);
    let job = |k: usize| parts.iter().flat_map(|frames| frames.at(k)).copied().skip(2).collect::<Vec<u8>>();
    let jobs: Vec<Vec<u8>> = (0..N * D).map(|k| job(k % N)).collect();
    let channels = channels(N, PARTS * D);
    let mut port = Port::open(M, &channels, 0);
    let (plain, copying) = (original::open::<M>(&channels, 0), original::open::<M>(&channels, 0));

    let runs: Vec<Vec<u8>> = parts.iter().map(|frames| (0..N).flat_map(|slot| frame_record(slot, frames.at(slot))).collect()).collect();
    let mut answers = [0; 16 * N];
    let mut ours = |ns: &mut [u64]| {
        port.clean();
        let mut refused = 0;
        for (part, frames) in (0..D).flat_map(|_| parts.iter().enumerate()) {
            ns[KIND[part]] += clock.time(|| {
                if in_runs {
                    refused |= port.dispatch_run(black_box(&runs[part]), &mut answers);
                } else {
                    for slot in 0..N {
                        refused |= port.dispatch(slot, black_box(frames.at(slot)));
                    }
                }
            });
            assert!(!in_runs || answers.chunks(16).all(|answer| answer[..2] == [0, 0]), "the port refuses a frame of a run");
        }
        assert_eq!(refused, 0, "the port refuses a frame");
        empty_port(&mut port, N, &jobs);
    };
    let mut theirs = |ns: &mut [u64]| {
        clean_packets(PACKETS + N);
        let mut done = true;
        for (part, frames) in (0..D).flat_map(|_| parts.iter().enumerate()) {
            let mut packets: Vec<Frame<M>> = (0..N).map(|k| Frame::copied(frames.at(k))).collect();
            ns[KIND[part]] += clock.time(|| {
                for (slot, packet) in packets.drain(..).enumerate() {
                    done &= plain.dispatch(cid(slot), black_box(packet));
                }
            });
        }
        assert!(done, "the original refuses a frame");
        empty_original(&plain, N, &jobs);
    };
    let mut copied = |ns: &mut [u64]| {
        clean_packets(PACKETS);
        let mut done = true;
        for (part, frames) in (0..D).flat_map(|_| parts.iter().enumerate()) {
            ns[KIND[part]] += clock.time(|| {
                for slot in 0..N {
                    done &= copying.dispatch(cid(slot), Frame::copied(black_box(frames.at(slot))));
                }
            });
        }
        assert!(done, "the original refuses a frame");
        empty_original(&copying, N, &jobs);
    };
    let times = medians(KINDS.len(), &mut [&mut ours, &mut theirs, &mut copied]);
    (0..KINDS.len()).map(|kind| Times::each(&times, kind, N * D * OF_KIND[kind])).collect()
}

pub fn rows(clock: &Clock, table: &mut row::Table) {
    for (in_runs, how) in [(false, String::new()), (true, format!(", in a run of {N}"))] {
        let times = PAYLOADS.map(|size| joined(clock, size, in_runs));
        for (kind, what) in KINDS.iter().enumerate() {
            PAYLOADS.iter().zip(&times).for_each(|(size, times)| table.add(format!("{what}{how} | {size}"), times[kind]));
        }
    }
}
