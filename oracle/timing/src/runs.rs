//! Frames in and jobs sent by one call for a run of them, beside the original's loop over the same.

use crate::clock::{medians, Clock};
use crate::frames::{credits, frame_record, Frames};
use crate::intake::{self, copying, empty_port, plain};
use crate::original::{self, Lined, Table, Unlooked};
use crate::port::Port;
use crate::row::{self, Times};
use crate::sending;
use crate::{D, M, N, PAYLOADS};
use std::hint::black_box;

/// How many frames or jobs a run has.
const RUNS: [usize; 2] = [N, N * D];

/// A job as a run has it.
fn job_record(slot: usize, sdu: &[u8]) -> Vec<u8> {
    [&[slot as u8][..], &(sdu.len() as u16).to_le_bytes(), sdu].concat()
}

/// The records, one behind the other, in runs of so many.
fn runs(records: &[Vec<u8>], run: usize) -> Vec<Vec<u8>> {
    records.chunks(run).map(<[Vec<u8>]>::concat).collect()
}

/// Nanoseconds a frame in a run.
fn frames_in(clock: &Clock, size: usize, run: usize) -> Times {
    let frames = Frames::whole(N * D, size);
    let jobs = frames.jobs();
    let records: Vec<Vec<u8>> = (0..N * D).map(|k| frame_record(k % N, frames.at(k))).collect();
    let runs = runs(&records, run);
    let channels = intake::channels(N, D);
    let mut port = Port::open(M, &channels, 0);
    let tables = [0; 2].map(|_| original::open::<M>(&channels, 0));
    let mut answers = vec![0; 16 * run];
    let mut ours = |ns: &mut [u64]| {
        port.clean();
        answers.fill(0xff);
        let mut refused = 0;
        ns[0] += clock.time(|| {
            for run in &runs {
                refused |= port.dispatch_run(black_box(run), &mut answers);
            }
        });
        assert_eq!(refused, 0, "the port refuses a run");
        assert!(answers.chunks(16).all(|answer| answer[..2] == [0, 0]), "the port refuses a frame of a run");
        empty_port(&mut port, N, &jobs);
    };
    let mut theirs = plain(clock, &tables[0], N, &frames, &jobs);
    let mut copied = copying(clock, &tables[1], N, &frames, &jobs);
    Times::each(&medians(1, &mut [&mut ours, &mut theirs, &mut copied]), 0, N * D)
}

/// Nanoseconds a frame of jobs of so many frames, in a run of so many jobs.
fn jobs_sent(clock: &Clock, mps: usize, frames: usize, run: usize) -> Times {
    let sdus: Vec<Vec<u8>> = (0..N).map(|slot| crate::octets(mps * frames - 2, slot)).collect();
    let given: Vec<Vec<u8>> = (0..N).map(|slot| credits(slot, frames * D)).collect();
    let records: Vec<Vec<u8>> = (0..N * D).map(|k| job_record(k % N, &sdus[k % N])).collect();
    let runs = runs(&records, run);
    let job = frames * (mps + 4);
    let channels = sending::channels(N, mps, 60_000);
    let mut port = Port::open(M, &channels, run * job);
    let tables = [0; 2].map(|_| original::open::<M>(&channels, N * D * job));
    let mut answers = vec![0; 16 * run];

    assert_eq!(port.send_run(&runs[0], &mut answers), 0, "the port refuses a run");
    tables[1].empty_line();
    for (slot, sdu) in sdus.iter().enumerate().cycle().take(run) {
        assert!(tables[1].try_send::<Lined>(slot as u8, sdu, &mut [0; M]), "the original refuses a job");
    }
    assert_eq!(port.out, tables[1].line(), "the two send other octets");

    let mut ours = |ns: &mut [u64]| {
        port.clean();
        answers.fill(0xff);
        let mut refused = 0;
        ns[0] += clock.time(|| {
            for run in &runs {
                refused |= port.send_run(black_box(run), &mut answers);
            }
        });
        assert!(answers.chunks(16).all(|answer| answer[..2] == [6, 0]), "the port refuses a job of a run");
        given.iter().enumerate().for_each(|(slot, pdu)| refused |= port.signal(slot, pdu));
        assert_eq!(refused, 0, "the port refuses a run, or credits");
    };
    // The original's line goes on as far as a run does.
    let mut theirs = sending::side(clock, &tables[0], Table::try_send::<Unlooked>, &sdus, &given, run);
    let mut copied = sending::side(clock, &tables[1], Table::try_send::<Lined>, &sdus, &given, run);
    Times::each(&medians(1, &mut [&mut ours, &mut theirs, &mut copied]), 0, N * D * frames)
}

pub fn rows(clock: &Clock, table: &mut row::Table) {
    for run in RUNS {
        PAYLOADS.iter().for_each(|size| table.add(format!("frame in, in a run of {run} | {size}"), frames_in(clock, *size, run)));
    }
    for (what, frames) in [("send, one frame", 1), ("send, a frame of ten", sending::LONG)] {
        for run in RUNS {
            PAYLOADS.iter().for_each(|size| table.add(format!("{what}, in a run of {run} | {size}"), jobs_sent(clock, *size, frames, run)));
        }
    }
}
