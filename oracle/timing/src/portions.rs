//! A job of one frame handed over in portions, one slot after the other: its start, and the portion that fills the frame, each by itself, beside the original's sending of that job.

use crate::clock::{medians, Clock};
use crate::frames::credits;
use crate::original::{self, Lined, Table, Unlooked};
use crate::port::Port;
use crate::row::{self, Times};
use crate::sending;
use crate::{D, M, N, PAYLOADS};
use std::hint::black_box;

/// Nanoseconds a start, and nanoseconds a portion, of frames with a payload of so many octets.
fn portions(clock: &Clock, mps: usize) -> [Times; 2] {
    let sdus: Vec<Vec<u8>> = (0..N).map(|slot| crate::octets(mps - 2, slot)).collect();
    let given: Vec<Vec<u8>> = (0..N).map(|slot| credits(slot, D)).collect();
    let channels = sending::channels(N, mps, 60_000);
    let mut port = Port::open(M, &channels, N * (mps + 4));
    let tables = [0; 2].map(|_| original::open::<M>(&channels, N * D * (mps + 4)));

    for (slot, sdu) in sdus.iter().enumerate() {
        assert_eq!(port.start_job(slot, mps + 4, sdu.len()) | port.give_portion(slot, mps + 4, sdu), 0, "the port refuses a job");
        tables[1].empty_line();
        assert!(tables[1].try_send::<Lined>(slot as u8, sdu, &mut [0; M]), "the original refuses a job");
        assert_eq!(port.out[slot * (mps + 4)..][..port.written()], *tables[1].line(), "the two send other octets");
    }
    let mut ours = |ns: &mut [u64]| {
        port.clean();
        let mut refused = 0;
        for _ in 0..D {
            ns[0] += clock.time(|| {
                for (slot, sdu) in sdus.iter().enumerate() {
                    refused |= port.start_job(slot, mps + 4, black_box(sdu.len()));
                }
            });
            ns[1] += clock.time(|| {
                for (slot, sdu) in sdus.iter().enumerate() {
                    refused |= port.give_portion(slot, mps + 4, black_box(sdu));
                }
            });
        }
        given.iter().enumerate().for_each(|(slot, pdu)| refused |= port.signal(slot, pdu));
        assert_eq!(refused, 0, "the port refuses a job, or credits");
    };
    let mut theirs = sending::side(clock, &tables[0], Table::try_send::<Unlooked>, &sdus, &given, 1);
    let mut copied = sending::side(clock, &tables[1], Table::try_send::<Lined>, &sdus, &given, 1);
    // One time of theirs stands beside both of ours.
    let mut theirs = |ns: &mut [u64]| {
        theirs(&mut ns[..1]);
        ns[1] = ns[0];
    };
    let mut copied = |ns: &mut [u64]| {
        copied(&mut ns[..1]);
        ns[1] = ns[0];
    };
    let times = medians(2, &mut [&mut ours, &mut theirs, &mut copied]);
    [0, 1].map(|kind| Times::each(&times, kind, N * D))
}

pub fn rows(clock: &Clock, table: &mut row::Table) {
    let all = PAYLOADS.map(|mps| portions(clock, mps));
    for (mps, [start, _]) in PAYLOADS.iter().zip(&all) {
        table.add(format!("start of a job, beside its sending | {mps}"), *start);
    }
    for (mps, [_, portion]) in PAYLOADS.iter().zip(&all) {
        table.add(format!("portion, one frame, beside its sending | {mps}"), *portion);
    }
}
