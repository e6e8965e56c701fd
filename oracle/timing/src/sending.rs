//! Jobs sent in one frame and in ten, one slot after the other. The credits that the peer gives for them are timed by themselves.

use crate::clock::{medians, Clock};
use crate::frames::{credits, link, Channels};
use crate::original::{self, Lined, Table, Unlooked};
use crate::port::Port;
use crate::row::{self, Times};
use crate::{D, M, N, PAYLOADS};
use std::hint::black_box;

pub const LONG: usize = 10;

pub fn channels(n: usize, mps: usize, peer_credits: u16) -> Channels {
    Channels { n, peer_mps: mps as u16, peer_credits, credits: D as u16, threshold: None }
}

/// A side of the original: one of its ways to send. Where it copies frames, it starts again from the line's start after so many jobs. The peer gives back the credits untimed.
pub fn side<'a, const M: usize>(
    clock: &'a Clock,
    table: &'a Table<M>,
    send: impl Fn(&Table<M>, u8, &[u8], &mut [u8]) -> bool + 'a,
    sdus: &'a [Vec<u8>],
    given: &'a [Vec<u8>],
    line: usize,
) -> impl FnMut(&mut [u64]) + 'a {
    let mut packet = vec![0; M];
    move |ns: &mut [u64]| {
        packet.fill(0);
        table.clean_line();
        let (mut done, mut left) = (true, 0);
        ns[0] += clock.time(|| {
            for _ in 0..D {
                for (slot, sdu) in sdus.iter().enumerate() {
                    if left == 0 {
                        table.empty_line();
                        left = line;
                    }
                    left -= 1;
                    done &= send(table, slot as u8, black_box(sdu), black_box(&mut packet));
                }
            }
        });
        assert!(done, "the original refuses a job");
        given.iter().enumerate().for_each(|(slot, pdu)| done &= table.signal(link(slot), pdu));
        assert!(done && !table.signal_failed(), "the original refuses credits");
    }
}

/// Nanoseconds a job of so many frames, on tables of n slots and packets of M octets; the last figure is the original's `send`, polled.
pub fn jobs<const M: usize>(clock: &Clock, n: usize, mps: usize, frames: usize) -> (Times, f64) {
    let (length, out) = (mps * frames - 2, frames * (mps + 4));
    let sdus: Vec<Vec<u8>> = (0..n).map(|slot| crate::octets(length, slot)).collect();
    let given: Vec<Vec<u8>> = (0..n).map(|slot| credits(slot, frames * D)).collect();
    // So many that no stretch runs short, and what is given back fits.
    let channels = channels(n, mps, 60_000);
    let mut port = Port::open(M, &channels, out);
    let [plain, lined, future] = [0; 3].map(|_| original::open::<M>(&channels, out));

    for (slot, sdu) in sdus.iter().enumerate() {
        assert_eq!(port.send(slot, sdu), 0, "the port refuses a job");
        lined.empty_line();
        assert!(lined.try_send::<Lined>(slot as u8, sdu, &mut [0; M]), "the original refuses a job");
        assert_eq!(&port.out[..port.written()], lined.line(), "the two send other octets");
    }
    let mut ours = |ns: &mut [u64]| {
        port.clean();
        let mut refused = 0;
        ns[0] += clock.time(|| {
            for _ in 0..D {
                for (slot, sdu) in sdus.iter().enumerate() {
                    refused |= port.send(slot, black_box(sdu));
                }
            }
        });
        given.iter().enumerate().for_each(|(slot, pdu)| refused |= port.signal(slot, pdu));
        assert_eq!(refused, 0, "the port refuses a job, or credits");
    };
    let mut theirs = side(clock, &plain, Table::try_send::<Unlooked>, &sdus, &given, 1);
    let mut copied = side(clock, &lined, Table::try_send::<Lined>, &sdus, &given, 1);
    let mut polled = side(clock, &future, Table::send::<Unlooked>, &sdus, &given, 1);
    let times = medians(1, &mut [&mut ours, &mut theirs, &mut copied, &mut polled]);
    (Times::each(&times[..3], 0, n * D), times[3][0] / (n * D) as f64)
}

/// Nanoseconds a signal that brings one credit.
fn credit(clock: &Clock) -> Times {
    let mps = PAYLOADS[0];
    let given: Vec<Vec<u8>> = (0..N).map(|slot| credits(slot, 1)).collect();
    let channels = channels(N, mps, 0);
    let out = D * (mps + 4);
    // What the credits of a stretch let us send.
    let sdu = crate::octets(mps * D - 2, 0);
    let mut port = Port::open(M, &channels, out);
    let table = original::open::<M>(&channels, out);
    let mut ours = |ns: &mut [u64]| {
        let mut refused = 0;
        ns[0] += clock.time(|| {
            for _ in 0..D {
                for (slot, pdu) in given.iter().enumerate() {
                    refused |= port.signal(slot, black_box(pdu));
                }
            }
        });
        (0..N).for_each(|slot| refused |= port.send(slot, &sdu));
        assert_eq!(refused, 0, "the port refuses credits, or a job");
    };
    let mut theirs = |ns: &mut [u64]| {
        let mut done = true;
        ns[0] += clock.time(|| {
            for _ in 0..D {
                for (slot, pdu) in given.iter().enumerate() {
                    done &= table.signal(link(slot), black_box(pdu));
                }
            }
        });
        assert!(done && !table.signal_failed(), "the original refuses credits");
        (0..N).for_each(|slot| done &= table.try_send::<Unlooked>(slot as u8, &sdu, &mut [0; M]));
        assert!(done, "the original refuses a job");
    };
    Times::each(&medians(1, &mut [&mut ours, &mut theirs]), 0, N * D)
}

pub fn rows(clock: &Clock, table: &mut row::Table) {
    let one = PAYLOADS.map(|mps| jobs::<M>(clock, N, mps, 1));
    PAYLOADS.iter().zip(&one).for_each(|(mps, (times, _))| table.add(format!("send, one frame | {mps}"), *times));
    for (mps, (times, future)) in PAYLOADS.iter().zip(&one) {
        let beside = Times { port: times.port, original: *future, copied: None };
        table.add(format!("send, one frame, beside the future | {mps}"), beside);
    }
    for mps in PAYLOADS {
        let (times, _) = jobs::<M>(clock, N, mps, LONG);
        let a_frame = |ns: f64| ns / LONG as f64;
        let each = Times { port: a_frame(times.port), original: a_frame(times.original), copied: times.copied.map(a_frame) };
        table.add(format!("send, a frame of ten | {mps}"), each);
    }
    table.add("signal, one credit | 8".to_string(), credit(clock));
}
