//! Copying, counting and cutting: the port's proved functions, through the archive of `sar_speed`, beside the original's `encode` loop and the two lines with which its `send` counts. Both are given the
//! same octets and must write the same.

use crate::clock::{medians, Clock};
use crate::row::{Table, Times};
use crate::PAYLOADS;
use original_d4::encode_job;
use std::hint::black_box;

/// 24, 248 and 1,024 leave no single octets behind the eights: they show what the last octets of the others cost.
const SIZES: [usize; 6] = [23, 24, 247, 248, 1020, 1024];
const FRAMES: usize = 16;
/// So often a stretch makes its work.
const TURNS: usize = 256;
const CID: u16 = 0x0040;

extern "C" {
    fn speed_copy(dst: *mut u8, room: usize, src: *const u8, length: usize);
    fn speed_count(l: u16, mps: u16) -> usize;
    fn speed_send(out: *mut u8, room: usize, cid: u16, mtu: u16, mps: u16, credits: u16, sdu: *const u8, length: usize) -> usize;
}

fn port_copy(dst: &mut [u8], src: &[u8]) {
    // SAFETY: both are slices with their own lengths, and the archive's contract asks nothing more.
    unsafe { speed_copy(dst.as_mut_ptr(), dst.len(), src.as_ptr(), src.len()) }
}

fn port_count(l: u16, mps: u16) -> usize {
    // SAFETY: numbers alone.
    unsafe { speed_count(l, mps) }
}

fn port_send(out: &mut [u8], mps: u16, sdu: &[u8]) -> usize {
    // SAFETY: as above.
    unsafe { speed_send(out.as_mut_ptr(), out.len(), CID, 65_535, mps, 65_535, sdu.as_ptr(), sdu.len()) }
}

/// What `encode` copies with: the slice's own copy, behind a call as the port's is.
#[inline(never)]
fn rust_copy(dst: &mut [u8], src: &[u8]) {
    dst[..src.len()].copy_from_slice(src);
}

/// As `send` counts: its two lines.
#[inline(never)]
fn original_count(l: u16, mps: u16) -> u16 {
    let len = l.saturating_add(2);
    len.div_ceil(mps)
}

#[inline(never)]
fn original_send(out: &mut [u8], mps: u16, sdu: &[u8]) -> usize {
    encode_job(sdu, out, CID, mps).expect("the output holds the frames")
}

/// Nanoseconds for each of so many frames of a turn.
fn compare(clock: &Clock, frames: usize, port: &mut dyn FnMut(), other: &mut dyn FnMut()) -> Times {
    let mut ours = |ns: &mut [u64]| ns[0] += clock.time(|| (0..TURNS).for_each(|_| port()));
    let mut theirs = |ns: &mut [u64]| ns[0] += clock.time(|| (0..TURNS).for_each(|_| other()));
    Times::each(&medians(1, &mut [&mut ours, &mut theirs]), 0, TURNS * frames)
}

pub fn rows(clock: &Clock, table: &mut Table) {
    for size in SIZES {
        let src = crate::octets(size, 0);
        let (mut ours, mut theirs) = (vec![0; size], vec![0; size]);
        port_copy(&mut ours, &src);
        rust_copy(&mut theirs, &src);
        assert_eq!(ours, theirs, "the two copies differ");
        let times = compare(clock, 1, &mut || port_copy(black_box(&mut ours), black_box(&src)), &mut || {
            rust_copy(black_box(&mut theirs), black_box(&src))
        });
        table.add(format!("copy | {size}"), times);
    }
    for frames in [1, FRAMES] {
        for size in PAYLOADS {
            let (l, mps) = ((frames * size - 2) as u16, size as u16);
            assert_eq!(port_count(l, mps), original_count(l, mps) as usize, "the two count otherwise");
            let times = compare(
                clock,
                1,
                &mut || {
                    black_box(port_count(black_box(l), black_box(mps)));
                },
                &mut || {
                    black_box(original_count(black_box(l), black_box(mps)));
                },
            );
            let what = if frames == 1 { "count, a job of one frame" } else { "count, a job of sixteen" };
            table.add(format!("{what} | {size}"), times);
        }
    }
    for frames in [1, FRAMES] {
        for size in SIZES {
            let sdu = crate::octets(frames * size - 2, 0);
            let room = frames * (size + 4);
            let (mut ours, mut theirs) = (vec![0; room], vec![0; room]);
            let mps = size as u16;
            assert_eq!(port_send(&mut ours, mps, &sdu), original_send(&mut theirs, mps, &sdu), "the two write another number of octets");
            assert_eq!(ours, theirs, "the two outputs differ");
            let times = compare(
                clock,
                frames,
                &mut || {
                    black_box(port_send(black_box(&mut ours), black_box(mps), black_box(&sdu)));
                },
                &mut || {
                    black_box(original_send(black_box(&mut theirs), black_box(mps), black_box(&sdu)));
                },
            );
            let what = if frames == 1 { "cut, a job of one frame" } else { "cut, a frame of sixteen" };
            table.add(format!("{what} | {size}"), times);
        }
    }
}
