//! The numbers that calls are made of: each list has the limits, their neighbours and a few plain ones.

use crate::rng::Rng;
use language::{Config, Policy, SIZE_LEAST};

pub fn link(rng: &mut Rng) -> u16 {
    if rng.chance(60) {
        rng.pick(&[0, 1, 2, 3])
    } else {
        rng.pick(&[0x0040, 0x0100, 0x0EFE, 0x0EFF])
    }
}

/// Few of them, so that two channels of one link often want the same one.
pub fn peer_cid(rng: &mut Rng) -> u16 {
    if rng.chance(90) {
        rng.pick(&[0x40, 0x41, 0x42, 0x43, 0x50, 0x7f])
    } else {
        rng.pick(&[0, 1, 5, 0x3f, 0xffff])
    }
}

pub fn spsm(rng: &mut Rng) -> u16 {
    if rng.chance(88) {
        128
    } else {
        rng.pick(&[0, 1, 31, 32, 37, 127, 129, 255, 256, 0x8080, 65_535])
    }
}

/// An MPS that Core allows.
fn peer_mps(rng: &mut Rng, m: u16) -> u16 {
    if rng.chance(92) {
        rng.pick(&[23, 24, 25, 27, m - 5, m - 4]).max(SIZE_LEAST)
    } else {
        rng.pick(&[m - 3, 247, 1_020, 65_535])
    }
}

/// An MTU that Core allows.
fn peer_mtu(rng: &mut Rng, m: u16) -> u16 {
    rng.pick(&[23, 24, 44, 45, 64, 100, m - 6, 300, 1_000, 2_000, 65_533, 65_535])
}

/// MTU and MPS of a peer that follows Core.
pub fn allowed_sizes(rng: &mut Rng, m: u16) -> [u16; 2] {
    [peer_mtu(rng, m), peer_mps(rng, m)]
}

/// MTU and MPS of a peer that doesn't: one of them is below 23, or both.
pub fn small_sizes(rng: &mut Rng, m: u16) -> [u16; 2] {
    let small = rng.pick(&[0, 1, 2, 10, 22, 22, 22]);
    match rng.below(3) {
        0 => [small, peer_mps(rng, m)],
        1 => [peer_mtu(rng, m), small],
        _ => [rng.pick(&[0, 1, 22, 22]), small],
    }
}

/// MTU and MPS of a peer: most of them follow Core.
pub fn peer_sizes(rng: &mut Rng, m: u16) -> [u16; 2] {
    if rng.chance(95) {
        allowed_sizes(rng, m)
    } else {
        small_sizes(rng, m)
    }
}

pub fn peer_credits(rng: &mut Rng) -> u16 {
    rng.pick(&[0, 1, 2, 3, 5, 10, 40, 65_530, 65_534, 65_535])
}

/// Credits that bring a sum of `held` to just below, to and past 65,535, or some.
pub fn more_credits(rng: &mut Rng, held: u16) -> u16 {
    let to_the_top = 65_535 - held;
    match rng.below(30) {
        0..=2 => to_the_top,
        3 | 4 => to_the_top.saturating_sub(1),
        5 => to_the_top.saturating_add(1),
        6 => 65_535,
        7 | 8 => 0,
        _ => rng.between(1, 9) as u16,
    }
}

pub fn config(rng: &mut Rng, m: u16) -> Config {
    let rare = rng.chance(4);
    let mtu = match rng.below(10) {
        0 => Some(m - 6),
        1 => Some(m - 7),
        2 => Some(rng.pick(&[0, 1, 20, 23])),
        _ if rare => Some(rng.pick(&[m - 5, m, 65_535])),
        _ => None,
    };
    let mps = match rng.below(10) {
        0 => Some(m - 4),
        1 => Some(rng.pick(&[23, 24, m - 5])),
        // Our own may be below 23: a job then comes in many frames, and a frame that is too long is soon made.
        2 => Some(rng.pick(&[0, 2, 3, 7, 12, 22])),
        _ if rare => Some(rng.pick(&[m - 3, m, 65_535])),
        _ => None,
    };
    let policy = match rng.below(10) {
        0 => Some(Policy::Every(rng.pick(&[0, 0, 2, 65_535]))),
        1 => Some(Policy::Every(rng.pick(&[1, 3, 5]))),
        2 => Some(Policy::MinThreshold(rng.pick(&[0, 65_535, 65_535]))),
        3 => Some(Policy::MinThreshold(rng.pick(&[1, 2, 3, 5]))),
        _ => None,
    };
    // A job that comes in many frames needs as many credits.
    let many = mps.is_some_and(|mps| mps < SIZE_LEAST);
    let credits = match rng.below(100) {
        0..35 if !many => None,
        35..70 if many => Some(rng.pick(&[20, 200, 65_535])),
        _ => Some(rng.pick(&[0, 1, 2, 3, 5, 8, 20, 20, 200, 200, 65_535, 65_535])),
    };
    Config { mtu, mps, policy, credits }
}

/// A listed result code most of the time. An unlisted one never reaches the original.
pub fn result(rng: &mut Rng) -> u16 {
    if rng.chance(95) {
        rng.pick(&[2, 4, 5, 6, 7, 8, 9, 10, 11])
    } else {
        rng.pick(&[0, 1, 3, 12, 13, 256, 65_535])
    }
}
