//! The port's side: a table, its room, and the memories that the entries are lent.

use crate::archive;
use crate::frames::{cid, link, Channels, SPSM};
use crate::D;

const TABLE_OCTETS: usize = 1_312;
const DEFAULT: u32 = 0x1_0000;
const EVERY: u8 = 0;
const MIN_THRESHOLD: u8 = 1;

pub struct Port {
    table: [u8; TABLE_OCTETS],
    answer: [u8; 16],
    room: Vec<u8>,
    signal: [u8; 18],
    pub out: Vec<u8>,
}

impl Port {
    /// A table whose channels are all open, and an output of so many octets.
    pub fn open(m: usize, channels: &Channels, out: usize) -> Self {
        let room = vec![0; channels.n * (D + 1) * (m - 6)];
        let mut port = Self { table: [0; TABLE_OCTETS], answer: [0; 16], room, signal: [0; 18], out: vec![0; out] };
        let Self { table, answer, room, signal, .. } = &mut port;
        let mut refused = archive::make(table, answer, room, channels.n as u16, D as u16, m as u16);
        refused |= archive::register_spsm(table, answer, SPSM);
        let (kind, value) = channels.threshold.map_or((EVERY, 1), |threshold| (MIN_THRESHOLD, threshold));
        for slot in 0..channels.n {
            refused |= archive::signal(table, answer, room, signal, link(slot), 1, 1, &channels.request(slot));
            refused |= archive::next_pending(table, answer, link(slot), 1);
            refused |= archive::accept_pending(table, answer, signal, slot as u8, DEFAULT, DEFAULT, kind, value, channels.credits.into());
        }
        assert_eq!(refused, 0, "the port's channels are not open");
        port
    }

    /// Zeroes the room, where no job stands in it, and the output.
    pub fn clean(&mut self) {
        self.room.fill(0);
        self.out.fill(0);
    }

    #[inline]
    pub fn dispatch(&mut self, slot: usize, payload: &[u8]) -> u32 {
        archive::dispatch(&mut self.table, &mut self.answer, &mut self.room, link(slot), cid(slot), payload)
    }

    #[inline]
    pub fn send(&mut self, slot: usize, sdu: &[u8]) -> u32 {
        archive::send(&mut self.table, &mut self.answer, &mut self.out, slot as u8, sdu)
    }

    /// Each slot's buffer is a part of the output, of so many octets.
    #[inline]
    pub fn start_job(&mut self, slot: usize, size: usize, length: usize) -> u32 {
        archive::start_job(&mut self.table, &mut self.answer, &mut self.out[slot * size..][..size], slot as u8, length)
    }

    #[inline]
    pub fn give_portion(&mut self, slot: usize, size: usize, octets: &[u8]) -> u32 {
        archive::give_portion(&mut self.table, &mut self.answer, &mut self.out[slot * size..][..size], slot as u8, octets)
    }

    #[inline]
    pub fn receive(&mut self, slot: usize, job: &mut [u8]) -> u32 {
        archive::receive(&mut self.table, &mut self.answer, &mut self.room, &mut self.signal, job, slot as u8)
    }

    #[inline]
    pub fn signal(&mut self, slot: usize, pdu: &[u8]) -> u32 {
        archive::signal(&mut self.table, &mut self.answer, &mut self.room, &mut self.signal, link(slot), 1, 1, pdu)
    }

    #[inline]
    pub fn dispatch_run(&mut self, frames: &[u8], answers: &mut [u8]) -> u32 {
        archive::dispatch_run(&mut self.table, &mut self.answer, &mut self.room, frames, answers)
    }

    #[inline]
    pub fn send_run(&mut self, jobs: &[u8], answers: &mut [u8]) -> u32 {
        archive::send_run(&mut self.table, &mut self.answer, &mut self.out, jobs, answers)
    }

    /// How many octets the last call wrote to its signal or its output.
    pub fn written(&self) -> usize {
        u32::from_le_bytes([self.answer[2], self.answer[3], self.answer[4], self.answer[5]]) as usize
    }

    /// The grant that the last take wrote.
    pub fn grant(&self) -> &[u8] {
        &self.signal[..self.written()]
    }
}
