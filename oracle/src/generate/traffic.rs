//! Frames, jobs and takes, at the limits of frame, MTU, credits and queue.

use super::Generator;
use language::{Call, SlotView, State, View, BASE_ID};

impl Generator {
    pub(super) fn frame(&mut self, view: &View) -> Option<Call> {
        let slot = self.slot_where(view, |slot| slot.state == State::Connected)?;
        let link = self.link_of(view, slot);
        let cid = if self.rng.chance(98) { BASE_ID + slot } else { self.rng.pick(&[0, 0x3f, BASE_ID + self.n, 65_535]) };
        let record = &view.slots[usize::from(slot)];
        let payload = if record.want > 0 { self.joining_frame(record) } else { self.first_frame(record) };
        Some(Call::Frame { link, cid, payload })
    }

    /// How long a frame may be: our MPS. Past it both sides answer alike where no credit is left, and where another length is passed too.
    fn longest(&mut self, record: &SlotView) -> usize {
        let within = if record.credits == 0 { 60 } else { 97 };
        usize::from(if self.rng.chance(within) { record.mps } else { self.m })
    }

    /// A frame that opens a job, whole or in part.
    fn first_frame(&mut self, record: &SlotView) -> Vec<u8> {
        let longest = self.longest(record);
        let rng = &mut self.rng;
        let mtu = usize::from(record.mtu);
        let length = match rng.below(40) {
            0 => rng.pick(&[mtu + 1, mtu + 2, 65_535]),
            1..=5 => mtu,
            6 | 7 => mtu.saturating_sub(1),
            8..=10 => 0,
            11 | 12 => 1,
            _ => rng.between(0, mtu.min(40).min(4 * usize::from(record.mps))),
        };
        let carried = match rng.below(10) {
            0..=3 => length,
            4 => length.saturating_sub(1),
            5 => 0,
            _ => rng.between(0, length.min(300)),
        };
        let mut payload = (length as u16).to_le_bytes().to_vec();
        payload.extend(rng.octets(carried.min(longest.saturating_sub(2))));
        payload
    }

    /// A frame that goes on with the open job: often to its end, rarely past it.
    fn joining_frame(&mut self, record: &SlotView) -> Vec<u8> {
        let longest = self.longest(record);
        let rng = &mut self.rng;
        let rest = usize::from(record.want) - usize::from(record.have.min(record.want));
        let carried = match rng.below(40) {
            0 => rest + 1,
            1 | 2 => 0,
            3..=6 => 1,
            7..=11 => rest.saturating_sub(1),
            12..=27 => rest,
            _ => rng.between(0, rest),
        };
        rng.octets(carried.min(if carried > rest { self.m.into() } else { longest }))
    }

    pub(super) fn send(&mut self, view: &View) -> Option<Call> {
        let slot = self.slot_where(view, |slot| slot.state == State::Connected)?;
        let record = &view.slots[usize::from(slot)];
        let rng = &mut self.rng;
        let (mps, mtu, credits) = (usize::from(record.peer_mps), usize::from(record.peer_mtu), usize::from(record.peer_credits));
        // Lengths around the end of the k-th frame, where k is small or takes the last credit.
        let frames = if rng.chance(40) { credits } else { rng.between(1, 4) };
        let around = (frames * mps + rng.pick(&[0, 1, 2])).saturating_sub(3);
        let length = match rng.below(12) {
            0 => 0,
            1 => 1,
            2 => mtu,
            3 => mtu + 1,
            4 if rng.chance(3) => rng.pick(&[65_533, 65_534, 65_535]),
            4..=8 => around,
            _ => rng.between(0, 120),
        };
        // Long jobs make long scripts: few of them are enough.
        let most = if rng.chance(1) { 65_535 } else { 1_200 };
        Some(Call::Send { slot, sdu: rng.octets(length.min(most)) })
    }

    pub(super) fn take(&mut self, view: &View) -> Option<Call> {
        let slot = match self.slot_where(view, |slot| !slot.jobs.is_empty()) {
            Some(slot) => slot,
            None if self.rng.chance(10) => self.slot_where(view, |slot| slot.state == State::Connected)?,
            None => return None,
        };
        Some(Call::Take { slot, size: self.buffer_for(&view.slots[usize::from(slot)]) })
    }

    /// The size of a take's buffer: none, too short, just enough, one octet more, ample.
    pub(super) fn buffer_for(&mut self, record: &SlotView) -> u16 {
        let job = record.jobs.first().copied().unwrap_or(0);
        match self.rng.below(9) {
            0 => 0,
            1 => job.saturating_sub(1),
            2 => self.rng.between(0, job.into()) as u16,
            3 | 4 => job,
            5 => job + 1,
            // Never too short.
            6 => record.mtu,
            _ => 1_024,
        }
    }
}
