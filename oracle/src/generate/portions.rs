//! Jobs handed over in portions: started at the limits of frame, MTU, credits and buffer, and cut anywhere.

use super::Generator;
use crate::kinds::buffer;
use language::{Call, JobView, SlotView, State, View, BUFFER};

impl Generator {
    pub(super) fn start_job(&mut self, view: &View) -> Option<Call> {
        let slot = self.slot_where(view, |slot| slot.state == State::Connected && slot.job.is_none())?;
        let record = &view.slots[usize::from(slot)];
        let length = self.job_length(record);
        let least = buffer(record, length);
        let size = match self.rng.below(24) {
            0 => least.saturating_sub(1),
            1 => 0,
            2 => BUFFER,
            3..=5 => least + self.rng.below(9),
            _ => least,
        };
        Some(Call::Start { slot, length: length as u16, size: size.min(BUFFER) as u16 })
    }

    /// A portion of an open job: mostly a few octets or all that are left, and around the end of the frame.
    pub(super) fn give_portion(&mut self, view: &View) -> Option<Call> {
        let slot = match self.slot_where(view, |slot| slot.job.is_some()) {
            Some(slot) => slot,
            None if self.rng.chance(5) => self.slot_where(view, |slot| slot.state == State::Connected)?,
            None => return None,
        };
        let record = &view.slots[usize::from(slot)];
        let job = record.job.unwrap_or(JobView { length: 0, taken: 0, filled: 0, aside: 0 });
        let (mps, left) = (usize::from(record.peer_mps), usize::from(job.length) - usize::from(job.taken));
        // What the frame that is being filled still takes, the last one's end aside.
        let gap = mps.saturating_sub(job.filled.into());
        let count = match self.rng.below(40) {
            0 => left + 1,
            1 => left + self.rng.between(1, 9),
            2..=4 => 0,
            5..=8 => 1,
            9..=12 => gap.saturating_sub(1),
            13..=18 => gap,
            19..=22 => gap + 1,
            23..=32 => left,
            _ => self.rng.below(left.min(60) + 1),
        };
        // Only the first two are more than was stated. Long lines make long scripts.
        let count = if count > left && self.rng.chance(80) { left } else { count }.min(1_200);
        let least = buffer(record, job.length.into());
        let size = match self.rng.below(40) {
            0 => least - 1,
            1 => BUFFER,
            _ => least,
        };
        Some(Call::Portion { slot, size: size.min(BUFFER) as u16, octets: self.rng.octets(count) })
    }

    pub(super) fn cancel_job(&mut self, view: &View) -> Option<Call> {
        let slot = match self.slot_where(view, |slot| slot.job.is_some()) {
            Some(slot) => slot,
            None if self.rng.chance(5) => self.slot_where(view, |slot| slot.state == State::Connected)?,
            None => return None,
        };
        Some(Call::Cancel { slot })
    }

    /// A job's length: around the end of the k-th frame, where k is small or takes the last credit, and at the MTU.
    fn job_length(&mut self, record: &SlotView) -> usize {
        let rng = &mut self.rng;
        let (mps, mtu, credits) = (usize::from(record.peer_mps), usize::from(record.peer_mtu), usize::from(record.peer_credits));
        let frames = if rng.chance(30) { credits } else { rng.between(1, 4) };
        let length = match rng.below(12) {
            0 => 0,
            1 => 1,
            2 => mtu,
            3 => mtu + 1,
            4 if rng.chance(20) => rng.pick(&[65_533, 65_534, 65_535]),
            4..=8 => (frames * mps + rng.pick(&[0, 1, 2])).saturating_sub(3),
            _ => rng.between(0, 120),
        };
        length.min(if rng.chance(3) { 65_535 } else { 1_200 })
    }
}
