//! What the driver follows beside the original's records: which disconnects of our own were announced (the original has no such mark),
//! which slots were taken while numbers of their last owner stood in the record, and what of their tallies was an earlier owner's.

use super::Driver;
use crate::channel_manager::ChannelState;
use language::{Answer, Row, Stale, Tallies};
use std::panic::{catch_unwind, AssertUnwindSafe};

#[derive(Default)]
pub(super) struct Tracks {
    announced: [bool; 16],
    stale: [Stale; 16],
    inherited: [Tallies; 16],
}

impl Tracks {
    pub(super) fn announced(&self, slot: usize) -> bool {
        self.announced[slot]
    }

    pub(super) fn stale(&self, slot: usize) -> Stale {
        self.stale[slot]
    }

    pub(super) fn inherited(&self, slot: usize) -> Tallies {
        self.inherited[slot]
    }

    pub(super) fn announce(&mut self, slot: usize) {
        self.announced[slot] = true;
    }
}

impl<const M: usize> Driver<'_, M> {
    /// Asks the original once. A panic becomes the row `panic`; its message is kept off the screen by the caller's hook.
    pub(super) fn ask(&mut self, call: impl FnOnce(&mut Self) -> Row) -> Row {
        let before: Vec<_> = (0..self.n).map(|slot| self.channels.standing(slot)).collect();
        let row = catch_unwind(AssertUnwindSafe(|| call(self))).unwrap_or_else(|_| {
            self.air.take();
            Row::new(Answer::Panic)
        });
        for (slot, (state, cid)) in before.into_iter().enumerate() {
            self.follow(slot, state, cid);
        }
        row
    }

    /// Runs a call that may open a slot again; here the planted fault acts.
    pub(super) fn opening<R>(&mut self, call: impl FnOnce(&mut Self) -> R) -> R {
        if !self.manner.lost_line {
            return call(self);
        }
        let lifted = self.channels.lift_assemblies();
        let result = call(self);
        self.channels.put_back_assemblies(lifted);
        result
    }

    fn follow(&mut self, slot: usize, state_before: ChannelState, cid_before: u16) {
        let (state, cid) = self.channels.standing(slot);
        if state != ChannelState::Connected {
            self.close_job(slot);
        }
        if state != ChannelState::Disconnecting {
            self.tracks.announced[slot] = false;
        }
        // They are reset all at once, and nothing is counted in the same call; a free that doesn't reset them leaves them to the next owner.
        let tallies = self.channels.tallies(slot);
        if state == ChannelState::Disconnected || tallies == Tallies::default() {
            self.tracks.inherited[slot] = tallies;
        }
        if self.manner.counted > 0 && state == ChannelState::Connected && state_before != state {
            self.tracks.inherited[slot] = Tallies::default();
            self.channels.put_tallies(slot, Tallies::all(self.manner.counted));
        }
        let left_behind = state_before == ChannelState::Disconnected && cid_before != 0;
        self.tracks.stale[slot] = match state {
            _ if cid == 0 => Stale::Nothing,
            ChannelState::Disconnected => Stale::All,
            ChannelState::Connected => Stale::Nothing,
            ChannelState::PeerConnecting(_) if left_behind => Stale::Ours,
            ChannelState::Connecting(_) if left_behind => Stale::Peers,
            _ => self.tracks.stale[slot],
        };
    }
}
