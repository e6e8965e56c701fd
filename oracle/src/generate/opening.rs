//! Moves that open, hold and close channels, and the choice of each move's own call.

use super::{numbers, Generator, Move};
use language::{Call, State, View, BASE_ID};

impl Generator {
    pub(super) fn play(&mut self, chosen: Move, view: &View) -> Option<Call> {
        let pending =
            |hold: bool| move |slot: &language::SlotView| matches!(slot.state, State::PeerConnecting(_)) && (slot.hold > 0) == hold;
        let full = !view.slots.iter().any(|slot| slot.free() && slot.hold == 0);
        let call = match chosen {
            // A full table refuses every opening: that is seen often enough.
            Move::PeerRequest | Move::Create if full && self.rng.chance(75) => return None,
            // Moves that always can be made are made again each time that others can't: they would take the script over.
            Move::Register | Move::RejectStep | Move::LinkDown | Move::ParameterRequest | Move::ParameterResponse | Move::Wrong
                if self.rng.chance(70) =>
            {
                return None
            }
            Move::Register => {
                Call::Register { spsm: if self.rng.chance(80) { self.rng.between(1, 255) as u16 } else { numbers::spsm(&mut self.rng) } }
            }
            Move::PeerRequest => self.signal_line(|this| Some((this.a_link(), this.peer_request())))?,
            Move::Response => self.signal_line(|this| this.response(view))?,
            Move::PeerCredits => self.signal_line(|this| this.credits(view))?,
            Move::PeerDisconnect => self.signal_line(|this| this.disconnect_request(view))?,
            Move::DisconnectResponse => self.signal_line(|this| this.disconnect_response(view))?,
            Move::Parameters => self.signal_line(|this| Some((this.a_link(), this.parameters())))?,
            Move::Noise => self.signal_line(|this| Some((this.a_link(), this.noise())))?,
            Move::Several => self.signal_line(|this| this.several(view))?,
            Move::NextPending => {
                let link = match self.slot_where(view, pending(false)) {
                    Some(slot) => self.link_of(view, slot),
                    None if self.rng.chance(10) => self.a_link(),
                    None => return None,
                };
                Call::NextPending { link, up: self.rng.chance(90) }
            }
            Move::RejectStep => Call::RejectStep { link: self.a_link() },
            Move::Accept => {
                let slot = self.slot_where(view, pending(true))?;
                Call::Accept { slot, config: numbers::config(&mut self.rng, self.m) }
            }
            Move::Reject => {
                let slot = self.slot_where(view, pending(true))?;
                Call::Reject { slot, result: numbers::result(&mut self.rng) }
            }
            Move::DropPending => {
                // Dropping one that was accepted does nothing.
                let accepted = self.rng.chance(20);
                let slot = self.slot_where(view, |slot| if accepted { slot.state == State::Connected } else { pending(true)(slot) })?;
                Call::DropPending { slot }
            }
            Move::Create => {
                let link = self.a_link();
                Call::Create { link, spsm: numbers::spsm(&mut self.rng), config: numbers::config(&mut self.rng, self.m) }
            }
            Move::Opened => {
                let unheld = |slot: &language::SlotView| slot.state == State::Connected && slot.hold == 0;
                let wanted =
                    |slot: &language::SlotView| matches!(slot.state, State::Connecting(_) | State::ConnectFailed(_)) || unheld(slot);
                let slot = self.slot_where(view, wanted)?;
                let link = self.link_of(view, slot);
                Call::Opened { slot, link, up: self.rng.chance(92) }
            }
            Move::GiveUp => {
                let slot = self.slot_where(view, |slot| {
                    matches!(slot.state, State::Connecting(_) | State::ConnectFailed(_)) || slot.hold == 0 && !slot.free()
                })?;
                Call::GiveUp { slot }
            }
            Move::AddHold => {
                let slot = self.slot_where(view, |slot| !slot.free())?;
                Call::AddHold { slot }
            }
            Move::Release => {
                // A free slot that is held can't be used again until its last hold is released.
                let only_free = self.rng.chance(50);
                let slot = self.slot_where(view, |slot| slot.hold > 0 && (slot.free() || !only_free))?;
                Call::Release { slot }
            }
            Move::Disconnect => {
                let slot = self.slot_where(view, |slot| slot.state == State::Connected)?;
                Call::Disconnect { slot }
            }
            Move::DisconnectByCid => {
                let slot = self.slot_where(view, |slot| slot.state == State::Connected)?;
                let cid = if self.rng.chance(85) { BASE_ID + slot } else { self.rng.pick(&[0, 1, 0x3f, BASE_ID + self.n, 65_535]) };
                Call::DisconnectByCid { cid }
            }
            Move::LinkDown => {
                let link = match self.slot_where(view, |slot| !slot.free()) {
                    Some(slot) => self.link_of(view, slot),
                    None => self.a_link(),
                };
                Call::LinkDown { link }
            }
            Move::NextDisconnect => {
                if !view.slots.iter().any(language::SlotView::disconnect_due) && self.rng.chance(85) {
                    return None;
                }
                Call::NextDisconnect
            }
            Move::Frame => self.frame(view)?,
            Move::Send => self.send(view)?,
            Move::Start => self.start_job(view)?,
            Move::Portion => self.give_portion(view)?,
            Move::Cancel => self.cancel_job(view)?,
            Move::Take => self.take(view)?,
            Move::ParameterRequest => {
                let [min, max, latency, timeout] = self.parameter_numbers();
                Call::ParameterRequest { link: self.a_link(), min, max, latency, timeout }
            }
            Move::ParameterResponse => Call::ParameterResponse { link: self.a_link(), result: self.rng.pick(&[0, 1, 65_535]) },
            Move::Wrong => self.wrong(),
        };
        Some(call)
    }

    /// Calls with numbers that name nothing, and lines that can't be read.
    fn wrong(&mut self) -> Call {
        let slot = if self.rng.chance(50) { self.n } else { self.rng.pick(&[17, 255, 256, 65_535]) };
        let link = self.rng.pick(&[0x0F00, 0x0FFF, 65_535]);
        match self.rng.below(15) {
            0 => Call::Accept { slot, config: Default::default() },
            1 => Call::Reject { slot, result: self.rng.pick(&[3, 4]) },
            2 => Call::Opened { slot, link: 1, up: true },
            3 => Call::Send { slot, sdu: vec![1, 2, 3] },
            4 => Call::Take { slot, size: 4 },
            5 => Call::Release { slot },
            6 => Call::Queries { slot },
            7 => Call::Room { slot },
            8 => Call::NextPending { link, up: true },
            9 => Call::Create { link, spsm: 128, config: Default::default() },
            10 => Call::LinkDown { link },
            11 => Call::Frame { link, cid: BASE_ID, payload: vec![0, 0] },
            12 => Call::Tallies { slot },
            13 => Call::Signal { link, listening: true, central: true, pdu: [self.peer_request(), self.parameters()].concat() },
            _ => Call::Unread(self.rng.pick(&[" ", "F 1 64 0", "Q 1", "T 1 1", "A 0 - - e -", "x", "t"]).to_string()),
        }
    }
}
