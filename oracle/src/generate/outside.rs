//! Calls that the list of differences speaks of, made on purpose: one for each entry that a call can reach.

use super::{numbers, Generator};
use crate::kinds::{grants, Kind};
use language::{Call, Config, SlotView, State, View, BASE_ID};

impl Generator {
    /// A call of one entry of the list, where the table allows one.
    pub(super) fn outside(&mut self, view: &View) -> Option<Call> {
        // Few tables allow these: where one does, or nearly does, they are taken often.
        let any = |test: fn(&SlotView) -> bool| view.slots.iter().any(test);
        let rare = [
            (Kind::LateCancel, 30, any(late)),
            (Kind::LongerThanMps, 40, any(|slot| mps_decides(slot, 1))),
            (Kind::LongerThanMps, 15, any(|slot| pending(slot) && slot.hold > 0)),
            (Kind::BelowLeast, 20, any(attempt)),
            (Kind::ShortTake, 20, any(|slot| closing(slot) && can_be_cut(slot))),
            (Kind::HeldPanic, 10, any(|slot| pending(slot) && slot.hold == 0)),
            (Kind::JobOpen, 8, any(|slot| slot.job.is_some())),
            (Kind::SetAside, 8, any(|slot| slot.job.is_some())),
            (Kind::TooLong, 10, any(|slot| slot.state == State::Connected && slot.peer_mtu == 65_535)),
            (Kind::ZeroGrant, 60, any(grants_none)),
        ];
        let taken = rare.into_iter().find(|(_, percent, allowed)| *allowed && self.rng.chance(*percent));
        let kind = taken.map_or_else(|| self.rng.pick(&Kind::ALL), |(kind, ..)| kind);
        // Every table allows these: they would be made each time that another one can't be.
        let always = [Kind::SpsmIgnored, Kind::SlotPanic, Kind::LocalMtu, Kind::OpenedOrder, Kind::OpenedPanic, Kind::NoPacket];
        if always.contains(&kind) && self.rng.chance(50) {
            return None;
        }
        match kind {
            Kind::SpsmIgnored => Some(Call::Register { spsm: self.rng.pick(&[0, 256, 0x8000, 65_535]) }),
            Kind::SlotPanic => Some(Call::AddHold { slot: self.n }),
            Kind::HeldPanic => self.held_wrong(view),
            Kind::AcceptUnheld => {
                let slot = self.one_of(view, |slot| pending(slot) && slot.hold == 0)?;
                Some(Call::Accept { slot, config: Config::default() })
            }
            Kind::LocalMtu => {
                let config = Config { mtu: Some(self.rng.pick(&[self.m - 5, self.m, 65_535])), ..Config::default() };
                match self.one_of(view, pending) {
                    Some(slot) if self.rng.chance(50) => Some(Call::Accept { slot, config }),
                    _ => Some(Call::Create { link: self.a_link(), spsm: 128, config }),
                }
            }
            Kind::DropElsewhere => {
                let slot = self.one_of(view, |slot| !pending(slot) && slot.state != State::Connected)?;
                Some(Call::DropPending { slot })
            }
            Kind::OpenedOrder | Kind::OpenedPanic => {
                let slot = self.rng.below(view.slots.len()) as u16;
                Some(Call::Opened { slot, link: self.a_link(), up: self.rng.chance(50) })
            }
            Kind::GiveUpAnything => {
                let slot = self.one_of(view, |slot| !matches!(slot.state, State::Connecting(_) | State::ConnectFailed(_)))?;
                Some(Call::GiveUp { slot })
            }
            Kind::FrameAnyLink => {
                // Without a credit the original counts it as blocked.
                let blocked = self.one_of(view, |slot| slot.state == State::Connected && slot.credits == 0).filter(|_| self.rng.chance(50));
                let slot = blocked.or_else(|| self.one_of(view, |slot| slot.state == State::Connected))?;
                Some(Call::Frame { link: self.a_link(), cid: BASE_ID + slot, payload: vec![1, 0, 7] })
            }
            Kind::ShortFrame => self.first(view, |this, _| {
                let count = this.rng.below(2);
                this.rng.octets(count)
            }),
            Kind::LongerThanLength => self.first(view, |this, mtu| {
                let length = this.rng.below(usize::from(mtu.min(20)) + 1);
                let carried = (length + this.rng.between(1, 3)).min(usize::from(this.m) - 2);
                let octets = this.rng.octets(carried);
                [&(length as u16).to_le_bytes()[..], &octets].concat()
            }),
            Kind::LongFrame => {
                let slot = self.one_of(view, |slot| slot.state == State::Connected && slot.peer_mps > view.m - 4)?;
                let length = usize::from(view.slots[usize::from(slot)].peer_mtu).min(usize::from(self.m) + 40);
                Some(Call::Send { slot, sdu: self.rng.octets(length) })
            }
            Kind::TooLong => {
                let slot = self.one_of(view, |slot| slot.state == State::Connected && slot.peer_mtu == 65_535)?;
                // Such a line has 131,072 digits: a few are enough.
                if !self.rng.chance(20) {
                    return None;
                }
                let length = self.rng.between(65_534, 65_535);
                Some(Call::Send { slot, sdu: self.rng.octets(length) })
            }
            Kind::TakeWhileClosing => {
                let slot = self.one_of(view, closing)?;
                Some(Call::Take { slot, size: self.buffer_for(&view.slots[usize::from(slot)]) })
            }
            Kind::ZeroGrant => {
                let slot = self.one_of(view, grants_none)?;
                Some(Call::Take { slot, size: 1_024 })
            }
            Kind::ClosedHit | Kind::DisconnectAnyLink => {
                let slot = self.rng.below(view.slots.len()) as u16;
                let dcid = if self.rng.chance(30) { 0 } else { BASE_ID + slot };
                let link = self.a_link();
                self.signal_line(|this| Some((link, this.disconnect(0x06, dcid, 0x40))))
            }
            Kind::ResponseAnyLink => {
                let slot = self.one_of(view, |slot| matches!(slot.state, State::Disconnecting { .. }))?;
                let link = self.a_link();
                self.signal_line(|this| Some((link, this.disconnect(0x07, 0x40, BASE_ID + slot))))
            }
            Kind::NoPacket => {
                let slot = self.rng.below(view.slots.len()) as u16;
                let (link, length) = (self.link_of(view, slot), usize::from(self.m) + self.rng.between(1, 9));
                Some(Call::Frame { link, cid: BASE_ID + slot, payload: self.rng.octets(length) })
            }
            Kind::JobOpen => {
                let slot = self.one_of(view, |slot| slot.job.is_some())?;
                let length = self.rng.pick(&[0, 1, 21, 22, 100]);
                Some(if self.rng.chance(50) {
                    Call::Send { slot, sdu: self.rng.octets(length) }
                } else {
                    Call::Start { slot, length: length as u16, size: self.rng.pick(&[5, 64, 4_096]) }
                })
            }
            Kind::SetAside => {
                let slot = self.one_of(view, |slot| slot.job.is_some())?;
                let record = &view.slots[usize::from(slot)];
                let (link, cid, aside) = (record.link, record.peer_cid, record.job.map_or(0, |job| job.aside));
                let given = (65_536 - u32::from(record.peer_credits)).saturating_sub(self.rng.between(1, aside.into()) as u32);
                self.signal_line(|this| Some((link, this.credits_for(cid, given as u16))))
            }
            Kind::LateCancel => Some(Call::Cancel { slot: self.one_of(view, late)? }),
            Kind::BelowLeast => self.small_opening(view),
            Kind::LongerThanMps => self.longer_than_mps(view),
            Kind::ShortTake => {
                let closing = self.one_of(view, |slot| closing(slot) && can_be_cut(slot));
                let slot = closing.or_else(|| self.one_of(view, can_be_cut))?;
                let job = view.slots[usize::from(slot)].jobs[0];
                Some(Call::Take { slot, size: self.rng.pick(&[0, job / 2, job - 1, job - 1]) })
            }
            Kind::TalliesLeft => Some(Call::Tallies { slot: self.one_of(view, SlotView::free)? }),
            Kind::NumbersLeft | Kind::JobsLeft | Kind::AssemblyLeft => {
                let slot = self.one_of(view, SlotView::free)?;
                Some(if self.rng.chance(50) { Call::Queries { slot } } else { Call::Room { slot } })
            }
        }
    }

    /// A hold count that the step can't use.
    fn held_wrong(&mut self, view: &View) -> Option<Call> {
        match self.rng.below(5) {
            0 => {
                let slot = self.one_of(view, |slot| pending(slot) && slot.hold > 0)?;
                Some(Call::NextPending { link: view.slots[usize::from(slot)].link, up: true })
            }
            1 => {
                let slot = self.one_of(view, |slot| pending(slot) && slot.hold == 0)?;
                Some(if self.rng.chance(50) {
                    Call::DropPending { slot }
                } else {
                    Call::Reject { slot, result: numbers::result(&mut self.rng) }
                })
            }
            2 => Some(Call::Release { slot: self.one_of(view, |slot| slot.hold == 0)? }),
            3 => Some(Call::AddHold { slot: self.one_of(view, |slot| slot.hold == 255)? }),
            _ => {
                let slot = self.one_of(view, |slot| slot.state == State::Connected && slot.hold > 0)?;
                Some(Call::Opened { slot, link: view.slots[usize::from(slot)].link, up: true })
            }
        }
    }

    /// A request or a response with sizes below 23. Of the requests some name a CID that is in use.
    fn small_opening(&mut self, view: &View) -> Option<Call> {
        let sizes = numbers::small_sizes(&mut self.rng, self.m);
        if let Some(slot) = self.one_of(view, attempt).filter(|_| self.rng.chance(80)) {
            return self.signal_line(|this| Some(this.response_to(view, slot, sizes)));
        }
        let used = self.one_of(view, |slot| !slot.free()).filter(|_| self.rng.chance(30));
        let (link, cid) = match used.map(|slot| &view.slots[usize::from(slot)]) {
            Some(record) => (record.link, record.peer_cid),
            None => (self.a_link(), numbers::peer_cid(&mut self.rng)),
        };
        self.signal_line(|this| {
            let spsm = numbers::spsm(&mut this.rng);
            Some((link, this.request(spsm, cid, sizes)))
        })
    }

    /// A frame a little longer than our MPS, where that decides; else what leads to one.
    fn longer_than_mps(&mut self, view: &View) -> Option<Call> {
        let more = self.rng.pick(&[1, 1, 1, 2, 3]);
        let full = |slot: &SlotView| slot.jobs.len() == usize::from(view.d);
        let at_full = self.one_of(view, |slot| mps_decides(slot, more) && full(slot));
        let Some(slot) = at_full.or_else(|| self.one_of(view, |slot| mps_decides(slot, more))) else {
            return self.small_channel(view);
        };
        let record = &view.slots[usize::from(slot)];
        let payload = match (record.want, record.mps) {
            // A job that a longer frame can join, and jobs that fill the queue.
            (0, mps @ 2..) if record.jobs.is_empty() && self.rng.chance(40) => self.first_of(record.mtu, mps),
            (0, 2..) if !full(record) && self.rng.chance(if record.jobs.is_empty() { 40 } else { 80 }) => vec![0, 0],
            (0, 0) => self.rng.octets(1),
            // The whole of a job, or the start of one.
            (0, mps) => {
                let length = self.rng.pick(&[mps + more - 2, mps + more - 2, record.mtu]);
                self.first_of(length, mps + more)
            }
            (_, mps) => self.rng.octets((mps + more).into()),
        };
        Some(Call::Frame { link: record.link, cid: BASE_ID + slot, payload })
    }

    /// So many octets that open a job of a length.
    fn first_of(&mut self, length: u16, octets: u16) -> Vec<u8> {
        let job = self.rng.octets(usize::from(octets) - 2);
        [&length.to_le_bytes()[..], &job].concat()
    }

    /// Opens a channel with a small MPS of ours, where a peer waits for one.
    fn small_channel(&mut self, view: &View) -> Option<Call> {
        let slot = self.one_of(view, |slot| pending(slot) && slot.hold > 0)?;
        let mps = self.rng.pick(&[0, 0, 1, 2, 3, 7, 22]);
        Some(Call::Accept { slot, config: Config { mps: Some(mps), credits: Some(20), ..Config::default() } })
    }

    /// A first frame for an idle channel that has a credit.
    fn first(&mut self, view: &View, payload: impl FnOnce(&mut Self, u16) -> Vec<u8>) -> Option<Call> {
        let slot = self.one_of(view, |slot| slot.state == State::Connected && slot.credits > 0 && slot.want == 0)?;
        let record = &view.slots[usize::from(slot)];
        Some(Call::Frame { link: record.link, cid: BASE_ID + slot, payload: payload(self, record.mtu) })
    }

    fn one_of(&mut self, view: &View, test: impl Fn(&SlotView) -> bool) -> Option<u16> {
        let fit: Vec<u16> = (0..view.n()).filter(|slot| test(&view.slots[usize::from(*slot)])).collect();
        if fit.is_empty() {
            None
        } else {
            Some(self.rng.pick(&fit))
        }
    }
}

/// A frame so much longer than our MPS may be the first of a job that our MTU allows, or go on with a job and not end past it.
fn mps_decides(slot: &SlotView, more: u16) -> bool {
    let longer = slot.mps + more;
    let allowed = if slot.want > 0 { slot.have + longer <= slot.want } else { longer <= slot.mtu + 2 };
    slot.state == State::Connected && slot.credits > 0 && allowed
}

/// A job whose first frame is out.
fn late(slot: &SlotView) -> bool {
    slot.job.is_some_and(|job| job.taken + 2 != job.filled)
}

fn attempt(slot: &SlotView) -> bool {
    matches!(slot.state, State::Connecting(_))
}

fn pending(slot: &SlotView) -> bool {
    matches!(slot.state, State::PeerConnecting(_))
}

/// A job waits whose take the original would answer with a grant of 0 credits.
fn grants_none(slot: &SlotView) -> bool {
    slot.state == State::Connected && !slot.jobs.is_empty() && slot.received == 0 && grants(slot)
}

/// A job waits that a buffer can be too short for.
fn can_be_cut(slot: &SlotView) -> bool {
    (closing(slot) || slot.state == State::Connected) && slot.jobs.first().is_some_and(|job| *job > 0)
}

fn closing(slot: &SlotView) -> bool {
    slot.disconnect_due() || slot.state == State::Disconnecting { announced: true }
}
