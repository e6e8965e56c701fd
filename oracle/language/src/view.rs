//! The view of a table: what `V` prints.

use crate::call::{number, Policy};
use crate::BASE_ID;
use std::fmt;

#[derive(Clone, Copy, Debug, PartialEq, Eq)]
pub enum State {
    Disconnected,
    Connecting(u8),
    PeerConnecting(u8),
    Connected,
    ConnectFailed(u16),
    PeerDisconnecting(u8),
    Disconnecting { announced: bool },
}

/// What of a slot's record is the last owner's, because a free of the original set the state and nothing else. The port has no such
/// records.
#[derive(Clone, Copy, Debug, Default, PartialEq, Eq)]
pub enum Stale {
    #[default]
    Nothing,
    /// Disconnected: link, CID and every number still stand.
    All,
    /// Taken by a peer's request since: our MPS and MTU and the credit account still stand, until an accept writes them.
    Ours,
    /// Taken by an attempt of our own since: the peer's MPS, MTU and credits still stand, until a response writes them.
    Peers,
}

/// A job that is handed over in portions: the octets stated and taken, those in the payload of the frame that is being filled (the job's length, two octets,
/// counts), and the credits set aside.
#[derive(Clone, Copy, Debug, PartialEq, Eq)]
pub struct JobView {
    pub length: u16,
    pub taken: u16,
    pub filled: u16,
    pub aside: u16,
}

/// What was counted of a slot's channel (document 02): frames sent and received, sends and frames refused for want of credits.
#[derive(Clone, Copy, Debug, Default, PartialEq, Eq)]
pub struct Tallies {
    pub sent: u64,
    pub received: u64,
    pub blocked_sends: u64,
    pub blocked_receives: u64,
}

/// A slot's record. `V` prints all of it but `job`, `stale`, `tallies` and `inherited`.
#[derive(Clone, Debug, PartialEq, Eq)]
pub struct SlotView {
    pub state: State,
    pub link: u16,
    pub spsm: u16,
    pub mps: u16,
    pub mtu: u16,
    pub policy: Policy,
    pub credits: u16,
    pub received: u16,
    pub peer_cid: u16,
    pub peer_mps: u16,
    pub peer_mtu: u16,
    pub peer_credits: u16,
    pub hold: u16,
    /// The open assembly's octets so far and in all.
    pub have: u16,
    pub want: u16,
    /// The waiting jobs, oldest first.
    pub jobs: Vec<u16>,
    /// The job of ours that is open.
    pub job: Option<JobView>,
    pub stale: Stale,
    pub tallies: Tallies,
    /// What of the tallies is an earlier owner's, because a free of the original left them. The port has none such.
    pub inherited: Tallies,
}

/// The table. `spsms` is not printed.
#[derive(Clone, Debug, PartialEq, Eq)]
pub struct View {
    pub d: u16,
    pub m: u16,
    pub next_identifier: u8,
    /// The registered SPSMs: SPSM s is bit s % 8 of octet s / 8.
    pub spsms: [u8; 32],
    pub slots: Vec<SlotView>,
}

/// All that stays from call to call: the table, the room's places, slot after slot, and of each slot's buffer what was ever written, from its start on.
#[derive(Clone, Debug, PartialEq, Eq)]
pub struct Sight {
    pub view: View,
    pub room: Vec<u8>,
    pub buffers: Vec<Vec<u8>>,
}

impl View {
    /// The table of no slots.
    pub fn none() -> Self {
        Self { d: 0, m: 0, next_identifier: 1, spsms: [0; 32], slots: Vec::new() }
    }

    pub fn n(&self) -> u16 {
        self.slots.len() as u16
    }

    pub fn settled(&self) -> Self {
        Self { slots: self.slots.iter().map(SlotView::settled).collect(), ..*self }
    }

    /// The slot of a local CID.
    pub fn slot_of(&self, cid: u16) -> Option<usize> {
        let slot = usize::from(cid.checked_sub(BASE_ID)?);
        (slot < self.slots.len()).then_some(slot)
    }
}

impl Sight {
    /// The octets of a slot's places.
    pub fn places(&self, slot: usize) -> &[u8] {
        let octets = self.room.len() / self.view.slots.len();
        &self.room[slot * octets..][..octets]
    }

    pub fn places_mut(&mut self, slot: usize) -> &mut [u8] {
        let octets = self.room.len() / self.view.slots.len();
        &mut self.room[slot * octets..][..octets]
    }

    /// Table and room as document 01 has them: see `SlotView::settled` and `settle_places`.
    pub fn settled(mut self) -> Self {
        let View { d, slots, .. } = &mut self.view;
        let octets = self.room.len() / slots.len();
        for (record, places) in slots.iter_mut().zip(self.room.chunks_mut(octets)) {
            record.settle_places(places, *d);
            *record = record.settled();
        }
        self
    }
}

impl SlotView {
    pub fn fresh() -> Self {
        Self {
            state: State::Disconnected,
            link: 0,
            spsm: 0,
            mps: 0,
            mtu: 0,
            policy: Policy::Every(1),
            credits: 0,
            received: 0,
            peer_cid: 0,
            peer_mps: 0,
            peer_mtu: 0,
            peer_credits: 0,
            hold: 0,
            have: 0,
            want: 0,
            jobs: Vec::new(),
            job: None,
            stale: Stale::Nothing,
            tallies: Tallies::default(),
            inherited: Tallies::default(),
        }
    }

    pub fn free(&self) -> bool {
        self.state == State::Disconnected
    }

    /// Not free, and of this link.
    pub fn is_of(&self, link: u16) -> bool {
        !self.free() && self.link == link
    }

    /// A disconnect that the next disconnect would give.
    pub fn disconnect_due(&self) -> bool {
        matches!(self.state, State::PeerDisconnecting(_) | State::Disconnecting { announced: false })
    }

    /// The bit of the attention set.
    pub fn calls(&self) -> bool {
        !self.jobs.is_empty() || self.disconnect_due() || matches!(self.state, State::ConnectFailed(_))
    }

    /// The record as document 01 has it: freed means reset but for the holds, and an assembly ends where Connected is left. What of the
    /// original's record this drops is the differences "left behind" of the list, and no call of the original reads it. Of the tallies it leaves
    /// what was counted since the slot was freed last.
    pub fn settled(&self) -> Self {
        let mut record = match (self.state, self.stale) {
            (State::Disconnected, Stale::All) => Self { hold: self.hold, ..Self::fresh() },
            _ => self.clone(),
        };
        let fresh = Self::fresh();
        match self.stale {
            Stale::Nothing | Stale::All => {}
            Stale::Ours => {
                (record.mps, record.mtu, record.policy) = (fresh.mps, fresh.mtu, fresh.policy);
                (record.credits, record.received) = (fresh.credits, fresh.received);
            }
            Stale::Peers => {
                (record.peer_mps, record.peer_mtu, record.peer_credits) = (fresh.peer_mps, fresh.peer_mtu, fresh.peer_credits);
            }
        }
        if self.state != State::Connected {
            (record.have, record.want) = (0, 0);
        }
        if self.free() {
            record.jobs.clear();
        }
        record.stale = Stale::Nothing;
        (record.tallies, record.inherited) = (self.tallies.since(self.inherited), Tallies::default());
        record
    }

    /// Zeroes what document 01 zeroes in a slot's D+1 places: all of a free slot's, and that of the assembly where the slot isn't Connected.
    pub fn settle_places(&self, places: &mut [u8], d: u16) {
        let place = places.len() / (usize::from(d) + 1);
        if self.free() {
            places.fill(0);
        } else if self.state != State::Connected {
            places[..place].fill(0);
        }
    }

    /// The slot that a line of a view shows, where it is this slot's line.
    pub fn parse(line: &str, slot: usize) -> Option<Self> {
        let mut words = line.split(' ');
        let mut next = || words.next();
        let is = |word: Option<&str>, value: usize| word.and_then(number).is_some_and(|number| usize::from(number) == value);
        if next() != Some("=") || !is(next(), slot) {
            return None;
        }
        let state = State::parse(next()?)?;
        let link = number(next()?)?;
        if !is(next(), usize::from(BASE_ID) + slot) {
            return None;
        }
        let mut record = Self {
            state,
            link,
            spsm: number(next()?)?,
            mps: number(next()?)?,
            mtu: number(next()?)?,
            policy: Policy::parse(next()?)?,
            credits: number(next()?)?,
            received: number(next()?)?,
            peer_cid: number(next()?)?,
            peer_mps: number(next()?)?,
            peer_mtu: number(next()?)?,
            peer_credits: number(next()?)?,
            hold: number(next()?)?,
            have: number(next()?)?,
            want: number(next()?)?,
            jobs: Vec::new(),
            job: None,
            stale: Stale::Nothing,
            tallies: Tallies::default(),
            inherited: Tallies::default(),
        };
        let queued = number(next()?)?;
        record.jobs = words.map(number).collect::<Option<_>>()?;
        (record.jobs.len() == usize::from(queued)).then_some(record)
    }

    /// The slot's line of a view.
    pub fn line(&self, slot: usize) -> String {
        let mut line = format!(
            "= {slot} {} {} {} {} {} {} {} {} {} {} {} {} {} {} {} {} {}",
            self.state,
            self.link,
            usize::from(BASE_ID) + slot,
            self.spsm,
            self.mps,
            self.mtu,
            self.policy,
            self.credits,
            self.received,
            self.peer_cid,
            self.peer_mps,
            self.peer_mtu,
            self.peer_credits,
            self.hold,
            self.have,
            self.want,
            self.jobs.len(),
        );
        for job in &self.jobs {
            line.push_str(&format!(" {job}"));
        }
        line
    }
}

impl Tallies {
    /// All four at one number.
    pub fn all(number: u64) -> Self {
        Self { sent: number, received: number, blocked_sends: number, blocked_receives: number }
    }

    /// As `t` prints them.
    pub fn numbers(self) -> [u64; 4] {
        [self.sent, self.received, self.blocked_sends, self.blocked_receives]
    }

    /// What was counted since others stood there.
    pub fn since(self, before: Self) -> Self {
        Self {
            sent: self.sent.wrapping_sub(before.sent),
            received: self.received.wrapping_sub(before.received),
            blocked_sends: self.blocked_sends.wrapping_sub(before.blocked_sends),
            blocked_receives: self.blocked_receives.wrapping_sub(before.blocked_receives),
        }
    }
}

impl State {
    fn parse(word: &str) -> Option<Self> {
        let identifier = |word: &str| number(word).and_then(|number| u8::try_from(number).ok());
        match word.split_once(':') {
            None if word == "disconnected" => Some(State::Disconnected),
            None if word == "connected" => Some(State::Connected),
            None if word == "disconnecting" => Some(State::Disconnecting { announced: false }),
            Some(("connecting", word)) => identifier(word).map(State::Connecting),
            Some(("peer-connecting", word)) => identifier(word).map(State::PeerConnecting),
            Some(("connect-failed", word)) => number(word).map(State::ConnectFailed),
            Some(("peer-disconnecting", word)) => identifier(word).map(State::PeerDisconnecting),
            Some(("disconnecting", "announced")) => Some(State::Disconnecting { announced: true }),
            _ => None,
        }
    }
}

impl fmt::Display for State {
    fn fmt(&self, f: &mut fmt::Formatter<'_>) -> fmt::Result {
        match self {
            State::Disconnected => write!(f, "disconnected"),
            State::Connecting(identifier) => write!(f, "connecting:{identifier}"),
            State::PeerConnecting(identifier) => write!(f, "peer-connecting:{identifier}"),
            State::Connected => write!(f, "connected"),
            State::ConnectFailed(code) => write!(f, "connect-failed:{code}"),
            State::PeerDisconnecting(identifier) => write!(f, "peer-disconnecting:{identifier}"),
            State::Disconnecting { announced: false } => write!(f, "disconnecting"),
            State::Disconnecting { announced: true } => write!(f, "disconnecting:announced"),
        }
    }
}

#[cfg(test)]
mod tests {
    use super::*;

    #[test]
    fn a_slot_is_read_as_it_is_printed() {
        for line in [
            "= 2 disconnected 0 66 0 0 0 e1 0 0 0 0 0 0 0 0 0 0",
            "= 2 connecting:3 1 66 129 60 58 m2 1 0 0 0 0 0 0 0 0 0",
            "= 2 peer-connecting:255 1 66 128 0 0 e1 0 0 80 23 100 5 1 0 0 0",
            "= 2 connected 3839 66 128 60 58 e1 2 3 80 23 100 18 1 4 6 2 58 0",
            "= 2 connect-failed:4 1 66 128 60 58 e1 2 0 0 0 0 0 0 0 0 0",
            "= 2 peer-disconnecting:8 1 66 128 60 58 e1 2 0 80 23 100 5 1 0 0 0",
            "= 2 disconnecting 1 66 128 60 58 e1 2 0 80 23 100 5 1 0 0 0",
            "= 2 disconnecting:announced 1 66 128 60 58 e1 2 0 80 23 100 5 1 0 0 0",
        ] {
            assert_eq!(SlotView::parse(line, 2).map(|record| record.line(2)), Some(line.to_string()));
            assert_eq!(SlotView::parse(line, 1), None);
        }
        for line in [
            "",
            "= 2",
            "= 2 disconnected 0 65 0 0 0 e1 0 0 0 0 0 0 0 0 0 0",
            "= 2 connecting:256 1 66 129 60 58 m2 1 0 0 0 0 0 0 0 0 0",
            "= 2 open 0 66 0 0 0 e1 0 0 0 0 0 0 0 0 0 0",
            "= 2 disconnected 0 66 0 0 0 1 0 0 0 0 0 0 0 0 0 0",
            "= 2 disconnected 0 66 0 0 0 e1 0 0 0 0 0 0 0 0 0 1",
            "= 2 disconnected 0 66 0 0 0 e1 0 0 0 0 0 0 0 0 0 0 7",
        ] {
            assert_eq!(SlotView::parse(line, 2), None, "{line}");
        }
    }
}
