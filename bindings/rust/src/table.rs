//! The table as octets, and a look at what they say.

use crate::answer::{ChannelState, CreditFlowPolicy, Tallies};
use crate::codes::{ChannelIndex, ConnHandle, LeCreditConnResultCode, SLOTS};
use crate::slots::Slots;

/// The octets of a table, for every number of slots.
pub const TABLE_OCTETS: usize = 1_312;

const HEAD: usize = 48;
const STATE: usize = 0;
const HOLD: usize = 17;
const LINK: usize = 2;
const PEER_CID: usize = 18;
const JOB: usize = 39;
const SENT: usize = 47;
const BLOCKED_SENDS: usize = 55;
const RECEIVED: usize = 63;
const BLOCKED_RECEIVES: usize = 71;

/// The octets of room that a table needs: a place for the job that arrives and one for each that waits, in every slot. `channels` is 1 to 16,
/// `queue` 1 to 4 and `packet` 29 to 1,024; other sizes are refused by [`ChannelManager::new`](crate::ChannelManager::new).
///
/// ```
/// assert_eq!(l2cap_channels::room_octets(2, 1, 64), 232);
/// ```
pub const fn room_octets(channels: u16, queue: u16, packet: u16) -> usize {
    channels as usize * (queue as usize + 1) * (packet as usize).saturating_sub(6)
}

/// The channel table: numbers alone, no job's octets. It can be kept and compared. Octets that spell no well-formed table are refused by every
/// call, by [`Refusal::BadTable`](crate::Refusal::BadTable).
///
/// The calls read it in the archive, by proved code; what is read here, for looking at it, is not.
#[derive(Clone, Debug, PartialEq, Eq)]
pub struct Table(pub(crate) [u8; TABLE_OCTETS]);

impl Table {
    /// The table that these octets spell, if they spell one: each call says whether they do.
    pub const fn from_octets(octets: [u8; TABLE_OCTETS]) -> Self {
        Self(octets)
    }

    /// The octets.
    pub const fn octets(&self) -> &[u8; TABLE_OCTETS] {
        &self.0
    }

    fn octet(&self, place: usize) -> u8 {
        self.0.get(place).copied().unwrap_or(0)
    }

    /// The number of slots; 0 in the table that a refused making leaves.
    pub fn channels(&self) -> u8 {
        self.octet(1)
    }

    /// How many finished jobs can wait in a slot.
    pub fn queue(&self) -> u8 {
        self.octet(2)
    }

    /// The packet size.
    pub fn packet(&self) -> u16 {
        u16::from_le_bytes([self.octet(3), self.octet(4)])
    }

    /// The identifier of our next request.
    pub fn identifier(&self) -> u8 {
        self.octet(5)
    }

    /// The slots that are closed but still held. No channel gets them before [`dec_ref`](crate::ChannelManager::dec_ref) ends their holds: none where
    /// nothing was forgotten.
    pub fn held(&self) -> Slots {
        let closed = |index: u8| self.cell(index, STATE) == 0 && self.cell(index, HOLD) != 0;
        Slots::from_bits((0..self.channels().min(SLOTS)).filter(|index| closed(*index)).fold(0, |set, index| set | 1 << index))
    }

    /// How many hold a slot.
    pub(crate) fn holds(&self, index: ChannelIndex) -> u8 {
        self.cell(index.0, HOLD)
    }

    /// An octet of a slot's row.
    fn cell(&self, index: u8, column: usize) -> u8 {
        self.octet(HEAD + usize::from(SLOTS) * column + usize::from(index))
    }

    /// A number of a slot's row.
    fn number(&self, index: u8, column: usize) -> u16 {
        u16::from_le_bytes([self.cell(index, column), self.cell(index, column + 1)])
    }

    /// A tally of a slot's row: eight columns.
    fn tally(&self, index: u8, column: usize) -> u64 {
        (0..8).rev().fold(0, |tally, place| tally << 8 | u64::from(self.cell(index, column + place)))
    }

    /// The job that is open in a slot: one is while credits are set aside for it.
    fn job(&self, index: u8) -> Option<JobNumbers> {
        let number = |place: usize| self.number(index, JOB + 2 * place);
        let job = JobNumbers { length: number(0), taken: number(1), filled: number(2), aside: number(3) };
        Some(job).filter(|job| job.aside != 0)
    }

    /// Where a slot's open job stands.
    pub(crate) fn standing(&self, index: ChannelIndex) -> Option<Standing> {
        let (handle, peer_cid) = (self.number(index.0, LINK), self.number(index.0, PEER_CID));
        let job = self.job(index.0).filter(|_| index.0 < SLOTS)?;
        Some(Standing { handle, peer_cid, job })
    }

    /// What one slot holds. None where the table has no such slot, and where octets that no call wrote spell a failed attempt with a result of no
    /// name: every call refuses such a table, by [`Refusal::BadTable`](crate::Refusal::BadTable).
    pub fn slot(&self, index: ChannelIndex) -> Option<Slot> {
        if index.0 >= self.channels() || index.0 >= SLOTS {
            return None;
        }
        let octet = |column: usize| self.cell(index.0, column);
        let number = |column: usize| self.number(index.0, column);
        let state = match (octet(STATE), octet(1)) {
            (1, identifier) => ChannelState::Connecting(identifier),
            (2, identifier) => ChannelState::PeerConnecting(identifier),
            (3, _) => ChannelState::Connected,
            (4, result) => ChannelState::ConnectFailed(LeCreditConnResultCode::from_number(result.into())?),
            (5, identifier) => ChannelState::PeerDisconnecting(identifier),
            (6, announced) => ChannelState::Disconnecting(announced == 1),
            _ => ChannelState::Disconnected,
        };
        let policy = if octet(10) == 1 { CreditFlowPolicy::MinThreshold(number(11)) } else { CreditFlowPolicy::Every(number(11)) };
        Some(Slot {
            state,
            handle: ConnHandle(number(LINK)),
            spsm: number(4),
            mps: number(6),
            mtu: number(8),
            flow_policy: policy,
            credits: number(13),
            received: number(15),
            hold: octet(HOLD),
            peer_cid: number(PEER_CID),
            peer_mps: number(20),
            peer_mtu: number(22),
            peer_credits: number(24),
            have: number(26),
            want: number(28),
            waiting: octet(30),
            lens: [number(31), number(33), number(35), number(37)],
            job: self.job(index.0),
            tallies: Tallies {
                sent: self.tally(index.0, SENT),
                received: self.tally(index.0, RECEIVED),
                blocked_sends: self.tally(index.0, BLOCKED_SENDS),
                blocked_receives: self.tally(index.0, BLOCKED_RECEIVES),
            },
        })
    }
}

/// What one slot holds. One that is closed has zeros but for its hold; it is free where that is 0 too.
#[derive(Clone, Copy, Debug, PartialEq, Eq)]
pub struct Slot {
    /// The state.
    pub state: ChannelState,
    /// The link, until the slot is closed.
    pub handle: ConnHandle,
    /// The channel's SPSM.
    pub spsm: u16,
    /// Our MPS: the longest frame payload that we take.
    pub mps: u16,
    /// Our MTU.
    pub mtu: u16,
    /// How the peer gets new credits.
    pub flow_policy: CreditFlowPolicy,
    /// The credits that the peer still has.
    pub credits: u16,
    /// The frames that came since the last grant.
    pub received: u16,
    /// How many hold the slot.
    pub hold: u8,
    /// The peer's CID.
    pub peer_cid: u16,
    /// The peer's MPS.
    pub peer_mps: u16,
    /// The peer's MTU.
    pub peer_mtu: u16,
    /// The credits that we still have, without those set aside for an open job.
    pub peer_credits: u16,
    /// The octets so far of the job that arrives.
    pub have: u16,
    /// The octets in all of the job that arrives; 0 where none does.
    pub want: u16,
    /// The number of finished jobs that wait.
    pub waiting: u8,
    /// Their lengths, oldest first, then zeros.
    pub lens: [u16; 4],
    /// The job of ours that is being handed over in portions.
    pub job: Option<JobNumbers>,
    /// Frames sent and received, and sends and frames that were refused for want of credits.
    pub tallies: Tallies,
}

/// The numbers of a job that is handed over in portions. Its octets stand in the buffer that its caller lends.
#[derive(Clone, Copy, Debug, PartialEq, Eq)]
pub struct JobNumbers {
    /// The octets that were stated.
    pub length: u16,
    /// Those that were taken so far.
    pub taken: u16,
    /// The octets in the payload of the frame that is being filled; of the first frame the job's length, two octets, counts.
    pub filled: u16,
    /// The credits set aside, one for each frame to come.
    pub aside: u16,
}

/// Whose an open job is, and how far it came: what tells it from another that its slot could have.
#[derive(Clone, Copy, Debug, PartialEq, Eq)]
pub(crate) struct Standing {
    handle: u16,
    peer_cid: u16,
    pub(crate) job: JobNumbers,
}
