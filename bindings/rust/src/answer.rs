//! What the calls answer: the sixteen octets that an entry writes, and the types that a caller reads.

use crate::codes::{ChannelIndex, ConnHandle, LeCreditConnResultCode, Refusal};
use crate::slots::Slots;

/// The octets of an answer: a run is lent so many for each of its frames or jobs.
pub const ANSWER_OCTETS: usize = 16;

const AT: u8 = 2;
const OPENED: u8 = 4;
const DUE: u8 = 5;
const JOB: u8 = 7;
const EVENT: u8 = 10;

/// An answer's numbers: octet 0 is its kind, octet 1 the refusal, 2 to 5 how many octets were written, then four numbers; the lower octet is
/// first in each.
pub(crate) struct Answer(pub(crate) [u8; ANSWER_OCTETS]);

impl Answer {
    fn number(&self, place: usize) -> u16 {
        let octet = |k: usize| self.0.get(k).copied().unwrap_or(0);
        u16::from_le_bytes([octet(6 + 2 * place), octet(7 + 2 * place)])
    }

    /// The first number.
    pub(crate) fn first(&self) -> u16 {
        self.number(0)
    }

    /// All four numbers as one of 64 bits, the lowest first: a tally.
    pub(crate) fn tally(&self) -> u64 {
        (0..4).rev().fold(0, |tally, place| tally << 16 | u64::from(self.number(place)))
    }

    pub(crate) fn is_opened(&self) -> bool {
        self.0[0] == OPENED
    }

    pub(crate) fn handle(&self) -> ConnHandle {
        ConnHandle(self.number(0))
    }

    /// Why there is none, where the call was refused.
    pub(crate) fn refusal(&self) -> Option<Refusal> {
        match self.0[1] {
            0 => None,
            number => Some(Refusal::told(number.into(), self.first())),
        }
    }

    /// The octets that were written at the start of `buffer`.
    pub(crate) fn written<'b>(&self, buffer: &'b [u8]) -> &'b [u8] {
        let count = u32::from_le_bytes([self.0[2], self.0[3], self.0[4], self.0[5]]);
        buffer.get(..count as usize).unwrap_or(&[])
    }

    /// Of a run: how many calls were made, and how many of its octets they took.
    pub(crate) fn ran(&self) -> (usize, usize) {
        let number = |low: u16, high: u16| (usize::from(high) << 16) | usize::from(low);
        (number(self.number(0), self.number(1)), number(self.number(2), self.number(3)))
    }

    /// The slot, where the answer has one.
    pub(crate) fn slot(&self) -> Option<ChannelIndex> {
        match self.0[0] {
            AT => Some(ChannelIndex(self.number(0) as u8)),
            _ => None,
        }
    }

    /// The link and slot of a disconnect that was written.
    pub(crate) fn due<'b>(&self, buffer: &'b [u8]) -> Option<ChannelSignal<'b>> {
        match self.0[0] {
            DUE => Some(ChannelSignal { index: ChannelIndex(self.number(1) as u8), handle: self.handle(), octets: self.written(buffer) }),
            _ => None,
        }
    }

    /// The signal that goes out on a given link for the slot that the answer names.
    pub(crate) fn at<'b>(&self, handle: ConnHandle, buffer: &'b [u8]) -> Option<ChannelSignal<'b>> {
        self.slot().map(|index| ChannelSignal { index, handle, octets: self.written(buffer) })
    }

    pub(crate) fn outgoing<'b>(&self, buffer: &'b [u8]) -> Outgoing<'b> {
        Outgoing { handle: self.handle(), octets: self.written(buffer) }
    }

    pub(crate) fn frames<'b>(&self, out: &'b [u8]) -> Frames<'b> {
        Frames { handle: self.handle(), count: self.number(1), octets: self.written(out) }
    }

    /// What a portion came to; `done` where no job is open in its slot any more.
    pub(crate) fn given<'b>(&self, buffer: &'b [u8], done: bool) -> Given<'b> {
        let frame = (self.number(2) != 0).then(|| self.written(buffer));
        Given { handle: self.handle(), taken: self.number(1).into(), frame, done }
    }

    /// The job that was taken. The call gives one only where the buffer holds it, and nothing is tested here: `get` is what can't panic.
    pub(crate) fn job<'j, 'b>(&self, job: &'j [u8], signal: &'b [u8]) -> Option<Received<'j, 'b>> {
        match self.0[0] {
            JOB => Some(Received {
                handle: self.handle(),
                sdu: job.get(..usize::from(self.number(1))).unwrap_or(&[]),
                credits: self.written(signal),
            }),
            _ => None,
        }
    }

    pub(crate) fn attention(&self) -> Attention {
        let count = self.number(1) as u8;
        let lowest = if count == 0 { None } else { Some(ChannelIndex(self.number(2) as u8)) };
        Attention { set: Slots::from_bits(self.number(0)), count, lowest }
    }

    pub(crate) fn event(&self) -> Option<ConnParamUpdateReq> {
        match self.0[0] {
            EVENT => Some(ConnParamUpdateReq {
                interval_min: self.number(0),
                interval_max: self.number(1),
                latency: self.number(2),
                timeout: self.number(3),
            }),
            _ => None,
        }
    }
}

/// A signal to be sent on a link: it starts with its L2CAP header.
#[derive(Clone, Copy, Debug, PartialEq, Eq)]
pub struct Outgoing<'b> {
    /// The link on which it goes out.
    pub handle: ConnHandle,
    /// What is sent.
    pub octets: &'b [u8],
}

/// A signal to be sent for a slot that the call chose.
#[derive(Clone, Copy, Debug, PartialEq, Eq)]
pub struct ChannelSignal<'b> {
    /// The slot.
    pub index: ChannelIndex,
    /// The link on which the signal goes out.
    pub handle: ConnHandle,
    /// What is sent, with its L2CAP header.
    pub octets: &'b [u8],
}

/// What one signal of a PDU came to.
#[derive(Clone, Copy, Debug, PartialEq, Eq)]
pub struct Signalled<'p, 'b> {
    /// The peer's wish for other connection parameters, where it has a valid one; nothing more where the signal was handled; or why it was
    /// refused. A refusal can have a reply too.
    pub outcome: Result<Option<ConnParamUpdateReq>, Refusal>,
    /// What goes back on the link, with its L2CAP header; empty where nothing does.
    pub reply: &'b [u8],
    /// The PDU from the next signal's header on; empty at its end, and where its headers are bad.
    pub rest: &'p [u8],
}

/// Connection parameters that a peer asks for, or that we ask for.
#[derive(Clone, Copy, Debug, PartialEq, Eq)]
pub struct ConnParamUpdateReq {
    /// The shortest interval, in 1.25 ms.
    pub interval_min: u16,
    /// The longest interval, in 1.25 ms.
    pub interval_max: u16,
    /// Connection events that the peripheral may skip.
    pub latency: u16,
    /// The supervision timeout, in 10 ms.
    pub timeout: u16,
}

/// A job's frames, one behind the other.
#[derive(Clone, Copy, Debug, PartialEq, Eq)]
pub struct Frames<'b> {
    /// The link on which they go out.
    pub handle: ConnHandle,
    /// How many they are: the credits that the job took.
    pub count: u16,
    /// All of them, each with its L2CAP header.
    pub octets: &'b [u8],
}

impl<'b> Frames<'b> {
    /// Each frame by itself, in the order in which they are sent.
    pub fn iter(&self) -> FrameIter<'b> {
        FrameIter { octets: self.octets }
    }
}

impl<'b> IntoIterator for Frames<'b> {
    type Item = &'b [u8];
    type IntoIter = FrameIter<'b>;

    fn into_iter(self) -> FrameIter<'b> {
        self.iter()
    }
}

/// The frames of a job, each with its L2CAP header. See [`Frames::iter`].
#[derive(Clone, Debug)]
pub struct FrameIter<'b> {
    octets: &'b [u8],
}

impl<'b> Iterator for FrameIter<'b> {
    type Item = &'b [u8];

    fn next(&mut self) -> Option<&'b [u8]> {
        let length = u16::from_le_bytes([*self.octets.first()?, *self.octets.get(1)?]);
        let end = 4 + usize::from(length);
        let frame = self.octets.get(..end)?;
        self.octets = self.octets.get(end..)?;
        Some(frame)
    }
}

/// What a portion of a job came to.
#[derive(Clone, Copy, Debug, PartialEq, Eq)]
#[must_use = "a frame that isn't sent is lost, and octets that weren't taken have to be given again"]
pub struct Given<'b> {
    /// The link on which the frame goes out.
    pub handle: ConnHandle,
    /// How many of the octets were taken, from the first on: up to where the frame was full.
    pub taken: usize,
    /// The frame that is full, with its L2CAP header; none where it still lacks octets.
    pub frame: Option<&'b [u8]>,
    /// Whether that was the job's last frame: the job is closed.
    pub done: bool,
}

/// A job that was taken, whole.
#[derive(Clone, Copy, Debug, PartialEq, Eq)]
pub struct Received<'j, 'b> {
    /// The link that it came on, and on which the credits go out.
    pub handle: ConnHandle,
    /// The job: the start of the lent buffer.
    pub sdu: &'j [u8],
    /// The signal that grants the peer new credits, with its L2CAP header; empty where none are due.
    pub credits: &'b [u8],
}

/// The slots that call for something: a job waits, a disconnect is due, or an attempt of ours has failed.
#[derive(Clone, Copy, Debug, PartialEq, Eq)]
pub struct Attention {
    /// These slots: `for index in attention.set`.
    pub set: Slots,
    /// How many slots call.
    pub count: u8,
    /// The lowest of them.
    pub lowest: Option<ChannelIndex>,
}

/// What a channel came to since it was opened, for a service screen: see [`tallies`](crate::ChannelManager::tallies). Each number wraps at 64 bits.
#[derive(Clone, Copy, Debug, Default, PartialEq, Eq)]
pub struct Tallies {
    /// The frames that were sent: those of each [`send`](crate::ChannelManager::send) that wasn't refused, and of each job in portions all of its frames from its
    /// [`start_job`](crate::ChannelManager::start_job) on, cancelled later or not.
    pub sent: u64,
    /// The frames that came and used a credit of the peer's; also one whose job was dropped because the queue was full (21).
    pub received: u64,
    /// The sends and starts that were refused by [`Busy`](Refusal::Busy) (14): one each, however many frames they have.
    pub blocked_sends: u64,
    /// The frames that were refused by [`OutOfMemory`](Refusal::OutOfMemory) (10), since the peer had no credit.
    pub blocked_receives: u64,
}

/// When a take grants the peer new credits: then as many as frames came since the last grant, so that the peer has all that it started with.
#[derive(Clone, Copy, Debug, PartialEq, Eq)]
pub enum CreditFlowPolicy {
    /// Once that many frames came since the last grant. 0 is as 1: no grant is of 0 credits.
    Every(u16),
    /// Once the peer holds fewer credits than that. 0 never grants.
    MinThreshold(u16),
}

impl Default for CreditFlowPolicy {
    fn default() -> Self {
        Self::Every(1)
    }
}

/// Configuration for an L2CAP channel.
///
/// A frame uses a credit, and credits go back to the peer with a take alone ([`receive`](crate::ChannelManager::receive)): a job that needs more frames
/// than the peer has credits is never finished, nothing is ever there to take, and the channel sticks until somebody closes it. An MPS of 23 with one
/// credit and one waiting job is such a configuration. [`checked`](Self::checked) refuses those, and [`least_credits`](crate::least_credits) gives the
/// rule; by the defaults the longest job is one frame, for a peer that fills its frames, and nothing sticks.
///
/// An MTU or MPS under [`SIZE_LEAST`](crate::SIZE_LEAST) is written as it is asked for; the defaults are never less. But a peer that keeps to Core, and this manager
/// is one, refuses such a request by [`UnacceptableParameters`](LeCreditConnResultCode::UnacceptableParameters), and disconnects a channel that is accepted so.
/// [`checked`](Self::checked) refuses those too.
#[derive(Clone, Copy, Debug, Default, PartialEq, Eq)]
pub struct L2capChannelConfig {
    /// The longest job that we take. Defaults to the packet size less 6.
    pub mtu: Option<u16>,
    /// The longest frame payload that we take: a longer one ends the channel ([`dispatch`](crate::ChannelManager::dispatch), 9). Defaults to the packet size
    /// less 4.
    pub mps: Option<u16>,
    /// How the peer gets new credits.
    pub flow_policy: CreditFlowPolicy,
    /// The credits that the peer starts with. Defaults to the number of jobs that can wait in a slot.
    pub initial_credits: Option<u16>,
}

/// A setting above 65,535 is the default.
const DEFAULT: u32 = u32::MAX;

impl L2capChannelConfig {
    /// As a configuration crosses: MTU, MPS, the policy's kind and its number, credits.
    pub(crate) fn numbers(&self) -> (u32, u32, u8, u16, u32) {
        let setting = |number: Option<u16>| number.map_or(DEFAULT, u32::from);
        let (kind, value) = match self.flow_policy {
            CreditFlowPolicy::Every(k) => (0, k),
            CreditFlowPolicy::MinThreshold(t) => (1, t),
        };
        (setting(self.mtu), setting(self.mps), kind, value, setting(self.initial_credits))
    }
}

/// A slot's state.
#[derive(Clone, Copy, Debug, PartialEq, Eq)]
pub enum ChannelState {
    /// Closed. The slot is free where nobody holds it, too.
    Disconnected,
    /// Our connect request with this identifier is out.
    Connecting(u8),
    /// The peer's connect request with this identifier waits for an answer.
    PeerConnecting(u8),
    /// Open.
    Connected,
    /// The peer refused our request.
    ConnectFailed(LeCreditConnResultCode),
    /// The peer's disconnect request with this identifier waits for its response.
    PeerDisconnecting(u8),
    /// We disconnect; true once the request was written.
    Disconnecting(bool),
}
