//! The numbers that have names: refusals, result codes, slots, CIDs and links.

use core::error::Error;
use core::fmt;

/// The CID of slot 0. A slot's CID is this and its number.
pub const CID_BASE: u16 = 0x40;

/// The most slots that a table has.
pub const SLOTS: u8 = 16;

/// The least MTU and the least MPS of a channel (Core, Vol 3 Part A, 4.22 and 4.23).
///
/// A peer is held to it: its connect request with less is told [`UnacceptableParameters`](LeCreditConnResultCode::UnacceptableParameters), and its response with
/// less ends the channel ([`signal`](crate::ChannelManager::signal)). What we ask for ourselves isn't tested by a call;
/// [`checked`](crate::L2capChannelConfig::checked) does.
pub const SIZE_LEAST: u16 = 23;

/// A slot's number in the table. It names a channel in every call that is ours; [`Cid`] names it on the air.
#[derive(Clone, Copy, Debug, PartialEq, Eq, PartialOrd, Ord, Hash)]
pub struct ChannelIndex(pub u8);

impl ChannelIndex {
    /// The slot's CID on the air.
    pub const fn cid(self) -> Cid {
        Cid(CID_BASE + self.0 as u16)
    }
}

impl From<u8> for ChannelIndex {
    fn from(number: u8) -> Self {
        Self(number)
    }
}

impl From<ChannelIndex> for u8 {
    fn from(index: ChannelIndex) -> Self {
        index.0
    }
}

/// A channel's CID on the air, ours. A packet's header has it as a number: `Cid::from(number)`.
#[derive(Clone, Copy, Debug, PartialEq, Eq, PartialOrd, Ord, Hash)]
pub struct Cid(pub u16);

impl Cid {
    /// The slot with this CID, in a table of sixteen: none below 0x40 and from 0x50 on.
    pub const fn index(self) -> Option<ChannelIndex> {
        if self.0 >= CID_BASE && self.0 < CID_BASE + SLOTS as u16 {
            Some(ChannelIndex((self.0 - CID_BASE) as u8))
        } else {
            None
        }
    }
}

impl From<u16> for Cid {
    fn from(number: u16) -> Self {
        Self(number)
    }
}

impl From<Cid> for u16 {
    fn from(cid: Cid) -> Self {
        cid.0
    }
}

/// A link's handle, 0 to 0x0EFF. A call refuses a higher one by [`Refusal::BadHandle`].
///
/// A controller's handle is one line away: from bt-hci's `ConnHandle` it is `ConnHandle::from(handle.raw())`, and back `ConnHandle::new(ours.into())`.
#[derive(Clone, Copy, Debug, PartialEq, Eq, PartialOrd, Ord, Hash)]
pub struct ConnHandle(pub u16);

impl From<u16> for ConnHandle {
    fn from(number: u16) -> Self {
        Self(number)
    }
}

impl From<ConnHandle> for u16 {
    fn from(handle: ConnHandle) -> Self {
        handle.0
    }
}

/// Our role on a link.
#[derive(Clone, Copy, Debug, PartialEq, Eq, Hash)]
pub enum LeConnRole {
    /// We are the central: a peer may ask us for other connection parameters.
    Central,
    /// We are the peripheral.
    Peripheral,
}

/// The result of a connect response (Core, Vol 3 Part A, 4.23). A code `as u16` is its number on the air.
#[derive(Clone, Copy, Debug, PartialEq, Eq, Hash)]
#[repr(u16)]
pub enum LeCreditConnResultCode {
    /// 0: the channel is open.
    Success = 0,
    /// 2: nobody serves this SPSM.
    SpsmNotSupported = 2,
    /// 4: no slot is free, or nobody listens.
    NoResources = 4,
    /// 5: the link isn't authenticated.
    InsufficientAuthentication = 5,
    /// 6: the peer isn't authorised.
    InsufficientAuthorization = 6,
    /// 7: the encryption key is too short.
    EncryptionKeyTooShort = 7,
    /// 8: the link isn't encrypted.
    InsufficientEncryption = 8,
    /// 9: the source CID is outside its range.
    InvalidSourceId = 9,
    /// 10: the source CID is in use.
    ScidAlreadyAllocated = 10,
    /// 11: the parameters can't be accepted. An MTU or MPS under [`SIZE_LEAST`] can't.
    UnacceptableParameters = 11,
}

impl LeCreditConnResultCode {
    /// The number on the air.
    pub const fn number(self) -> u16 {
        self as u16
    }

    /// The result code with this number: 0, 2 and 4 to 11 have one.
    pub const fn from_number(number: u16) -> Option<Self> {
        Some(match number {
            0 => Self::Success,
            2 => Self::SpsmNotSupported,
            4 => Self::NoResources,
            5 => Self::InsufficientAuthentication,
            6 => Self::InsufficientAuthorization,
            7 => Self::EncryptionKeyTooShort,
            8 => Self::InsufficientEncryption,
            9 => Self::InvalidSourceId,
            10 => Self::ScidAlreadyAllocated,
            11 => Self::UnacceptableParameters,
            _ => return None,
        })
    }
}

impl From<LeCreditConnResultCode> for u16 {
    fn from(code: LeCreditConnResultCode) -> Self {
        code.number()
    }
}

/// A number of no result code is [`Refusal::Decode`], as it is in a signal.
impl TryFrom<u16> for LeCreditConnResultCode {
    type Error = Refusal;

    fn try_from(number: u16) -> Result<Self, Refusal> {
        Self::from_number(number).ok_or(Refusal::Decode)
    }
}

/// What a call refuses with. Where no more is said, table, room and buffers are left as they were.
#[derive(Clone, Copy, Debug, PartialEq, Eq, Hash)]
pub enum Refusal {
    /// 1: sizes outside the limits, or octets that spell no well-formed table.
    BadTable,
    /// 2: the room's length isn't the one that the sizes ask for ([`room_octets`](crate::room_octets)).
    BadRoom,
    /// 3: a signal buffer under 18 octets, an output too short for the frames, or a buffer too short for an open job's
    /// ([`job_buffer_octets`](crate::job_buffer_octets)).
    NoRoom,
    /// 4: a handle above 0x0EFF.
    BadHandle,
    /// 5: only SPSMs 1 to 255 can be registered.
    BadSpsm,
    /// 6: the table has no such slot.
    BadSlot,
    /// 7: a frame's CID is no slot's.
    InvalidChannelId,
    /// 8: no slot fits, or no job is open in it. An unmatched connect response has closed the slot of every attempt of that link.
    NotFound,
    /// 9: a signal longer than its PDU (a reject is written); a connect response that accepts with an MTU or MPS under [`SIZE_LEAST`] (they are kept, so that
    /// our disconnect request can go out), credits above 65,535 (those before are kept), a frame above our MPS, or one that its job has no place for (its
    /// credit is used): the channel is disconnecting, and [`next_disconnect`](crate::ChannelManager::next_disconnect) comes next.
    InvalidValue,
    /// 10: a frame for which the peer had no credit. It is counted ([`Tallies::blocked_receives`](crate::Tallies::blocked_receives)), and nothing else changes.
    OutOfMemory,
    /// 11: the channel isn't open. Jobs that wait in one that disconnects can still be taken.
    ChannelClosed,
    /// 12: MPS or MTU above our packets, or a job above the peer's MTU. A refused create has used an identifier. Of a take: the buffer is shorter than the job,
    /// which waits on; one of [`mtu`](crate::ChannelManager::mtu) octets never is.
    InsufficientSpace,
    /// 13: no slot is free. The create has used an identifier.
    NoChannelAvailable,
    /// 14: the job needs more frames than the peer gave credits. Nothing was sent; it is counted, once ([`Tallies::blocked_sends`](crate::Tallies::blocked_sends)).
    Busy,
    /// 15: a signal that can't be read. Where its header can, a reject is written.
    Decode,
    /// 16: an unknown signal. A reject is written.
    NotSupported,
    /// 17: the peer refused the connection, with this result. A signal that gives it leaves the slot
    /// [`ConnectFailed`](crate::ChannelState::ConnectFailed); [`opened`](crate::ChannelManager::opened), which then gives it once more, has closed
    /// the slot.
    ConnectError(LeCreditConnResultCode),
    /// 18: the link or the channel is down. Where the slot wasn't closed yet, [`opened`](crate::ChannelManager::opened) has closed it.
    Disconnected,
    /// 19: a job's first frame without its two length octets. Its credit is used, and the channel is disconnecting.
    ShortFrame,
    /// 20: the peer's MPS is under [`SIZE_LEAST`]. No call leaves such a channel, so that only octets which no call wrote give it, or
    /// which are kept from an older archive ([`Table::from_octets`](crate::Table::from_octets)).
    BadMps,
    /// 21: a job is complete but as many as can wait do so already: it is dropped, and its credit used.
    QueueFull,
    /// 22: the hold count isn't what the step needs, or would pass 0 or 255.
    Held,
    /// 23: a job of 65,534 or 65,535 octets.
    TooLong,
    /// 24: a job is open in this slot, and goes first.
    JobOpen,
    /// 25: a portion has more octets than its job still lacks. None of them is taken.
    WrongLength,
}

impl Refusal {
    /// The refusal's number.
    pub const fn number(self) -> u8 {
        match self {
            Self::BadTable => 1,
            Self::BadRoom => 2,
            Self::NoRoom => 3,
            Self::BadHandle => 4,
            Self::BadSpsm => 5,
            Self::BadSlot => 6,
            Self::InvalidChannelId => 7,
            Self::NotFound => 8,
            Self::InvalidValue => 9,
            Self::OutOfMemory => 10,
            Self::ChannelClosed => 11,
            Self::InsufficientSpace => 12,
            Self::NoChannelAvailable => 13,
            Self::Busy => 14,
            Self::Decode => 15,
            Self::NotSupported => 16,
            Self::ConnectError(_) => 17,
            Self::Disconnected => 18,
            Self::ShortFrame => 19,
            Self::BadMps => 20,
            Self::QueueFull => 21,
            Self::Held => 22,
            Self::TooLong => 23,
            Self::JobOpen => 24,
            Self::WrongLength => 25,
        }
    }

    /// The refusal of a number that isn't 0; `code` is the result code of 17. The entries give 1 to 25 alone; another number reads as 1.
    pub(crate) const fn told(number: u32, code: u16) -> Self {
        match number {
            2 => Self::BadRoom,
            3 => Self::NoRoom,
            4 => Self::BadHandle,
            5 => Self::BadSpsm,
            6 => Self::BadSlot,
            7 => Self::InvalidChannelId,
            8 => Self::NotFound,
            9 => Self::InvalidValue,
            10 => Self::OutOfMemory,
            11 => Self::ChannelClosed,
            12 => Self::InsufficientSpace,
            13 => Self::NoChannelAvailable,
            14 => Self::Busy,
            15 => Self::Decode,
            16 => Self::NotSupported,
            17 => match LeCreditConnResultCode::from_number(code) {
                Some(code) => Self::ConnectError(code),
                None => Self::BadTable,
            },
            18 => Self::Disconnected,
            19 => Self::ShortFrame,
            20 => Self::BadMps,
            21 => Self::QueueFull,
            22 => Self::Held,
            23 => Self::TooLong,
            24 => Self::JobOpen,
            25 => Self::WrongLength,
            _ => Self::BadTable,
        }
    }
}

impl fmt::Display for Refusal {
    fn fmt(&self, f: &mut fmt::Formatter<'_>) -> fmt::Result {
        match self {
            Self::ConnectError(code) => write!(f, "17 ConnectError, result {}", code.number()),
            other => write!(f, "{} {:?}", other.number(), other),
        }
    }
}

impl Error for Refusal {}
