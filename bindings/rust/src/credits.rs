//! How many credits a peer must start with so that no job of its sticks half-way.

use core::error::Error;
use core::fmt;

use crate::answer::{CreditFlowPolicy, L2capChannelConfig};
use crate::codes::SIZE_LEAST;

/// The frames of a job of `len` octets, each but the last with a payload of `mps`: they carry the job and its two length octets. None under an MPS of
/// 2, in which the length octets have no place.
///
/// ```
/// # use l2cap_channels::frames;
/// assert_eq!([frames(21, 23), frames(22, 23), frames(65_533, 23), frames(0, 1)], [Some(1), Some(2), Some(2_850), None]);
/// ```
pub const fn frames(len: u16, mps: u16) -> Option<u16> {
    if mps < 2 {
        return None;
    }
    // At most 32,769.
    Some((len as u32 + 2).div_ceil(mps as u32) as u16)
}

/// The least credits with which a peer that fills its frames is never left in mid-job without one, on a channel of this MTU and MPS; none where no
/// number suffices.
///
/// A take grants, and nothing else does. So once every job is taken, the credits that the peer holds must be enough for the longest job, of `f`
/// frames ([`frames`] of the MTU):
///
/// | policy | what a take can leave ungranted | least credits |
/// |---|---|---|
/// | `Every(k)` | up to k - 1 frames | f + k - 1, and f for k 0 |
/// | `MinThreshold(t)`, t at least f | as much as leaves t credits | f |
/// | `MinThreshold(t)`, t less than f | the same, and t is too few | none |
///
/// A peer that cuts its frames shorter than the MPS needs more: give the payload that it fills in place of the MPS.
///
/// With more credits than jobs can wait, a peer can finish more jobs than that before one is taken, and the next is dropped (21): take after every frame,
/// or give as many credits as jobs can wait.
///
/// ```
/// # use l2cap_channels::{least_credits, CreditFlowPolicy::*};
/// assert_eq!(least_credits(58, 60, Every(1)), Some(1));
/// assert_eq!(least_credits(58, 23, Every(1)), Some(3));
/// assert_eq!(least_credits(58, 23, Every(4)), Some(6));
/// assert_eq!([least_credits(58, 23, MinThreshold(3)), least_credits(58, 23, MinThreshold(2))], [Some(3), None]);
/// ```
pub const fn least_credits(mtu: u16, mps: u16, policy: CreditFlowPolicy) -> Option<u16> {
    let Some(longest) = frames(mtu, mps) else { return None };
    match policy {
        CreditFlowPolicy::Every(k) => longest.checked_add(k.saturating_sub(1)),
        CreditFlowPolicy::MinThreshold(t) if t < longest => None,
        CreditFlowPolicy::MinThreshold(_) => Some(longest),
    }
}

/// Why [`L2capChannelConfig::checked`] refuses.
#[derive(Clone, Copy, Debug, PartialEq, Eq, Hash)]
pub enum ConfigError {
    /// No table has this queue (1 to 4) or packet size (29 to 1,024).
    NoTable,
    /// The MPS is above the packet size less 4, or the MTU above it less 6. The call would refuse by 12.
    TooLarge,
    /// MTU or MPS is under [`SIZE_LEAST`]: peers that keep to Core refuse such a request and disconnect such a channel. No call refuses it.
    TooSmall,
    /// The peer would start with fewer credits than this, the least that suffice.
    FewCredits(u16),
    /// No number of credits suffices: a threshold under the frames of the longest job, or a sum above 65,535.
    Sticks,
}

impl fmt::Display for ConfigError {
    fn fmt(&self, f: &mut fmt::Formatter<'_>) -> fmt::Result {
        match self {
            Self::NoTable => f.write_str("no table has this queue or packet size"),
            Self::TooLarge => f.write_str("the MPS or MTU is more than a packet holds"),
            Self::TooSmall => f.write_str("the MPS or MTU is under 23"),
            Self::FewCredits(least) => write!(f, "the peer needs {least} credits for the longest job"),
            Self::Sticks => f.write_str("by this policy no number of credits is enough for the longest job"),
        }
    }
}

impl Error for ConfigError {}

impl L2capChannelConfig {
    /// This configuration, if a channel of a table with this `queue` and `packet` size can't stick under it: see [`least_credits`]. More credits than
    /// `queue` are not refused: take after every frame then, or a job can be dropped (21). It costs nothing where it is a constant:
    ///
    /// ```
    /// # use l2cap_channels::{ConfigError, CreditFlowPolicy, L2capChannelConfig};
    /// const ASKED: L2capChannelConfig =
    ///     L2capChannelConfig { mtu: None, mps: Some(23), flow_policy: CreditFlowPolicy::Every(1), initial_credits: Some(3) };
    /// const CONFIG: L2capChannelConfig = match ASKED.checked(1, 64) {
    ///     Ok(config) => config,
    ///     Err(_) => panic!("a job could stick"),
    /// };
    /// assert_eq!(L2capChannelConfig { initial_credits: None, ..CONFIG }.checked(1, 64), Err(ConfigError::FewCredits(3)));
    /// assert!(L2capChannelConfig::default().checked(1, 64).is_ok());
    /// ```
    pub const fn checked(self, queue: u16, packet: u16) -> Result<Self, ConfigError> {
        if queue < 1 || queue > 4 || packet < 29 || packet > 1024 {
            return Err(ConfigError::NoTable);
        }
        let mps = settled(self.mps, packet - 4);
        let mtu = settled(self.mtu, packet - 6);
        let credits = settled(self.initial_credits, queue);
        if mps > packet - 4 || mtu > packet - 6 {
            return Err(ConfigError::TooLarge);
        }
        if mps < SIZE_LEAST || mtu < SIZE_LEAST {
            return Err(ConfigError::TooSmall);
        }
        match least_credits(mtu, mps, self.flow_policy) {
            None => Err(ConfigError::Sticks),
            Some(least) if credits < least => Err(ConfigError::FewCredits(least)),
            Some(_) => Ok(self),
        }
    }
}

/// A setting, or its default.
const fn settled(setting: Option<u16>, usual: u16) -> u16 {
    match setting {
        Some(number) => number,
        None => usual,
    }
}
