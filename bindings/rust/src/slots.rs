//! A set of slots, and its slots one by one.

use crate::codes::{ChannelIndex, SLOTS};

/// Some of the sixteen slots. A loop goes through them from the lowest on:
///
/// ```
/// # use l2cap_channels::{ChannelIndex, Slots};
/// let mut seen = Vec::new();
/// for index in Slots::from_bits(0b101) {
///     seen.push(index);
/// }
/// assert_eq!(seen, [ChannelIndex(0), ChannelIndex(2)]);
/// ```
#[derive(Clone, Copy, Debug, Default, PartialEq, Eq, Hash)]
pub struct Slots(u16);

impl Slots {
    /// The slots whose bits are set; slot 0 has the lowest.
    pub const fn from_bits(bits: u16) -> Self {
        Self(bits)
    }

    /// A bit for each slot; slot 0 has the lowest.
    pub const fn bits(self) -> u16 {
        self.0
    }

    /// Whether it has no slot.
    pub const fn is_empty(self) -> bool {
        self.0 == 0
    }

    /// Whether it has this slot.
    pub const fn contains(self, index: ChannelIndex) -> bool {
        index.0 < SLOTS && self.0 >> index.0 & 1 == 1
    }

    /// Each slot, from the lowest on.
    pub const fn iter(self) -> SlotIter {
        SlotIter { left: self.0 }
    }
}

impl IntoIterator for Slots {
    type Item = ChannelIndex;
    type IntoIter = SlotIter;

    fn into_iter(self) -> SlotIter {
        self.iter()
    }
}

/// The slots of a set. See [`Slots::iter`].
#[derive(Clone, Debug)]
pub struct SlotIter {
    left: u16,
}

impl Iterator for SlotIter {
    type Item = ChannelIndex;

    fn next(&mut self) -> Option<ChannelIndex> {
        let lowest = self.left.trailing_zeros() as u8;
        // Without its lowest bit; an empty set has none.
        self.left &= self.left.checked_sub(1)?;
        Some(ChannelIndex(lowest))
    }
}
