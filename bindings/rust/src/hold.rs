//! A hold on a slot as a value that can't be copied: what takes a hold gives one, and what ends it takes one.

use core::error::Error;
use core::fmt;
use core::hash::{Hash, Hasher};
use core::mem::ManuallyDrop;

use crate::codes::{ChannelIndex, Cid, Refusal};

/// One hold on a slot. While a slot is held no other channel gets it, closed or not: [`dec_ref`](crate::ChannelManager::dec_ref) of the manager that gave
/// the hold ends it. The [`life`](crate::life) of a channel says who has a hold when.
///
/// A hold that is dropped is one that nobody can give back. Builds with debug assertions panic there, and name the slot, unless the hold came back because
/// the table counts none ([`StillHeld`]); others say nothing, and a hold costs an octet. Who counts holds himself takes the slot's number out with
/// [`into_index`](Self::into_index).
///
/// It can't be copied, so that it can't be given back twice:
///
/// ```compile_fail
/// # use l2cap_channels::*;
/// # fn twice(channels: &mut ChannelManager<'_>, hold: Hold) -> Result<(), Refusal> {
/// channels.dec_ref(hold)?;
/// channels.dec_ref(hold)?;
/// # Ok(())
/// # }
/// ```
#[must_use = "a slot is held until `dec_ref` gets its hold back"]
pub struct Hold {
    index: ChannelIndex,
    /// A manager said that its table counts no such hold: nothing is lost where this one is dropped.
    #[cfg(debug_assertions)]
    uncounted: bool,
}

impl Hold {
    /// Takes up a hold that the table counts and no value stands for: after [`from_parts`](crate::ChannelManager::from_parts) or
    /// [`into_index`](Self::into_index). The count isn't changed.
    pub const fn of(index: ChannelIndex) -> Self {
        Self {
            index,
            #[cfg(debug_assertions)]
            uncounted: false,
        }
    }

    /// The slot that is held.
    pub const fn index(&self) -> ChannelIndex {
        self.index
    }

    /// The slot's CID on the air.
    pub const fn cid(&self) -> Cid {
        self.index.cid()
    }

    /// The slot's number in place of its hold. The count isn't changed: the slot stays held, and the caller must know it.
    pub fn into_index(self) -> ChannelIndex {
        ManuallyDrop::new(self).index
    }
}

// By the slot alone: what a manager said of a hold is no part of it.

impl fmt::Debug for Hold {
    fn fmt(&self, f: &mut fmt::Formatter<'_>) -> fmt::Result {
        f.debug_tuple("Hold").field(&self.index).finish()
    }
}

impl PartialEq for Hold {
    fn eq(&self, other: &Self) -> bool {
        self.index == other.index
    }
}

impl Eq for Hold {}

impl Hash for Hold {
    fn hash<H: Hasher>(&self, state: &mut H) {
        self.index.hash(state);
    }
}

// Only where a panic unwinds, which firmware's don't: a hold that goes with another panic must not hide it.
#[cfg(all(debug_assertions, panic = "unwind"))]
extern crate std;

/// A hold was forgotten. In release builds nothing is left of this.
#[cfg(debug_assertions)]
impl Drop for Hold {
    #[allow(clippy::panic)]
    fn drop(&mut self) {
        if self.uncounted {
            return;
        }
        #[cfg(panic = "unwind")]
        if std::thread::panicking() {
            return;
        }
        panic!("the hold on slot {} was dropped: dec_ref gives the slot back", self.index.0);
    }
}

/// A call that ends a hold was refused: the hold stands as it did, and comes back.
///
/// `?` makes the [`Refusal`] of it, where a function gives that. Where the table counts no such hold (1, 6, 22) nothing is lost by it, and the error can be
/// passed on, printed or dropped like any other. By another refusal (2, 3, 8) the slot is still held: the hold is dropped there like any that is
/// forgotten, and a caller who goes on takes it out first:
///
/// ```
/// # use l2cap_channels::*;
/// fn refuse(channels: &mut ChannelManager<'_>, hold: Hold, signal: &mut [u8]) -> Result<(), Refusal> {
///     match channels.reject_pending(hold, LeCreditConnResultCode::NoResources, signal) {
///         Ok(response) => { /* send it */ }
///         // The phone closed before it was answered: nothing is pending, and the hold is still ours.
///         Err(StillHeld { hold, .. }) => channels.dec_ref(hold)?,
///     }
///     Ok(())
/// }
/// ```
#[derive(Debug, PartialEq, Eq)]
pub struct StillHeld {
    /// Why the call was refused.
    pub refusal: Refusal,
    /// The hold that it was given.
    pub hold: Hold,
}

impl From<StillHeld> for Refusal {
    fn from(still: StillHeld) -> Self {
        still.refusal
    }
}

impl StillHeld {
    /// A hold that comes back. By 1, 6 and 22 the table counts none.
    pub(crate) fn of(refusal: Refusal, hold: Hold) -> Self {
        #[cfg(debug_assertions)]
        let hold = {
            let mut hold = hold;
            hold.uncounted = matches!(refusal, Refusal::BadTable | Refusal::BadSlot | Refusal::Held);
            hold
        };
        Self { refusal, hold }
    }
}

impl fmt::Display for StillHeld {
    fn fmt(&self, f: &mut fmt::Formatter<'_>) -> fmt::Result {
        write!(f, "{}; the hold on slot {} came back", self.refusal, self.hold.index().0)
    }
}

impl Error for StillHeld {
    fn source(&self) -> Option<&(dyn Error + 'static)> {
        Some(&self.refusal)
    }
}
