//! A Bluetooth L2CAP channel manager whose every call is proved equal to its definition: the channel manager of trouble-host 0.8.0, ported, behind
//! safe types. This crate is the wrapper; the calls are in an archive, `libentries.a`, which `build.rs` links.
//!
//! A channel lives in a slot ([`ChannelIndex`]) and has a CID on the air ([`Cid`]). [`ChannelManager`] keeps the table, in 1,312 octets, and borrows
//! the room in which jobs arrive and wait. Whoever uses a channel has a [`Hold`] on its slot, and gives it back: [`life`] goes through it, case by
//! case. A slot is free where its channel is [`Disconnected`](ChannelState::Disconnected) and nobody holds it. A call that can't be done gives a [`Refusal`], and says in its documentation what that leaves. No call panics, waits or allocates; in builds
//! with debug assertions a hold that is forgotten panics.
//!
//! ```
//! use l2cap_channels::{room_octets, ChannelIndex, ChannelManager, Cid, ConnHandle, L2capChannelConfig, LeConnRole, Refusal, SIGNAL_OCTETS};
//!
//! fn main() -> Result<(), Refusal> {
//!     // Two channels, one job waiting in each, packets of 64 octets.
//!     let mut room = [0; room_octets(2, 1, 64)];
//!     let mut channels = ChannelManager::new(2, 1, 64, &mut room)?;
//!     channels.register_spsm(0x80)?;
//!
//!     // A phone on link 1 asks for a channel. Nothing goes back before we accept.
//!     let phone = ConnHandle(1);
//!     let request = [0x14, 7, 10, 0, 0x80, 0, 0x50, 0, 100, 0, 23, 0, 5, 0];
//!     channels.feed_pdu(phone, true, LeConnRole::Peripheral, &request, |outcome, reply| {
//!         assert_eq!((outcome, reply.len()), (Ok(None), 0));
//!     });
//!     // The hold stays here, and what can fail gets the slot's index: no `?` drops the hold, and it is back before an error goes on.
//!     let hold = channels.next_pending(phone, true)?.expect("a pending channel");
//!     let served = serve(&mut channels, phone, hold.index());
//!     channels.dec_ref(hold)?;
//!     served
//! }
//!
//! fn serve(channels: &mut ChannelManager<'_>, phone: ConnHandle, index: ChannelIndex) -> Result<(), Refusal> {
//!     let mut signal = [0; SIGNAL_OCTETS];
//!     let response = channels.accept_pending(index, &L2capChannelConfig::default(), &mut signal)?;
//!     assert_eq!(response.handle, phone);
//!
//!     // A job of three octets comes in one frame, and is taken; the phone gets its credit back.
//!     channels.dispatch(phone, Cid(0x40), &[3, 0, b'j', b'o', b'b'])?;
//!     let mut job = [0; 58];
//!     let taken = channels.receive(index, &mut job, &mut signal)?.expect("a job");
//!     assert_eq!(taken.sdu, b"job");
//!     assert_eq!(taken.credits, [8, 0, 5, 0, 0x16, 1, 4, 0, 0x40, 0, 1, 0]);
//!
//!     // The phone closes its channel; our response closes the slot, and the hold given back makes it free for another phone.
//!     channels.feed_pdu(phone, true, LeConnRole::Peripheral, &[0x06, 8, 4, 0, 0x40, 0, 0x50, 0], |_, _| {});
//!     let response = channels.next_disconnect(&mut signal)?.expect("a disconnect that is due");
//!     assert_eq!(response.octets, [8, 0, 5, 0, 0x07, 8, 4, 0, 0x40, 0, 0x50, 0]);
//!     Ok(())
//! }
//! ```
#![no_std]
#![forbid(unsafe_op_in_unsafe_fn)]
#![deny(missing_docs)]
#![warn(clippy::indexing_slicing, clippy::unwrap_used, clippy::expect_used, clippy::panic)]

mod answer;
mod codes;
mod credits;
mod entries;
mod hold;
pub mod life;
mod manager;
mod portions;
mod run;
mod slots;
mod table;

pub use answer::{
    Attention, ChannelSignal, ChannelState, ConnParamUpdateReq, CreditFlowPolicy, FrameIter, Frames, Given, L2capChannelConfig, Outgoing,
    Received, Signalled, Tallies, ANSWER_OCTETS,
};
pub use codes::{ChannelIndex, Cid, ConnHandle, LeConnRole, LeCreditConnResultCode, Refusal, CID_BASE, SIZE_LEAST, SLOTS};
pub use credits::{frames, least_credits, ConfigError};
pub use hold::{Hold, StillHeld};
pub use manager::{ChannelManager, SIGNAL_OCTETS};
pub use portions::{job_buffer_octets, OpenJob};
pub use run::{Dispatched, FrameRun, JobRun, PushError, Sent};
pub use slots::{SlotIter, Slots};
pub use table::{room_octets, JobNumbers, Slot, Table, TABLE_OCTETS};

/// The code of the README, compiled and run with the documentation's.
#[cfg(doctest)]
#[doc = include_str!("../README.md")]
struct Readme;
