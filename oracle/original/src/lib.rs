//! The original, unchanged, over stand-ins, and a driver that speaks the language of `chanrun`. `crate::` paths of the original's files
//! resolve here: what the real crate's root offers them, this root offers under the same names. Built once for each D with
//! `channel-metrics`, and for one D without.

mod stand_ins;

#[macro_use]
mod log;

include!(concat!(env!("OUT_DIR"), "/original/root.rs"));

mod driver;
pub mod timed;

pub(crate) use bt_hci::controller::Controller;
pub(crate) use stand_ins::error::{BleHostError, Error};
pub(crate) use stand_ins::host::{self, Stack};
pub(crate) use stand_ins::names::{bt_hci_duration, Address, Identity};
pub(crate) use stand_ins::pool::{Packet, PacketPool};

pub use channel_manager::eyes::encode_job;
pub use driver::{session, SIZES};

/// Decides the lengths of the original's queues. D is this build's number; the others are drained after each call and so never full.
pub(crate) mod config {
    pub const L2CAP_RX_QUEUE_SIZE: usize = match env!("L2CAP_RX_QUEUE_SIZE").as_bytes() {
        [digit] => (*digit - b'0') as usize,
        _ => panic!("D is one digit"),
    };
    pub const L2CAP_TX_QUEUE_SIZE: usize = 64;
    pub const CONNECTION_EVENT_QUEUE_SIZE: usize = 64;
}

/// The names that the original's files take from the crate's prelude.
pub(crate) mod prelude {
    pub use crate::connection::{ConnectionEvent, ConnectionParamsRequest, RequestedConnParams};
    pub(crate) use crate::l2cap::sar;
    pub use crate::l2cap::L2capChannelConfig;
}
