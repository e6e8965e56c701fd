//! Stand-ins for names that only connection.rs and connection_manager.rs use. They decide nothing that a channel shows: addresses are
//! never looked at, and times only leave the original through commands that are never run.

use bt_hci::param::{AddrKind, BdAddr};

#[derive(Clone, Copy, Debug, PartialEq, Eq)]
pub struct Address {
    pub kind: AddrKind,
    pub addr: BdAddr,
}

#[derive(Clone, Copy, Debug, PartialEq, Eq)]
pub struct Identity {
    pub addr: Address,
}

impl Identity {
    pub fn match_address(&self, address: &Address) -> bool {
        self.addr == *address
    }
}

impl From<Address> for Identity {
    fn from(addr: Address) -> Self {
        Self { addr }
    }
}

pub(crate) fn bt_hci_duration<const US: u64>(time: embassy_time::Duration) -> bt_hci::param::Duration<US> {
    bt_hci::param::Duration::from_u16((time.as_micros() / US) as u16)
}
