//! Decides nothing: no HCI event is ever handed to the original here.

pub struct EventPacket;

pub mod le {
    pub struct LeEventPacket;
}
