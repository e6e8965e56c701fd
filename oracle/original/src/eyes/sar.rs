//! Reads the open assembly: its fields are private to sar.rs, of which this is a child module.

use super::PacketReassembly;

/// An open assembly: the octets written so far, and the length that the first frame named.
pub(crate) struct Assembly {
    pub written: Vec<u8>,
    pub have: usize,
    pub want: usize,
}

pub(crate) fn assembly<P: AsRef<[u8]>>(reassembly: &PacketReassembly<P>) -> Option<Assembly> {
    let state = reassembly.state.as_ref()?;
    let octets = state.packet.packet.as_ref();
    let have = state.packet.written;
    Some(Assembly { written: octets[..have.min(octets.len())].to_vec(), have, want: usize::from(state.state.length) })
}
