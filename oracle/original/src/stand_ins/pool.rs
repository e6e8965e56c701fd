//! Stand-in for the packet pool. It decides that a packet has exactly `P::MTU` octets, that the pool is never empty (its capacity is
//! beyond every D, so that the default credits are D), and what a fresh packet holds: `STALE` octets, never zeros, so that an octet
//! that the original shows without having written it can be told.

use crate::codec::{Encode, Error, FixedSize};

pub trait Packet: Sized + AsRef<[u8]> + AsMut<[u8]> {}

pub trait PacketPool: 'static {
    type Packet: Packet;
    const MTU: usize;
    fn allocate() -> Option<Self::Packet>;
    fn capacity() -> usize;
}

const STALE: u8 = 0xA5;

/// A packet of any size: its length is the pool's.
pub struct Octets(Box<[u8]>);

impl Packet for Octets {}

impl AsRef<[u8]> for Octets {
    fn as_ref(&self) -> &[u8] {
        &self.0
    }
}

impl AsMut<[u8]> for Octets {
    fn as_mut(&mut self) -> &mut [u8] {
        &mut self.0
    }
}

/// The pool of packets of M octets.
pub struct Pool<const M: usize>;

impl<const M: usize> PacketPool for Pool<M> {
    type Packet = Octets;
    const MTU: usize = M;

    fn allocate() -> Option<Octets> {
        Some(Octets(vec![STALE; M].into_boxed_slice()))
    }

    fn capacity() -> usize {
        usize::MAX
    }
}

/// Stand-in for the crate's `types::primitives`. Decides that the numbers of a K-frame's header are little-endian.
impl FixedSize for u16 {
    const SIZE: usize = 2;
}

impl Encode for u16 {
    fn encode(&self, dest: &mut [u8]) -> Result<(), Error> {
        dest.copy_from_slice(&self.to_le_bytes());
        Ok(())
    }
}
