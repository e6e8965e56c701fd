//! A memory that an entry is lent: painted before the call, so that what it wrote can be told from what it left, and longer than what is
//! lent, so that a write behind it shows.

/// An octet that nobody has written.
const PAINT: u8 = 0xa5;
/// The octets behind each lent memory.
const BEHIND: usize = 32;

#[derive(Clone)]
pub struct Lent {
    octets: Vec<u8>,
    lent: usize,
}

impl Lent {
    pub fn new(lent: usize) -> Self {
        Self { octets: vec![PAINT; lent + BEHIND], lent }
    }

    /// What an entry is lent.
    pub fn lend(&mut self) -> &mut [u8] {
        &mut self.octets[..self.lent]
    }

    pub fn octets(&self) -> &[u8] {
        &self.octets[..self.lent]
    }

    /// The octets with those behind them, for a planted fault.
    pub fn whole(&mut self) -> &mut [u8] {
        &mut self.octets
    }

    /// True where nothing was written but the first octets.
    pub fn untouched_from(&self, written: usize) -> bool {
        // No early end: so it is quick on long memories.
        self.octets.iter().skip(written).fold(true, |untouched, octet| untouched & (*octet == PAINT))
    }

    /// True where nothing was written behind the lent octets.
    pub fn untouched_behind(&self) -> bool {
        self.untouched_from(self.lent)
    }
}
