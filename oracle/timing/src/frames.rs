//! The frames that both sides are given, and how both tables' channels are opened.

/// How the channels are opened: one a link, of slot k on link k + 1.
#[derive(Clone, Copy)]
pub struct Channels {
    pub n: usize,
    /// What the peer takes in a frame, and how many frames it lets us send.
    pub peer_mps: u16,
    pub peer_credits: u16,
    /// What we let the peer send before a grant.
    pub credits: u16,
    /// A grant is made when the peer has fewer credits than that; without it, with every job that is taken.
    pub threshold: Option<u16>,
}

pub const SPSM: u16 = 0x0080;
pub const CID_BASE: u16 = 0x0040;
const PEER_MTU: u16 = 65_535;

impl Channels {
    /// The peer's connect request for a slot.
    pub fn request(&self, slot: usize) -> Vec<u8> {
        signal(0x14, &[SPSM, cid(slot), PEER_MTU, self.peer_mps, self.peer_credits])
    }
}

pub fn link(slot: usize) -> u16 {
    slot as u16 + 1
}

pub fn cid(slot: usize) -> u16 {
    CID_BASE + slot as u16
}

/// The peer's credits for a slot: its CID is the number of ours.
pub fn credits(slot: usize, count: usize) -> Vec<u8> {
    signal(0x16, &[cid(slot), count as u16])
}

fn signal(code: u8, numbers: &[u16]) -> Vec<u8> {
    let mut octets = vec![code, 1];
    octets.extend((2 * numbers.len() as u16).to_le_bytes());
    numbers.iter().for_each(|number| octets.extend(number.to_le_bytes()));
    octets
}

/// A frame as a run has it.
pub fn frame_record(slot: usize, payload: &[u8]) -> Vec<u8> {
    let numbers = [link(slot), cid(slot), payload.len() as u16];
    [&numbers.map(u16::to_le_bytes).concat()[..], payload].concat()
}

/// Frames' payloads of one length, one behind the other.
pub struct Frames {
    octets: Vec<u8>,
    size: usize,
}

impl Frames {
    /// Each brings a whole job.
    pub fn whole(count: usize, size: usize) -> Self {
        Self::of((0..count).map(|k| first(size - 2, &crate::octets(size - 2, k))), size)
    }

    fn of(payloads: impl Iterator<Item = Vec<u8>>, size: usize) -> Self {
        Self { octets: payloads.flatten().collect(), size }
    }

    /// The frames of `count` jobs that need `parts` frames each: the first frame of each, then the second of each, and so on.
    pub fn parts(count: usize, parts: usize, size: usize) -> Vec<Self> {
        let job = parts * size - 2;
        let whole: Vec<Vec<u8>> = (0..count).map(|k| first(job, &crate::octets(job, k))).collect();
        (0..parts).map(|part| Self::of(whole.iter().map(|job| job[part * size..][..size].to_vec()), size)).collect()
    }

    #[inline]
    pub fn at(&self, k: usize) -> &[u8] {
        &self.octets[k * self.size..][..self.size]
    }

    pub fn count(&self) -> usize {
        self.octets.len() / self.size
    }

    /// The jobs of frames that bring a whole one each.
    pub fn jobs(&self) -> Vec<Vec<u8>> {
        (0..self.count()).map(|k| self.at(k)[2..].to_vec()).collect()
    }
}

/// A job's length and its octets.
fn first(length: usize, octets: &[u8]) -> Vec<u8> {
    [&(length as u16).to_le_bytes(), octets].concat()
}
