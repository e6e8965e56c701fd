//! Entries on octets of any length, as the archive has them: a frame, a send, and a run of each.

extern "C" {
    fn l2cap_dispatch(
        table: *mut u8,
        _: usize,
        answer: *mut u8,
        _: usize,
        room: *mut u8,
        _: usize,
        link: u16,
        cid: u16,
        payload: *const u8,
        _: usize,
    ) -> u32;
    fn l2cap_send(table: *mut u8, _: usize, answer: *mut u8, _: usize, out: *mut u8, _: usize, slot: u8, sdu: *const u8, _: usize) -> u32;
    fn l2cap_dispatch_run(
        table: *mut u8,
        _: usize,
        answer: *mut u8,
        _: usize,
        room: *mut u8,
        _: usize,
        frames: *const u8,
        _: usize,
        answers: *mut u8,
        _: usize,
    ) -> u32;
    fn l2cap_send_run(
        table: *mut u8,
        _: usize,
        answer: *mut u8,
        _: usize,
        out: *mut u8,
        _: usize,
        jobs: *const u8,
        _: usize,
        answers: *mut u8,
        _: usize,
    ) -> u32;
}

/// Each slice as its address and its length.
macro_rules! entered {
    ($entry:ident; $($lent:ident),*; $($number:expr),*; $read:ident; $($behind:ident),*) => {
        // SAFETY: valid slices with their own lengths, the lent ones borrowed for the call; the entry asks nothing more.
        unsafe { $entry($($lent.as_mut_ptr(), $lent.len(),)* $($number,)* $read.as_ptr(), $read.len(), $($behind.as_mut_ptr(), $behind.len(),)*) }
    };
}

pub fn dispatch(table: &mut [u8], answer: &mut [u8], room: &mut [u8], link: u16, cid: u16, payload: &[u8]) -> u32 {
    entered!(l2cap_dispatch; table, answer, room; link, cid; payload;)
}

pub fn send(table: &mut [u8], answer: &mut [u8], out: &mut [u8], slot: u8, sdu: &[u8]) -> u32 {
    entered!(l2cap_send; table, answer, out; slot; sdu;)
}

pub fn dispatch_run(table: &mut [u8], answer: &mut [u8], room: &mut [u8], frames: &[u8], answers: &mut [u8]) -> u32 {
    entered!(l2cap_dispatch_run; table, answer, room;; frames; answers)
}

pub fn send_run(table: &mut [u8], answer: &mut [u8], out: &mut [u8], jobs: &[u8], answers: &mut [u8]) -> u32 {
    entered!(l2cap_send_run; table, answer, out;; jobs; answers)
}

/// What an entry is lent: painted before the call, and longer than what is lent, so that a write behind it shows where two are compared.
#[derive(Clone, Debug, PartialEq, Eq)]
pub struct Lent {
    octets: Vec<u8>,
    len: usize,
}

impl Lent {
    pub fn new(octets: &[u8]) -> Self {
        Self { octets: [octets, &[0xA5; 32]].concat(), len: octets.len() }
    }

    pub fn painted(len: usize) -> Self {
        Self::new(&vec![0xA5; len])
    }

    pub fn lend(&mut self) -> &mut [u8] {
        &mut self.octets[..self.len]
    }
}
