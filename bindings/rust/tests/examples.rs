//! The examples, run: each asserts what it shows. And the printer's loop, given what no phone of good will sends.

#[path = "../examples/printer.rs"]
mod printer;
#[path = "../examples/two_managers.rs"]
mod two_managers;

use l2cap_channels::{room_octets, ConnHandle};
use printer::{Out, Printer};

#[test]
fn the_printer_plays_its_scene() {
    printer::main();
}

#[test]
fn two_managers_talk() {
    two_managers::main();
}

/// Octets of a job on a link: above 0x80, where no length of a job is.
fn ink(link: ConnHandle) -> u8 {
    0x80 + link.0 as u8
}

/// Takes what leaves the printer, looks at each job for another link's octets, and keeps the results of connect requests and the CID that each link
/// got last.
#[derive(Default)]
struct Paper {
    jobs: usize,
    results: Vec<u8>,
    cids: [u8; 20],
}

impl Out for Paper {
    fn send(&mut self, link: ConnHandle, packet: &[u8]) {
        if packet[4] == 0x15 {
            self.results.push(packet[16]);
            if packet[16] == 0 {
                self.cids[usize::from(link.0)] = packet[8];
            }
        }
    }

    fn print(&mut self, link: ConnHandle, job: &[u8]) {
        assert!(job.iter().all(|octet| *octet < 0x80 || *octet == ink(link)), "another link's octets in {job:?}");
        self.jobs += 1;
    }
}

/// A sequence of numbers that is the same in every run (Marsaglia's xorshift).
struct Numbers(u32);

impl Numbers {
    fn below(&mut self, end: u32) -> u32 {
        self.0 ^= self.0 << 13;
        self.0 ^= self.0 >> 17;
        self.0 ^= self.0 << 5;
        self.0 % end
    }
}

fn packet(cid: u16, payload: &[u8]) -> Vec<u8> {
    [&(payload.len() as u16).to_le_bytes()[..], &cid.to_le_bytes(), payload].concat()
}

fn connect(peer_cid: u8) -> Vec<u8> {
    packet(5, &[0x14, 7, 10, 0, 0x80, 0, peer_cid, 0, 100, 0, 23, 0, 5, 0])
}

/// A packet of some kind from a link whose channel has, or had, this CID; now and then it is for another channel, comes cut, or is too long.
fn some_packet(numbers: &mut Numbers, link: ConnHandle, its: u8) -> Vec<u8> {
    let cid = if numbers.below(8) == 0 { 0x3E + numbers.below(20) as u8 } else { its };
    // With a job's length a frame has up to 25 octets; the printer takes 23.
    let count = numbers.below(24) as usize;
    let mut packet = match numbers.below(12) {
        0 => connect(0x50),
        1 => packet(5, &[0x06, 9, 4, 0, cid, 0, 0x50, 0]),
        2 => packet(5, &[0x07, 9, 4, 0, 0x50, 0, cid, 0]),
        3 => packet(5, &[0x16, 9, 4, 0, 0x50, 0, 1, 0]),
        4 => packet(5, &[&[numbers.below(256) as u8, 9, numbers.below(5) as u8, 0][..], &vec![1; count]].concat()),
        5 | 6 => packet(cid.into(), &[&[numbers.below(60) as u8, 0][..], &vec![ink(link); count]].concat()),
        7 | 8 => packet(cid.into(), &[&[count as u8, 0][..], &vec![ink(link); count]].concat()),
        _ => packet(cid.into(), &vec![ink(link); count]),
    };
    match numbers.below(50) {
        0 => packet.truncate(numbers.below(packet.len() as u32) as usize),
        1 => packet.push(0),
        _ => {}
    }
    packet
}

/// One phone asks for channel after channel, breaks those that it got, and never answers: it has two slots, and fourteen other phones have theirs. Once its
/// time is over it has none.
#[test]
fn one_link_has_two_channels_at_most() {
    let mut room = [0; room_octets(16, 1, 64)];
    let mut printer = Printer::new(&mut room).unwrap();
    let mut paper = Paper::default();
    let phone = ConnHandle::from(0);
    let ask = |printer: &mut Printer<'_>, paper: &mut Paper, link, peer_cid| {
        printer.packet(link, &connect(peer_cid), paper).unwrap();
        paper.results.pop()
    };
    let asked = [0x50, 0x51, 0x52, 0x53].map(|peer_cid| ask(&mut printer, &mut paper, phone, peer_cid));
    assert_eq!(asked, [Some(0), Some(0), Some(4), Some(4)]);
    for cid in [0x40, 0x41] {
        printer.packet(phone, &packet(cid, &[]), &mut paper).unwrap_err();
    }
    assert_eq!(ask(&mut printer, &mut paper, phone, 0x54), Some(4));
    let others: Vec<_> = (1..16).map(|link| ask(&mut printer, &mut paper, ConnHandle::from(link), 0x50)).collect();
    assert_eq!(others, [&[Some(0); 14][..], &[Some(4)]].concat());

    printer.unanswered(phone, &mut paper).unwrap();
    assert_eq!(ask(&mut printer, &mut paper, ConnHandle::from(15), 0x50), Some(0));
    assert_eq!(ask(&mut printer, &mut paper, phone, 0x50), Some(0));
    // Channels are open: a printer that were dropped as it stands would panic here.
    printer.put_away();
}

/// Twenty links send anything, and go down now and then. No job has another link's octets; afterwards sixteen phones get their channels, and the next
/// none: no slot was lost, and no hold.
#[test]
fn a_printer_outlives_anything() {
    let mut room = [0; room_octets(16, 1, 64)];
    let mut printer = Printer::new(&mut room).unwrap();
    let (mut paper, mut numbers) = (Paper::default(), Numbers(17));
    for _ in 0..40_000 {
        let link = ConnHandle::from(numbers.below(20) as u16);
        let _ = printer.packet(link, &some_packet(&mut numbers, link, paper.cids[usize::from(link.0)]), &mut paper);
        if numbers.below(100) == 0 {
            printer.link_down(link, &mut paper).unwrap();
        }
    }
    assert!(paper.jobs > 500, "only {} jobs", paper.jobs);
    let links = || (0..20).map(ConnHandle::from);
    for link in links() {
        printer.link_down(link, &mut paper).unwrap();
    }
    paper.results.clear();
    for link in links().take(17) {
        printer.packet(link, &connect(0x50), &mut paper).unwrap();
    }
    assert_eq!(paper.results, [&[0; 16][..], &[4]].concat());
    for link in links() {
        printer.link_down(link, &mut paper).unwrap();
    }
}
