//! Two managers that talk: one is the printer, the other plays sixteen phones, each on its own link. Jobs of every length go both ways, the frames of all
//! links mixed, and each comes out on its own link as it was sent.
//!
//!     cargo run --example two_managers

use l2cap_channels::{room_octets, ChannelManager, Cid, ConnHandle, CreditFlowPolicy, Hold, L2capChannelConfig, LeConnRole, SIGNAL_OCTETS};

const LINKS: u16 = 16;
const PACKET: u16 = 64;
const LONGEST: u16 = PACKET - 6;
const ROOM: usize = room_octets(LINKS, 1, PACKET);
const SPSM: u16 = 0x80;

/// Frames of 23 octets: the longest job is three, and the peer has credits for them.
const CONFIG: L2capChannelConfig =
    L2capChannelConfig { mtu: None, mps: Some(23), flow_policy: CreditFlowPolicy::Every(1), initial_credits: Some(3) };

/// Hands a signal that one manager wrote to the other, which has nothing to reply at once. Its first four octets are the L2CAP header.
fn signal(to: &mut ChannelManager<'_>, link: ConnHandle, packet: &[u8]) {
    to.feed_pdu(link, true, LeConnRole::Central, &packet[4..], |outcome, reply| assert_eq!((outcome, reply.len()), (Ok(None), 0)));
}

/// Opens a channel on a link: what the phone holds, and what the printer does.
fn connect(phones: &mut ChannelManager<'_>, printer: &mut ChannelManager<'_>, link: ConnHandle) -> (Hold, Hold) {
    let (mut ask, mut agree) = ([0; SIGNAL_OCTETS], [0; SIGNAL_OCTETS]);
    let request = phones.create(link, SPSM, &CONFIG, &mut ask).expect("a request");
    signal(printer, link, request.octets);
    let ours = printer.next_pending(link, true).expect("a good link").expect("a pending channel");
    let response = printer.accept_pending(ours.index(), &CONFIG, &mut agree).expect("a response");
    signal(phones, response.handle, response.octets);
    let theirs = phones.opened(request.index, link, true).expect("a good link").expect("an open channel");
    (theirs, ours)
}

/// A job that no other link or length has.
fn job(link: ConnHandle, length: u16) -> Vec<u8> {
    (0..length).map(|k| (link.0 * 59 + k * 7 + length) as u8).collect()
}

/// A job of this length on every link, from one manager to the other, a frame of each link in turn. How many frames they were.
fn round(from: &mut ChannelManager<'_>, to: &mut ChannelManager<'_>, senders: &[Hold], receivers: &[Hold], length: u16) -> usize {
    let mut sent: Vec<(ConnHandle, Vec<Vec<u8>>)> = Vec::new();
    let mut out = [0; 2 * PACKET as usize];
    for hold in senders {
        let link = from.table().slot(hold.index()).expect("a slot").handle;
        let frames = from.send(hold.index(), &job(link, length), &mut out).expect("frames");
        sent.push((frames.handle, frames.iter().map(<[u8]>::to_vec).collect()));
    }
    let most = sent.iter().map(|(_, frames)| frames.len()).max().unwrap_or(0);
    for k in 0..most {
        for (link, frames) in &sent {
            let frame = &frames[k];
            to.dispatch(*link, Cid::from(u16::from_le_bytes([frame[2], frame[3]])), &frame[4..]).expect("a frame that fits");
        }
    }
    let (mut octets, mut credits) = ([0; LONGEST as usize], [0; SIGNAL_OCTETS]);
    for hold in receivers {
        let taken = to.receive(hold.index(), &mut octets, &mut credits).expect("an open channel").expect("a job");
        assert_eq!(taken.sdu, job(taken.handle, length), "a job came out as another");
        signal(from, taken.handle, taken.credits);
    }
    sent.iter().map(|(_, frames)| frames.len()).sum()
}

pub fn main() {
    let (mut ours, mut theirs) = ([0; ROOM], [0; ROOM]);
    let mut printer = ChannelManager::new(LINKS, 1, PACKET, &mut ours).expect("a table");
    let mut phones = ChannelManager::new(LINKS, 1, PACKET, &mut theirs).expect("a table");
    printer.register_spsm(SPSM).expect("an SPSM");

    let links = (0..LINKS).map(|link| ConnHandle::from(0x100 + link));
    let (theirs, ours): (Vec<Hold>, Vec<Hold>) = links.map(|link| connect(&mut phones, &mut printer, link)).unzip();

    let (mut jobs, mut frames) = (0, 0);
    for length in 0..=LONGEST {
        frames += round(&mut phones, &mut printer, &theirs, &ours, length);
        frames += round(&mut printer, &mut phones, &ours, &theirs, length);
        jobs += theirs.len() + ours.len();
    }
    assert_eq!((jobs, frames), (1_888, 3_520));
    // What one side has sent the other has received, on every link; and nothing was blocked.
    let mut sent = 0;
    for (its, our) in theirs.iter().zip(&ours) {
        let (its, our) = (phones.tallies(its.index()).expect("a slot"), printer.tallies(our.index()).expect("a slot"));
        assert_eq!((its.sent, its.received), (our.received, our.sent));
        assert_eq!([its.blocked_sends, its.blocked_receives, our.blocked_sends, our.blocked_receives], [0; 4]);
        sent += its.sent + our.sent;
    }
    assert_eq!(sent, frames as u64);

    // The phones let go: their requests, the printer's responses; then the printer's holds.
    let (mut ask, mut answer) = ([0; SIGNAL_OCTETS], [0; SIGNAL_OCTETS]);
    for hold in theirs {
        phones.dec_ref(hold).expect("a hold");
        let request = phones.next_disconnect(&mut ask).expect("a table").expect("a disconnect");
        signal(&mut printer, request.handle, request.octets);
        let response = printer.next_disconnect(&mut answer).expect("a table").expect("a disconnect");
        signal(&mut phones, response.handle, response.octets);
    }
    assert_eq!((phones.table().held().bits(), printer.table().held().bits()), (0, 0xFFFF));
    for hold in ours {
        printer.dec_ref(hold).expect("a hold");
    }
    assert!(printer.table().held().is_empty());
    println!(
        "{LINKS} links, {jobs} jobs of 0 to {LONGEST} octets in {frames} frames, both ways: each came out on its own link as it was sent"
    );
}
