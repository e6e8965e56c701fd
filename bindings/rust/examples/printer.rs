//! A printer's loop. `Printer::packet` takes one whole L2CAP packet that came on a link, and sends and prints all that it calls for: replies, credits,
//! disconnects, jobs; `Printer::reply` sends a sheet of the printer's own, a line at a time; `Printer::service` gives the rows of a service screen. It needs no heap and no `std`, so that a firmware can take it over as it stands; `main` plays a scene with it.
//!
//!     cargo run --example printer

use l2cap_channels::{
    room_octets, ChannelIndex, ChannelManager, ChannelState, Cid, ConnHandle, CreditFlowPolicy, Hold, L2capChannelConfig, LeConnRole,
    LeCreditConnResultCode, Refusal, Slot, Tallies, CID_BASE, SIGNAL_OCTETS, SIZE_LEAST, SLOTS,
};

const CHANNELS: u16 = 16;
const QUEUE: u16 = 1;
const PACKET: u16 = 64;
const ROOM: usize = room_octets(CHANNELS, QUEUE, PACKET);
const SPSM: u16 = 0x80;

/// Frames of 23 octets, and as many credits as the longest job takes. Fewer don't compile.
const CONFIG: L2capChannelConfig = match ASKED.checked(QUEUE, PACKET) {
    Ok(config) => config,
    Err(_) => panic!("a job could stick"),
};
const ASKED: L2capChannelConfig =
    L2capChannelConfig { mtu: None, mps: Some(23), flow_policy: CreditFlowPolicy::Every(1), initial_credits: Some(3) };

/// The most channels of one link. A phone that never answers our disconnect request keeps its slot while its link is up, so that one link mustn't get
/// them all. A firmware with a clock has a timeout too, and calls [`Printer::unanswered`] then.
const LINK_CHANNELS: usize = 2;

/// The CID of the signalling channel.
const SIGNALLING: Cid = Cid(5);
/// The longest PDU of signals that is looked at. Feeding one costs time by the square of its signals, so that a phone mustn't choose its length.
const SIGNALS: usize = PACKET as usize - 4;

/// The octets of a line of a reply sheet.
pub const LINE: usize = 16;
/// The longest frame of a reply sheet, with its header. A phone of a larger MPS gets none (refusal 3).
const FRAME: usize = 4 + 251;

/// Where things go that leave the printer's loop.
pub trait Out {
    /// A packet for the controller, with its L2CAP header.
    fn send(&mut self, link: ConnHandle, packet: &[u8]);

    /// A job that is whole.
    fn print(&mut self, link: ConnHandle, job: &[u8]);
}

/// Why a packet came to less than it asked for. What was due is done nevertheless.
#[derive(Clone, Copy, Debug, PartialEq, Eq)]
pub enum Fault {
    /// It has fewer or more octets than its header says, or more signals than fit in a packet of ours. Where it was a frame of an open channel, that
    /// channel is closed: its job can't be whole.
    Length,
    /// Its CID is another protocol's: ATT has 4, the security manager 6.
    Foreign,
    /// The manager refused it.
    Refused(Refusal),
}

impl From<Refusal> for Fault {
    fn from(refusal: Refusal) -> Self {
        Self::Refused(refusal)
    }
}

/// The channels of all phones, and the printer's hold on each that is open.
pub struct Printer<'r> {
    channels: ChannelManager<'r>,
    holds: [Option<Hold>; SLOTS as usize],
}

impl<'r> Printer<'r> {
    /// A printer to which phones connect on [`SPSM`].
    pub fn new(room: &'r mut [u8; ROOM]) -> Result<Self, Refusal> {
        let mut channels = ChannelManager::new(CHANNELS, QUEUE, PACKET, room)?;
        channels.register_spsm(SPSM)?;
        Ok(Self { channels, holds: [const { None }; SLOTS as usize] })
    }

    /// One whole L2CAP packet that came on a link: its length, its CID, its payload.
    pub fn packet(&mut self, link: ConnHandle, packet: &[u8], out: &mut impl Out) -> Result<(), Fault> {
        let came = match parts(packet) {
            Some((SIGNALLING, Some(pdu))) if pdu.len() <= SIGNALS => self.signals(link, pdu, out),
            Some((SIGNALLING, _)) | None => Err(Fault::Length),
            Some((cid, _)) if cid.0 < CID_BASE => Err(Fault::Foreign),
            Some((cid, Some(payload))) => self.frame(link, cid, payload),
            Some((cid, None)) => self.broken(link, cid),
        };
        self.settle(out)?;
        came
    }

    /// The controller says that a link is down.
    pub fn link_down(&mut self, link: ConnHandle, out: &mut impl Out) -> Result<(), Fault> {
        self.channels.disconnected(link)?;
        self.settle(out)
    }

    /// A reply sheet for a phone, rendered while it is sent: no more of it than a line and a frame is ever in memory. What refuses it before its first frame has
    /// sent nothing (14: again after the phone's next credits).
    pub fn reply(
        &mut self,
        index: ChannelIndex,
        lines: usize,
        mut render: impl FnMut(usize) -> [u8; LINE],
        out: &mut impl Out,
    ) -> Result<(), Fault> {
        let mut buffer = [0; FRAME];
        let mut job = self.channels.start_job(index, lines.saturating_mul(LINE), &mut buffer)?;
        for line in 0..lines {
            job.give_all(&mut self.channels, &render(line), |link, frame| out.send(link, frame))?;
        }
        // A sheet of no line is a job too: one empty portion sends it.
        if !job.is_done() {
            job.give_all(&mut self.channels, &[], |link, frame| out.send(link, frame))?;
        }
        Ok(())
    }

    /// A row of the service screen for each slot that has a channel: whose it is, and what it came to so far.
    pub fn service(&self, mut row: impl FnMut(ChannelIndex, ConnHandle, Tallies)) -> Result<(), Fault> {
        for index in (0..SLOTS).map(ChannelIndex::from) {
            if let Some(slot) = self.channels.table().slot(index).filter(|slot| slot.state != ChannelState::Disconnected) {
                row(index, slot.handle, self.channels.tallies(index)?);
            }
        }
        Ok(())
    }

    /// The phone of a link hasn't answered our disconnect requests in a time that the firmware sets: their slots are closed without an answer.
    pub fn unanswered(&mut self, link: ConnHandle, out: &mut impl Out) -> Result<(), Fault> {
        for index in (0..SLOTS).map(ChannelIndex::from) {
            if self.slot(index, link).is_some_and(|slot| slot.state == ChannelState::Disconnecting(true)) {
                // It closes the slot, and says so by 18. What it was refused by before that, `settle` is too.
                let _ = self.channels.opened(index, link, true);
            }
        }
        self.settle(out)
    }

    /// The printer ends, and its table with it: no hold counts any more. Phones aren't told; a firmware whose links stay up takes them down first.
    pub fn put_away(self) {
        for hold in self.holds.into_iter().flatten() {
            hold.into_index();
        }
    }

    /// A slot that this link has, in any state but closed.
    fn slot(&self, index: ChannelIndex, link: ConnHandle) -> Option<Slot> {
        self.channels.table().slot(index).filter(|slot| slot.state != ChannelState::Disconnected && slot.handle == link)
    }

    /// Every signal of a PDU; then a phone that asks for a channel gets one, unless its link has enough. The first refusal is told, once all signals are
    /// handled.
    fn signals(&mut self, link: ConnHandle, pdu: &[u8], out: &mut impl Out) -> Result<(), Fault> {
        let mut came = Ok(());
        self.channels.feed_pdu(link, true, LeConnRole::Peripheral, pdu, |outcome, reply| {
            if !reply.is_empty() {
                out.send(link, reply);
            }
            came = came.and(outcome.map(|_| ()));
        });
        let mut signal = [0; SIGNAL_OCTETS];
        while let Some(hold) = self.channels.next_pending(link, true)? {
            let index = hold.index();
            // The one that asks is among them.
            if (0..SLOTS).filter(|index| self.slot(ChannelIndex::from(*index), link).is_some()).count() > LINK_CHANNELS {
                let response =
                    self.channels.reject_pending(hold, LeCreditConnResultCode::NoResources, &mut signal).map_err(Refusal::from)?;
                out.send(response.handle, response.octets);
                continue;
            }
            match self.channels.accept_pending(index, &CONFIG, &mut signal) {
                Ok(response) => {
                    out.send(response.handle, response.octets);
                    if let Some(place) = self.holds.get_mut(usize::from(index.0)) {
                        *place = Some(hold);
                    }
                }
                Err(refusal) => {
                    self.channels.dec_ref(hold).map_err(Refusal::from)?;
                    return Err(refusal.into());
                }
            }
        }
        Ok(came?)
    }

    /// A frame of a channel. A phone that sends without a credit loses its channel (Core, Vol 3 Part A, 10.1); the manager leaves that to us.
    fn frame(&mut self, link: ConnHandle, cid: Cid, payload: &[u8]) -> Result<(), Fault> {
        let came = self.channels.dispatch(link, cid, payload);
        if came == Err(Refusal::OutOfMemory) {
            self.channels.disconnect_by_cid(cid)?;
        }
        Ok(came?)
    }

    /// A frame that isn't whole: what came of its job must not be joined with what comes next. Only the channel's own link can close it so.
    fn broken(&mut self, link: ConnHandle, cid: Cid) -> Result<(), Fault> {
        if let Some(index) = cid.index().filter(|index| self.slot(*index, link).is_some()) {
            self.channels.disconnect(index)?;
        }
        Err(Fault::Length)
    }

    /// All that is due: jobs that wait, then disconnects, with which waiting jobs would go, then the holds on channels that are closed.
    fn settle(&mut self, out: &mut impl Out) -> Result<(), Fault> {
        // A packet's octets hold the longest job: no take is refused by 12, which would leave the job where the disconnects below wipe it.
        let (mut job, mut signal) = ([0; PACKET as usize], [0; SIGNAL_OCTETS]);
        for index in self.channels.attention()?.set {
            // An attempt of the printer's own that failed calls too, and has no job: that is 11, and the rest is due all the same. Whoever made it asks
            // `opened` later, which tells why and closes the slot; before the disconnects below it would close a slot whose request isn't out yet. Other
            // refusals come again below.
            while let Ok(Some(taken)) = self.channels.receive(index, &mut job, &mut signal) {
                out.print(taken.handle, taken.sdu);
                if !taken.credits.is_empty() {
                    out.send(taken.handle, taken.credits);
                }
            }
        }
        while let Some(due) = self.channels.next_disconnect(&mut signal)? {
            out.send(due.handle, due.octets);
        }
        for index in self.channels.table().held() {
            if let Some(hold) = self.holds.get_mut(usize::from(index.0)).and_then(Option::take) {
                self.channels.dec_ref(hold).map_err(Refusal::from)?;
            }
        }
        Ok(())
    }
}

/// A packet's CID and its payload, if that is as long as the header says; nothing of less than a header.
fn parts(packet: &[u8]) -> Option<(Cid, Option<&[u8]>)> {
    let (header, payload) = packet.split_first_chunk::<4>()?;
    let length = u16::from_le_bytes([header[0], header[1]]);
    let cid = Cid::from(u16::from_le_bytes([header[2], header[3]]));
    Some((cid, (payload.len() == usize::from(length)).then_some(payload)))
}

// ---- the scene

/// What left the printer.
#[derive(Default)]
pub struct Desk {
    sent: Vec<(ConnHandle, Vec<u8>)>,
    printed: Vec<(ConnHandle, Vec<u8>)>,
}

impl Out for Desk {
    fn send(&mut self, link: ConnHandle, packet: &[u8]) {
        self.sent.push((link, packet.to_vec()));
    }

    fn print(&mut self, link: ConnHandle, job: &[u8]) {
        self.printed.push((link, job.to_vec()));
    }
}

impl Desk {
    /// The codes of the signals that went out on a link since this was asked last. Each is behind a header of four octets.
    fn codes(&mut self, link: ConnHandle) -> Vec<u8> {
        let (its, others) = std::mem::take(&mut self.sent).into_iter().partition(|(to, _)| *to == link);
        self.sent = others;
        its.iter().map(|(_, packet): &(ConnHandle, Vec<u8>)| packet[4]).collect()
    }
}

fn packet(cid: u16, payload: &[u8]) -> Vec<u8> {
    let mut packet = (payload.len() as u16).to_le_bytes().to_vec();
    packet.extend(cid.to_le_bytes());
    packet.extend(payload);
    packet
}

/// The service screen, a line for each channel.
fn screen(printer: &Printer<'_>) -> Vec<String> {
    let mut lines = Vec::new();
    let row = |index: ChannelIndex, link: ConnHandle, tallies: Tallies| {
        let Tallies { sent, received, blocked_sends, blocked_receives } = tallies;
        lines.push(format!(
            "slot {}, link {}: {sent} out, {received} in, blocked {blocked_sends} out, {blocked_receives} in",
            index.0, link.0
        ));
    };
    printer.service(row).expect("a table");
    lines
}

/// A phone's connect request, from its own CID 0x50: jobs up to 100 octets, frames of 23, five credits.
fn connect() -> Vec<u8> {
    connect_with(SIZE_LEAST as u8)
}

/// The same with other frames.
fn connect_with(mps: u8) -> Vec<u8> {
    packet(5, &[0x14, 7, 10, 0, 0x80, 0, 0x50, 0, 100, 0, mps, 0, 5, 0])
}

const RESPONSE: u8 = 0x15;
const CREDITS: u8 = 0x16;
const DISCONNECT_REQUEST: u8 = 0x06;
const DISCONNECT_RESPONSE: u8 = 0x07;

pub fn main() {
    let mut room = [0; ROOM];
    let mut printer = Printer::new(&mut room).expect("a printer");
    let mut desk = Desk::default();
    let [anna, ben, cleo] = [1, 2, 3].map(ConnHandle::from);

    // Anna's phone connects and sends a job in two frames: slot 0, whose CID is 0x40.
    assert_eq!(printer.packet(anna, &connect(), &mut desk), Ok(()));
    assert_eq!(desk.codes(anna), [RESPONSE]);
    assert_eq!(printer.packet(anna, &packet(0x40, b"\x1A\0ticket 1, row 4, se"), &mut desk), Ok(()));
    assert!(desk.printed.is_empty());
    assert_eq!(printer.packet(anna, &packet(0x40, b"at 17 A"), &mut desk), Ok(()));
    assert_eq!(desk.printed.pop(), Some((anna, b"ticket 1, row 4, seat 17 A".to_vec())));
    assert_eq!(desk.codes(anna), [CREDITS]);

    // The printer answers with a sheet of three lines: two frames that are full, and the four octets that are left. Five credits are enough for one.
    let sheet = |line: usize| [*b"2 tickets, row 4", *b", seats 17 A and", *b" B. Doors: 19:30"][line];
    assert_eq!(printer.reply(ChannelIndex(0), 3, sheet, &mut desk), Ok(()));
    let frames: Vec<Vec<u8>> = std::mem::take(&mut desk.sent).into_iter().map(|(_, frame)| frame).collect();
    assert_eq!(frames[0], packet(0x50, b"\x30\x002 tickets, row 4, sea"));
    assert_eq!(frames[1..], [packet(0x50, b"ts 17 A and B. Doors: 1"), packet(0x50, b"9:30")]);
    assert_eq!(printer.reply(ChannelIndex(0), 3, sheet, &mut desk), Err(Fault::Refused(Refusal::Busy)));
    assert_eq!(printer.reply(ChannelIndex(0), 0, sheet, &mut desk), Ok(()));
    assert_eq!(desk.sent.pop(), Some((anna, packet(0x50, &[0, 0]))));
    // The sheet's three frames and the empty one; the job's two; and the sheet that had to wait, once.
    assert_eq!(screen(&printer), ["slot 0, link 1: 4 out, 2 in, blocked 1 out, 0 in"]);

    // Ben's phone closes its channel in the middle of a job. Cleo's gets the slot, and her job comes out clean.
    assert_eq!(printer.packet(ben, &connect(), &mut desk), Ok(()));
    assert_eq!(printer.packet(ben, &packet(0x41, b"\x20\0half of a tick"), &mut desk), Ok(()));
    assert_eq!(printer.packet(ben, &packet(5, &[0x06, 8, 4, 0, 0x41, 0, 0x50, 0]), &mut desk), Ok(()));
    assert_eq!(desk.codes(ben), [RESPONSE, DISCONNECT_RESPONSE]);
    assert_eq!(printer.packet(cleo, &connect(), &mut desk), Ok(()));
    assert_eq!(printer.packet(cleo, &packet(0x41, b"\x08\0ticket 3"), &mut desk), Ok(()));
    assert_eq!(desk.printed.pop(), Some((cleo, b"ticket 3".to_vec())));
    assert_eq!(desk.codes(cleo), [RESPONSE, CREDITS]);
    // Ben's frame isn't hers.
    assert_eq!(screen(&printer)[1..], ["slot 1, link 3: 0 out, 1 in, blocked 0 out, 0 in"]);

    // A frame of Cleo's comes cut: her channel is closed. The same from another link does nothing.
    let cut = &packet(0x41, b"\x08\0ticket 4")[..10];
    assert_eq!(printer.packet(ben, cut, &mut desk), Err(Fault::Length));
    assert_eq!(desk.codes(cleo), []);
    assert_eq!(printer.packet(cleo, cut, &mut desk), Err(Fault::Length));
    assert_eq!(desk.codes(cleo), [DISCONNECT_REQUEST]);
    assert_eq!(printer.packet(cleo, &packet(5, &[0x07, 1, 4, 0, 0x50, 0, 0x41, 0]), &mut desk), Ok(()));

    // Ben's phone comes back and sends more frames than it has credits for: its channel is closed too.
    assert_eq!(printer.packet(ben, &connect(), &mut desk), Ok(()));
    assert_eq!(printer.packet(ben, &packet(0x41, b"\x20\0a"), &mut desk), Ok(()));
    assert_eq!(printer.packet(ben, &packet(0x41, b"b"), &mut desk), Ok(()));
    assert_eq!(printer.packet(ben, &packet(0x41, b"c"), &mut desk), Ok(()));
    assert_eq!(printer.packet(ben, &packet(0x41, b"d"), &mut desk), Err(Fault::Refused(Refusal::OutOfMemory)));
    assert_eq!(desk.codes(ben), [RESPONSE, DISCONNECT_REQUEST]);
    assert_eq!(printer.packet(ben, &packet(5, &[0x07, 2, 4, 0, 0x50, 0, 0x41, 0]), &mut desk), Ok(()));

    // Packets that are too long, too short for a header, full of signals, another protocol's or nobody's change nothing.
    let long = [connect(), vec![0]].concat();
    assert_eq!(printer.packet(ben, &long, &mut desk), Err(Fault::Length));
    assert_eq!(printer.packet(ben, &connect()[..3], &mut desk), Err(Fault::Length));
    assert_eq!(printer.packet(ben, &packet(5, &connect()[4..].repeat(5)), &mut desk), Err(Fault::Length));
    assert_eq!(printer.packet(ben, &packet(4, &[1]), &mut desk), Err(Fault::Foreign));
    assert_eq!(printer.packet(ben, &packet(0x60, &[1]), &mut desk), Err(Fault::Refused(Refusal::InvalidChannelId)));

    // The printer asks Anna's phone for a channel of its own. She refuses, and closes hers in the same packet: the attempt that failed stands in nobody's way.
    let mut signal = [0; SIGNAL_OCTETS];
    let request = printer.channels.create(anna, SPSM, &CONFIG, &mut signal).expect("a free slot");
    let (attempt, identifier) = (request.index, request.octets[5]);
    let refuses = [&[0x15, identifier, 10, 0, 0, 0, 0, 0, 0, 0, 0, 0, 4, 0][..], &[0x06, 9, 4, 0, 0x40, 0, 0x50, 0]].concat();
    let no_resources = Refusal::ConnectError(LeCreditConnResultCode::NoResources);
    assert_eq!(printer.packet(anna, &packet(5, &refuses), &mut desk), Err(Fault::Refused(no_resources)));
    assert_eq!(desk.codes(anna), [DISCONNECT_RESPONSE]);
    assert!(printer.holds.iter().all(Option::is_none));
    assert_eq!(printer.channels.opened(attempt, anna, true), Err(no_resources));

    // She accepts the next, with frames of 22 octets: nothing could be sent to her so. The printer's disconnect goes out with the packet that brought her response,
    // and only then does somebody ask `opened`; her response frees the slot.
    let request = printer.channels.create(anna, SPSM, &CONFIG, &mut signal).expect("a free slot");
    let (attempt, identifier) = (request.index, request.octets[5]);
    let accepts = [0x15, identifier, 10, 0, 0x51, 0, 100, 0, 22, 0, 5, 0, 0, 0];
    assert_eq!(printer.packet(anna, &packet(5, &accepts), &mut desk), Err(Fault::Refused(Refusal::InvalidValue)));
    assert_eq!(desk.codes(anna), [DISCONNECT_REQUEST]);
    assert_eq!(printer.packet(anna, &packet(5, &[0x07, 9, 4, 0, 0x51, 0, attempt.cid().0 as u8, 0]), &mut desk), Ok(()));
    assert_eq!(printer.channels.opened(attempt, anna, true), Err(Refusal::Disconnected));

    // Dora's old handset asks for frames of 10 octets. It is told that this is too little, and gets no slot.
    let dora = ConnHandle::from(4);
    assert_eq!(printer.packet(dora, &connect_with(10), &mut desk), Ok(()));
    let (_, response) = desk.sent.pop().expect("a response");
    assert_eq!((response[4], response[16]), (RESPONSE, LeCreditConnResultCode::UnacceptableParameters as u8));
    assert!(printer.holds.iter().all(Option::is_none));

    // Anna's link goes down. Nothing is left: no job, no packet, no hold, and every slot is free again.
    assert_eq!(printer.packet(anna, &connect(), &mut desk), Ok(()));
    assert_eq!(desk.codes(anna), [RESPONSE]);
    assert_eq!(printer.link_down(anna, &mut desk), Ok(()));
    assert!(desk.printed.is_empty() && desk.sent.is_empty());
    assert!(printer.holds.iter().all(Option::is_none));
    assert!(printer.channels.table().slot(ChannelIndex(0)) == printer.channels.table().slot(ChannelIndex(15)));
    println!("printed: ticket 1 and ticket 3, each whole and once; Anna has her sheet; Ben's half job is gone; no slot is held");
}
