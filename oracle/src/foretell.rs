//! What stands after a call at which the tables part: the documents' rule alone, as the original went another way. Such a call ends its script.

use crate::kinds::{attempt, buffer, fields, Kind};
use language::{signals, Call, JobView, Sight, SlotView, State, Tallies};

/// Table and room after a call, or after signal `at` of an `S` line, from those before it. A refusal leaves both as they were, unless a line below says more.
pub fn foretold(before: Sight, call: &Call, at: usize, kind: Kind) -> Sight {
    let mut after = before;
    let cid = match call {
        Call::Frame { cid, .. } => after.view.slot_of(*cid),
        _ => None,
    };
    let slot = call.slot().map(usize::from).or(cid).unwrap_or(0);
    match (kind, call) {
        // "A create refused by 12 or 13 has used an identifier."
        (Kind::LocalMtu, Call::Create { .. }) => after.view.next_identifier = after.view.next_identifier.checked_add(1).unwrap_or(1),
        (Kind::DropElsewhere, _) => after.view.slots[slot].hold -= 1,
        // "A refusal by .. 10 counts as blocked."
        (Kind::NoPacket, _) if after.view.slots[slot].credits == 0 => {
            let blocked = &mut after.view.slots[slot].tallies.blocked_receives;
            *blocked = blocked.wrapping_add(1);
        }
        (Kind::ShortFrame | Kind::LongerThanLength | Kind::LongerThanMps | Kind::NoPacket, _) => disconnected(&mut after, slot),
        (Kind::LongFrame, Call::Send { sdu, .. }) => {
            granted(&mut after.view.slots[slot], sdu.len());
        }
        (Kind::LongFrame, Call::Start { length, size, .. })
            if usize::from(*size) >= buffer(&after.view.slots[slot], usize::from(*length)) =>
        {
            begun(&mut after, slot, *length)
        }
        (Kind::SetAside, Call::Signal { link, pdu, .. }) => {
            let cid = signals(pdu).unwrap_or_default()[at][4..6].to_vec();
            let named =
                |record: &SlotView| record.state == State::Connected && record.link == *link && record.peer_cid.to_le_bytes()[..] == cid;
            let slot = after.view.slots.iter().position(named).expect("the open channel that it names");
            left(&mut after, slot);
        }
        (Kind::LateCancel, _) => left(&mut after, slot),
        (Kind::BelowLeast, Call::Signal { link, pdu, .. }) => answered(&mut after, *link, signals(pdu).unwrap_or_default()[at]),
        (Kind::TakeWhileClosing | Kind::ZeroGrant, _) => taken(&mut after, slot),
        _ => {}
    }
    after
}

/// A frame that a channel can't take has used a credit, and its slot leaves Connected.
fn disconnected(sight: &mut Sight, slot: usize) {
    let record = &mut sight.view.slots[slot];
    (record.credits, record.received) = (record.credits - 1, record.received + 1);
    left(sight, slot);
}

/// A slot leaves Connected by our doing: its assembly's place is zeroed, its open job closed, of whose credits none come back, and its tallies reset.
fn left(sight: &mut Sight, slot: usize) {
    let state = State::Disconnecting { announced: false };
    let record = SlotView { state, have: 0, want: 0, job: None, tallies: Tallies::default(), ..sight.view.slots[slot].clone() };
    let d = sight.view.d;
    record.settle_places(sight.places_mut(slot), d);
    sight.view.slots[slot] = record;
}

/// A good response below 23 leaves its attempt to be disconnected, with the peer's numbers; a request below it has a reply and nothing more.
fn answered(sight: &mut Sight, link: u16, signal: &[u8]) {
    let attempt = attempt(&sight.view, link, signal[1]).filter(|_| signal[0] == 0x15);
    let Some(record) = attempt.map(|slot| &mut sight.view.slots[slot]) else { return };
    if let [dcid, mtu, mps, credits, _] = fields(signal).unwrap_or_default()[..] {
        (record.peer_cid, record.peer_mtu, record.peer_mps, record.peer_credits) = (dcid, mtu, mps, credits);
    }
    record.state = State::Disconnecting { announced: false };
}

/// The credits of a job's frames are taken, and counted as sent: how many they are.
fn granted(record: &mut SlotView, length: usize) -> u16 {
    let frames = (length + 2).div_ceil(record.peer_mps.into()) as u16;
    record.peer_credits -= frames;
    record.tallies.sent = record.tallies.sent.wrapping_add(frames.into());
    frames
}

/// A job in portions is begun: its credits are set aside, and the first six octets of its first frame stand in the buffer.
fn begun(sight: &mut Sight, slot: usize, length: u16) {
    let record = &mut sight.view.slots[slot];
    let payload = (usize::from(length) + 2).min(record.peer_mps.into()) as u16;
    let frames = granted(record, length.into());
    record.job = Some(JobView { length, taken: 0, filled: 2, aside: frames });
    let octets = [payload, record.peer_cid, length].map(u16::to_le_bytes).concat();
    let buffer = &mut sight.buffers[slot];
    buffer.resize(buffer.len().max(octets.len()), 0);
    buffer[..octets.len()].copy_from_slice(&octets);
}

/// The oldest job is gone, and the later ones moved up one place.
fn taken(sight: &mut Sight, slot: usize) {
    sight.view.slots[slot].jobs.remove(0);
    let d = usize::from(sight.view.d);
    let places = sight.places_mut(slot);
    let place = places.len() / (d + 1);
    places.copy_within(2 * place.., place);
    places[d * place..].fill(0);
}
