//! What a call asks, in words.

use crate::refusals::result;
use crate::seen::Seen;
use crate::signal::{parameters_result, signal, too_small, Writer};
use crate::words::{count, parameters, phone, policy};
use language::{signals, Call, Config, State};

/// What was asked of the table as it was before the call.
pub fn asked(call: &Call, before: &Seen) -> String {
    let at = |slot: &u16| before.phone_at(*slot);
    let to = |slot: &u16| before.link_at(*slot).map_or(format!("at slot {slot}"), |link| format!("to {} (slot {slot})", phone(link)));
    let link_is = |up: &bool| if *up { "the link is up" } else { "the link is down" };
    match call {
        Call::Make { n, d, m } => {
            format!("make a table: {}, {} can wait at a slot, packets of {}", count(*n, "slot"), count(*d, "job"), count(*m, "octet"))
        }
        Call::Register { spsm } => format!("register SPSM {spsm}, so that phones can ask for it"),
        Call::Signal { link, listening, central, pdu } => {
            format!("{} sends {}{}", phone(*link), said(pdu, before), circumstances(pdu, *listening, *central))
        }
        Call::NextPending { link, up } => format!("does {} wait for an answer? ({})", phone(*link), link_is(up)),
        Call::RejectStep { link } => format!("reject the next request of {} that waits", phone(*link)),
        Call::Accept { slot, config } => format!("accept {}, with {}", at(slot), configured(config)),
        Call::Reject { slot, result: code } => format!("reject {}: {}", at(slot), result(*code)),
        Call::DropPending { slot } => format!("drop the request of {}", at(slot)),
        Call::Create { link, spsm, config } => {
            format!("open a channel to {} for SPSM {spsm}, with {}", phone(*link), configured(config))
        }
        Call::Opened { slot, link, up } => format!("is our channel to {} (slot {slot}) open? ({})", phone(*link), link_is(up)),
        Call::GiveUp { slot } => format!("give up our channel {}", to(slot)),
        Call::AddHold { slot } => format!("add a hold to slot {slot}"),
        Call::Release { slot } => format!("release a hold of slot {slot}"),
        Call::Disconnect { slot } => format!("close the channel {}", to(slot)),
        Call::DisconnectByCid { cid } => format!("close the channel of our {}", before.cid(*cid)),
        Call::LinkDown { link } => format!("link {link} is down: its phone is gone"),
        Call::NextDisconnect => "is a disconnect due?".to_string(),
        Call::Frame { link, cid, payload } => {
            format!("{} sends a frame to {}: {}", phone(*link), before.cid(*cid), brought(*link, *cid, payload, before))
        }
        Call::Send { slot, sdu } => format!("send a job of {} {}", count(sdu.len(), "octet"), to(slot)),
        Call::Start { slot, length, size } => {
            format!("begin a job of {} {}, in portions, in a buffer of {}", count(*length, "octet"), to(slot), count(*size, "octet"))
        }
        Call::Portion { slot, octets, .. } => format!("give {} of the open job {}", count(octets.len(), "octet"), to(slot)),
        Call::Cancel { slot } => format!("cancel the open job {}", to(slot)),
        Call::Take { slot, size } => format!("take the oldest job of {} into a buffer of {}", at(slot), count(*size, "octet")),
        Call::Attention => "which slots call for attention?".to_string(),
        Call::Queries { slot } => format!("the numbers of slot {slot}"),
        Call::Tallies { slot } => format!("the tallies of {}", at(slot)),
        Call::ParameterRequest { link, min, max, latency, timeout } => {
            format!("ask {} for {}", phone(*link), parameters(*min, *max, *latency, *timeout))
        }
        Call::ParameterResponse { link, result } => {
            format!("answer the parameter request of {}: {}", phone(*link), parameters_result(*result))
        }
        Call::View => "show the table".to_string(),
        Call::Room { slot } => format!("show the room of slot {slot}"),
        Call::OpenJob { slot } => format!("show the open job of slot {slot}"),
        Call::Unread(_) => "nothing that can be read".to_string(),
    }
}

/// The signal of a PDU that has one, or what is wrong with its headers.
fn said(pdu: &[u8], before: &Seen) -> String {
    match signals(pdu) {
        Some(parts) => parts.first().map_or("a PDU of no signals".to_string(), |first| signal(first, Writer::Phone, before)),
        None => format!("a PDU of {}, cut off in the middle of a signal", count(pdu.len(), "octet")),
    }
}

/// What the answer to a signal hangs on besides, where it does.
fn circumstances(pdu: &[u8], listening: bool, central: bool) -> &'static str {
    match pdu.first() {
        Some(0x14) if !listening => " (nobody listens)",
        Some(0x14 | 0x15) if too_small(pdu) => " (Bluetooth's least is 23)",
        Some(0x12) if central => " (we are the central)",
        Some(0x12) => " (we are the peripheral)",
        _ => "",
    }
}

fn configured(config: &Config) -> String {
    let given = [
        config.mtu.map(|mtu| format!("jobs up to {}", count(mtu, "octet"))),
        config.mps.map(|mps| format!("frames up to {}", count(mps, "octet"))),
        config.credits.map(|credits| count(credits, "credit")),
        config.policy.map(policy),
    ];
    let given: Vec<String> = given.into_iter().flatten().collect();
    match given.len() {
        0 => "the usual sizes and credits".to_string(),
        4 => given.join(", "),
        _ => format!("{}, the rest as usual", given.join(", ")),
    }
}

/// What a frame brings to the slot that it names, where that is open to its phone.
fn brought(link: u16, cid: u16, payload: &[u8], before: &Seen) -> String {
    let octets = count(payload.len(), "octet");
    let slot = before.view.slot_of(cid).and_then(|slot| before.view.slots.get(slot));
    let Some(slot) = slot.filter(|slot| slot.state == State::Connected && slot.link == link) else {
        return octets;
    };
    if payload.len() > usize::from(slot.mps) {
        return format!("{octets}, where a frame to us has at most {}", slot.mps);
    }
    if slot.want > 0 {
        return format!("{octets} more of the job");
    }
    let [low, high, first @ ..] = payload else {
        return format!("{octets}, too few to say a job's length");
    };
    let length = u16::from_le_bytes([*low, *high]);
    if first.len() == usize::from(length) {
        format!("a whole job of {}", count(length, "octet"))
    } else if first.len() < usize::from(length) {
        format!("the first {} of a job's {}", first.len(), count(length, "octet"))
    } else {
        format!("{} for a job of {}", count(first.len(), "octet"), length)
    }
}
