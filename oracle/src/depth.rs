//! What deep places a run reached, counted: the list of issue texts and bench cases that a generator has to meet to be worth its time.

use crate::kinds::{fields, grants, signal_verdict};
use language::{signals, Answer, Call, Reply, SlotView, State, Tallies, View, SIZE_LEAST};

/// The notable things about one call, from the table before it and what the original answered.
pub fn marks(view: &View, call: &Call, reply: &Reply) -> Vec<&'static str> {
    let mut marks = Vec::new();
    let answered = reply.rows.last().map(|row| row.answer);
    let ok = answered == Some(Answer::Number(0));
    let named = call.slot().and_then(|slot| view.slots.get(usize::from(slot)));
    let columns = &reply.rows[0].columns;
    if let (Call::Take { size, .. }, Some(slot)) = (call, named) {
        marks.extend(buffer(slot, *size));
    }
    marks.extend(counted(view, call, answered));
    match call {
        Call::Frame { link, cid, payload } => {
            let slot = view.slot_of(*cid).map(|slot| &view.slots[slot]);
            let joins = slot.is_some_and(|slot| slot.state == State::Connected && slot.want > 0);
            let ends = slot.is_some_and(|slot| usize::from(slot.have) + payload.len() == usize::from(slot.want));
            if joins && ends && ok {
                marks.push("a job of several frames joined");
            }
            if joins && answered == Some(Answer::Number(9)) {
                marks.push("a frame past the job's end");
            }
            if answered == Some(Answer::Number(21)) {
                marks.push("a job dropped at a full queue");
            }
            let open = slot.filter(|slot| slot.state == State::Connected && slot.link == *link && slot.credits > 0);
            match open.map(|slot| payload.len().checked_sub(slot.mps.into())) {
                Some(Some(0)) => marks.push(if joins { "a joining frame of exactly our MPS" } else { "a first frame of exactly our MPS" }),
                Some(Some(1)) => {
                    marks.push(if joins { "a joining frame one octet past our MPS" } else { "a first frame one octet past our MPS" })
                }
                _ => {}
            }
        }
        Call::Take { .. } if ok && columns.len() == 3 => {
            marks.push("a job taken");
            if columns[2] != "-" {
                marks.push("credits granted");
            }
        }
        Call::Send { .. } if ok && columns.len() == 1 => {
            if columns[0] != "1" {
                marks.push("a job sent in several frames");
            }
            if named.is_some_and(|slot| slot.peer_credits.to_string() == columns[0]) {
                marks.push("the last peer credit used");
            }
        }
        Call::Start { length, .. } if ok && !columns.is_empty() => {
            marks.push(if *length == 0 { "a job of 0 octets begun" } else { "a job in portions begun" });
            if view.slots.iter().filter(|slot| slot.job.is_some()).count() > 0 {
                marks.push("two jobs open at once");
            }
        }
        Call::Portion { octets, .. } if ok => {
            let job = named.and_then(|slot| slot.job);
            if columns[1] == "1" {
                marks.push(if job.is_some_and(|job| job.aside == 1) {
                    "the last frame of a job in portions"
                } else {
                    "a frame of a job in portions"
                });
                if columns[0] != octets.len().to_string() {
                    marks.push("a portion that goes past its frame's end");
                }
            } else if octets.is_empty() {
                marks.push("an empty portion");
            }
        }
        Call::Portion { .. } if answered == Some(Answer::Number(25)) => marks.push("more octets than stated"),
        Call::Cancel { .. } if ok => marks.push("a job cancelled before its first frame"),
        Call::LinkDown { link } if view.slots.iter().any(|slot| slot.is_of(*link) && slot.state == State::Connected && slot.want > 0) => {
            marks.push("a link down in the middle of a job");
        }
        Call::Signal { link, listening, pdu, .. } => {
            let parts = signals(pdu).unwrap_or_default();
            marks.extend(parts.iter().filter_map(|part| sizes(view, *link, *listening, part)));
            if parts.len() > 1 {
                marks.push("several signals in one PDU");
            }
            let open = |slot: &language::SlotView| slot.is_of(*link) && slot.state == State::Connected && slot.want > 0;
            if parts.iter().any(|part| part[0] == 0x06) && view.slots.iter().any(open) {
                marks.push("a peer's disconnect while its link has a job half sent");
            }
        }
        _ => {}
    }
    let taken = |wanted: fn(&State) -> bool| view.slots.iter().any(|slot| wanted(&slot.state));
    if taken(|state| matches!(state, State::Connecting(_))) && taken(|state| matches!(state, State::PeerConnecting(_))) {
        marks.push("both sides opening");
    }
    let mut links: Vec<u16> = view.slots.iter().filter(|slot| !slot.free()).map(|slot| slot.link).collect();
    links.sort_unstable();
    links.dedup();
    if links.len() > 2 {
        marks.push("three links or more at once");
    }
    if view.slots.iter().any(|slot| slot.state == State::Connected && slot.peer_credits == 65_535) {
        marks.push("peer credits at 65,535");
    }
    if view.slots.iter().any(|slot| slot.jobs.len() == usize::from(view.d) && !slot.free()) {
        marks.push("a full queue");
    }
    if view.slots.len() > 3 && view.slots.iter().all(|slot| slot.state == State::Connected) {
        marks.push("four slots or more, all connected");
    }
    let attempt = |slot: &language::SlotView| match slot.state {
        State::Connecting(identifier) => Some(identifier),
        _ => None,
    };
    let waiting: Vec<u8> = view.slots.iter().filter_map(attempt).collect();
    if (1..waiting.len()).any(|at| waiting[..at].contains(&waiting[at])) {
        marks.push("two attempts with one identifier");
    }
    if view.slots.iter().any(|slot| slot.free() && slot.hold > 0) {
        marks.push("a free slot that is held");
    }
    if view.next_identifier == 255 && matches!(call, Call::Create { .. } | Call::NextDisconnect | Call::Take { .. }) {
        marks.push("identifier 255 before a request, grant or attempt");
    }
    marks
}

/// What counts, and what ends the counting of a channel that has counted.
fn counted(view: &View, call: &Call, answered: Option<Answer>) -> Vec<&'static str> {
    let has = |slot: &&SlotView| slot.tallies != slot.inherited;
    let left = |slot: &&SlotView| slot.inherited != Tallies::default();
    let cid = match call {
        Call::Frame { cid, .. } | Call::DisconnectByCid { cid } => view.slot_of(*cid),
        _ => call.slot().map(usize::from),
    };
    let named = cid.and_then(|slot| view.slots.get(slot));
    let open = |slot: &SlotView| slot.state == State::Connected;
    let done = answered == Some(Answer::Number(0));
    let mut marks = Vec::new();
    match (call, answered) {
        (Call::Send { .. }, Some(Answer::Number(14))) => marks.push("a blocked send"),
        (Call::Start { .. }, Some(Answer::Number(14))) => marks.push("a blocked start"),
        (Call::Frame { .. }, Some(Answer::Number(10))) => marks.push("a blocked receive"),
        (Call::Frame { .. }, Some(Answer::Number(9))) if named.filter(has).is_some() => {
            marks.push("a frame ends a channel that has counted");
        }
        (Call::Disconnect { .. } | Call::DisconnectByCid { .. }, _) if named.filter(has).is_some_and(open) => {
            marks.push("a disconnect of a channel that has counted");
        }
        (Call::Release { .. }, _) if named.filter(has).is_some_and(|slot| open(slot) && slot.hold == 1) => {
            marks.push("a last release of a channel that has counted");
        }
        (Call::GiveUp { .. }, _) if named.filter(has).is_some_and(open) && done => marks.push("a give-up of a channel that has counted"),
        (Call::Opened { up, link, .. }, Some(Answer::Number(18))) if named.filter(has).is_some_and(|slot| slot.link == *link) => {
            marks.push(if *up {
                "an attempt asked for behind its peer's disconnect, and it has counted"
            } else {
                "an attempt asked for with its link down, and it has counted"
            });
        }
        (Call::LinkDown { link }, _) if view.slots.iter().filter(has).any(|slot| slot.is_of(*link)) => {
            marks.push("a link down that has a channel that has counted");
        }
        (Call::NextDisconnect, _) => {
            let due = view.slots.iter().find(|slot| slot.disconnect_due());
            if due.filter(has).is_some() {
                marks.push("a disconnect answered of a channel that has counted");
            }
        }
        (Call::Accept { .. }, _) if done && named.filter(left).is_some() => {
            marks.push("a pending accepted in a slot whose last owner's tallies stand")
        }
        (Call::Signal { link, pdu, .. }, _) => {
            let of_link = |slot: &&SlotView| slot.is_of(*link);
            for part in signals(pdu).unwrap_or_default() {
                match part[0] {
                    0x06 if view.slots.iter().filter(of_link).filter(has).any(open) => {
                        marks.push("a peer's disconnect where its link has a channel that has counted");
                    }
                    0x15 if done
                        && view.slots.iter().filter(of_link).filter(left).any(|slot| matches!(slot.state, State::Connecting(_))) =>
                    {
                        marks.push("an attempt answered in a slot whose last owner's tallies stand");
                    }
                    0x16 if answered == Some(Answer::Number(9)) && view.slots.iter().filter(of_link).filter(has).any(open) => {
                        marks.push("credits past 65,535 where their link has a channel that has counted");
                    }
                    _ => {}
                }
            }
        }
        _ => {}
    }
    marks
}

/// How a take's buffer stands to the job.
fn buffer(slot: &SlotView, size: u16) -> Vec<&'static str> {
    let open = slot.state == State::Connected;
    let closing = matches!(slot.state, State::Disconnecting { .. } | State::PeerDisconnecting(_));
    let one = |of_open, of_closing| vec![if open { of_open } else { of_closing }];
    let mut marks = match slot.jobs.first() {
        _ if !(open || closing) => vec!["a take from a slot that is neither open nor disconnecting"],
        None if size == 0 => one("no job waits, a buffer of 0 octets", "no job waits while disconnecting, a buffer of 0 octets"),
        None => vec![],
        Some(0) if size == 0 => vec!["a job of 0 octets into 0 octets"],
        Some(job) if size == *job => one("a buffer of exactly the job", "a buffer of exactly the job while disconnecting"),
        Some(job) if size == job + 1 => one("a buffer one octet longer than the job", "one octet longer while disconnecting"),
        Some(job) if size > *job => vec![],
        Some(job) if size + 1 == *job => one("a buffer one octet short", "a buffer one octet short while disconnecting"),
        Some(_) if size == 0 => one("a job into 0 octets", "a job into 0 octets while disconnecting"),
        Some(_) => one("a buffer two octets short or more", "a buffer two octets short or more while disconnecting"),
    };
    if open && slot.jobs.first().is_some_and(|job| size < *job) {
        if slot.received > 0 && grants(slot) {
            marks.push("a short buffer where credits are due");
        }
        if slot.jobs.len() > 1 {
            marks.push("a short buffer with another job behind");
        }
    }
    marks
}

/// What an opening tells of its sender's MTU and MPS, where they are 23 or below.
fn sizes(view: &View, link: u16, listening: bool, signal: &[u8]) -> Option<&'static str> {
    let (mtu, mps, good) = match (signal[0], &fields(signal)?[..]) {
        (0x14, [_, _, mtu, mps, _]) => (*mtu, *mps, true),
        (0x15, [_, mtu, mps, _, result]) => (*mtu, *mps, *result == 0),
        _ => return None,
    };
    let one = |of_request, of_response| Some(if signal[0] == 0x14 { of_request } else { of_response });
    match (mtu < SIZE_LEAST, mps < SIZE_LEAST) {
        (false, false) if !good || mtu.min(mps) > SIZE_LEAST => None,
        (false, false) => one("a request at 23", "a response at 23"),
        _ if signal_verdict(view, link, listening, signal).is_none() => {
            one("a request below 23 that an earlier test refuses", "a response below 23 that an earlier test refuses")
        }
        (true, false) => one("a request with its MTU below 23", "a response with its MTU below 23"),
        (false, true) => one("a request with its MPS below 23", "a response with its MPS below 23"),
        (true, true) => one("a request with both below 23", "a response with both below 23"),
    }
}
