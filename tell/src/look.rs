//! What the looking lines show: a table and a slot's part of the room.

use crate::seen::{held, Held, Seen};
use crate::words::{count, holds, phone, policy, short_hex, sizes, state};
use language::{JobView, Policy, SlotView, State, View};

/// A line for each slot; free slots beside one another have one line.
pub fn table(view: &View) -> Vec<String> {
    if view.slots.is_empty() {
        return vec!["there is no table".to_string()];
    }
    let plain = |slot: usize| view.slots.get(slot).is_some_and(|record| *record == SlotView::fresh());
    let mut lines = Vec::new();
    let mut slot = 0;
    while let Some(record) = view.slots.get(slot) {
        let last = (slot..).take_while(|slot| plain(*slot)).last().unwrap_or(slot);
        if last > slot {
            lines.push(format!("slots {slot} to {last}: free"));
        } else {
            lines.push(format!("slot {slot}: {}", in_full(slot, record)));
        }
        slot = last + 1;
    }
    lines
}

fn in_full(slot: usize, record: &SlotView) -> String {
    let hold = if record.hold > 0 { format!(", {}", holds(record.hold)) } else { String::new() };
    let mut facts = vec![state(record) + &hold];
    if !record.free() {
        let cid = usize::from(language::BASE_ID) + slot;
        facts.push(format!("{}, SPSM {}, our CID {cid}, its CID {}", phone(record.link), record.spsm, record.peer_cid));
        let ours = !matches!(record.state, State::PeerConnecting(_));
        let its = !matches!(record.state, State::Connecting(_) | State::ConnectFailed(_));
        if ours {
            let back = if record.policy == Policy::Every(1) { String::new() } else { format!(", {}", policy(record.policy)) };
            facts.push(format!("to us {}, {} left{back}", sizes(record.mtu, record.mps), count(record.credits, "credit")));
        }
        if its {
            facts.push(format!("to it {}, {} left", sizes(record.peer_mtu, record.peer_mps), count(record.peer_credits, "credit")));
        }
    }
    if record.want > 0 {
        facts.push(format!("{} of {} of a job are here", record.have, count(record.want, "octet")));
    }
    if !record.jobs.is_empty() {
        facts.push(waiting(&record.jobs));
    }
    facts.join("; ")
}

/// `2 jobs wait, of 3 and 0 octets`.
pub fn waiting(jobs: &[u16]) -> String {
    match jobs {
        [] => "no job waits".to_string(),
        [job] => format!("a job of {} waits", count(*job, "octet")),
        _ => {
            let lengths: Vec<String> = jobs.iter().map(u16::to_string).collect();
            format!("{} jobs wait, of {} octets", jobs.len(), crate::words::list(&lengths))
        }
    }
}

/// How far a job in portions has come, and the frame that is being filled.
pub fn open_job(job: JobView, frame: &[u8]) -> String {
    if job.aside == 0 {
        return "no job is open".to_string();
    }
    let filling = match job.filled {
        0 => "no frame is begun".to_string(),
        filled => format!("{} stand in the frame: {}", count(filled, "octet"), short_hex(frame)),
    };
    format!("{}; {filling}", progress(&job))
}

/// `10 of 22 octets of a job are taken, 2 credits are set aside`.
pub fn progress(job: &JobView) -> String {
    let are = if job.aside == 1 { "is" } else { "are" };
    format!("{} of {} of a job are taken, {} {are} set aside", job.taken, count(job.length, "octet"), count(job.aside, "credit"))
}

/// What stands in a slot's part of the room.
pub fn room(slot: u16, octets: &[u8], before: &Seen) -> String {
    if octets.iter().all(|octet| *octet == 0) {
        return format!("all {} are zero", count(octets.len(), "octet"));
    }
    let shown =
        Seen { view: before.view.clone(), rooms: (0..=slot).map(|at| if at == slot { octets.to_vec() } else { Vec::new() }).collect() };
    let mut facts = Vec::new();
    for Held { place, octets } in before.slot(slot).map(held).unwrap_or_default() {
        let job = short_hex(shown.octets(usize::from(slot), &Held { place, octets }));
        match (place, octets) {
            (0, 0) => {}
            (0, _) => facts.push(format!("{} of a job that is arriving: {job}", count(octets, "octet"))),
            _ => facts.push(format!("a job of {} waits: {job}", count(octets, "octet"))),
        }
    }
    match shown.left_behind(usize::from(slot)) {
        0 => facts.push("zeros behind".to_string()),
        left => facts.push(format!("{} of no job", count(left, "octet"))),
    }
    facts.join("; ")
}
