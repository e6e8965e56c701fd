//! What a call changed in table and room.

use crate::look::{progress, waiting};
use crate::seen::{held, Held, Seen};
use crate::words::{count, holds, phone, state, tallies};
use language::{Answer, Call, Row, SlotView, State, Tallies};

/// The changes, a line each; one line says so where there is none.
pub fn changed(call: &Call, row: &Row, before: &Seen, after: &Seen) -> Vec<String> {
    let mut lines = match call {
        Call::Make { .. } => vec![made(before, after)],
        Call::Register { spsm } if row.answer == Answer::Number(0) => vec![format!("SPSM {spsm} is registered")],
        _ => Vec::new(),
    };
    if !matches!(call, Call::Make { .. }) {
        let slots = before.view.slots.iter().zip(&after.view.slots).enumerate();
        for (slot, (old, new)) in slots {
            let step = Step { call, slot, old, new, before, after };
            lines.extend(step.lines());
        }
        let (old, new) = (before.view.next_identifier, after.view.next_identifier);
        // A signal that goes out shows its identifier, and a slot that changed beside it says enough.
        if old != new && (lines.is_empty() || row.answer != Answer::Number(0)) {
            lines.push(format!("our next identifier {old} → {new}"));
        }
    }
    if lines.is_empty() {
        lines.push("nothing".to_string());
    }
    lines
}

fn made(before: &Seen, after: &Seen) -> String {
    let slots = after.view.slots.len();
    let used = before.view.slots.iter().filter(|slot| !slot.free()).count();
    let gone = if used > 0 { format!("; the table before, with {} in use, is gone", count(used, "slot")) } else { String::new() };
    if !after.is_made() {
        let now = if before.is_made() { "there is no table any more" } else { "there is still no table" };
        return format!("{now}: every call is refused by 1{gone}");
    }
    let fresh = after.view.slots.iter().filter(|slot| **slot == SlotView::fresh()).count();
    let free = if fresh == slots { "free".to_string() } else { format!("only {fresh} free") };
    let octets: usize = after.rooms.iter().map(Vec::len).sum();
    let zeros = after.rooms.iter().flatten().filter(|octet| **octet == 0).count();
    let zeros = if zeros == octets { "all zero".to_string() } else { format!("only {zeros} zero") };
    format!("{}, {free}; a room of {octets} octets, {zeros}{gone}", count(slots, "slot"))
}

/// One slot before and after a call.
struct Step<'a> {
    call: &'a Call,
    slot: usize,
    old: &'a SlotView,
    new: &'a SlotView,
    before: &'a Seen,
    after: &'a Seen,
}

impl Step<'_> {
    /// What was lost stands first, in a line of its own.
    fn lines(&self) -> Vec<String> {
        let facts = [self.state(), self.arrival(), self.taken(), self.job(), self.credits(), self.peer_credits(), self.holds()];
        let facts = facts.into_iter().flatten().collect::<Vec<_>>().join("; ");
        let facts = Some(facts).filter(|facts| !facts.is_empty());
        let told = [
            self.lost_arrival(),
            self.lost_jobs(),
            self.lost_open_job(),
            self.lost_disconnect(),
            facts,
            self.tallies(),
            self.left_behind(),
        ];
        let mut lines: Vec<String> = told.into_iter().flatten().collect();
        let room = |seen: &Seen| seen.rooms.get(self.slot).cloned();
        if lines.is_empty() && (self.old != self.new || room(self.before) != room(self.after)) {
            lines.push("its numbers or its room changed in a way that has no words here: see V and M".to_string());
        }
        lines.into_iter().map(|line| format!("slot {}: {line}", self.slot)).collect()
    }

    /// A job has come to its end in this step, and waits.
    fn finished(&self) -> bool {
        self.new.jobs.len() > self.old.jobs.len()
    }

    /// `2 octets wiped`: of the octets of jobs that are lost, those that are zero now.
    fn wiped(&self, lost: &[Held]) -> String {
        let (mut octets, mut zeros) = (0, 0);
        for held in lost {
            octets += usize::from(held.octets);
            zeros += self.after.octets(self.slot, held).iter().filter(|octet| **octet == 0).count();
        }
        match zeros == octets {
            true => format!("{} wiped", count(octets, "octet")),
            false => format!("only {zeros} of {} wiped", count(octets, "octet")),
        }
    }

    /// A job that was arriving and will never be whole.
    fn lost_arrival(&self) -> Option<String> {
        let (old, new) = (self.old, self.new);
        if old.want == 0 || new.want > 0 || self.finished() {
            return None;
        }
        let how = match (new.state, self.call) {
            (State::PeerDisconnecting(_), _) => format!("phone on link {} closed in mid-job", old.link),
            (State::Disconnected, Call::LinkDown { .. }) => format!("phone on link {} left in mid-job", old.link),
            (State::Connected, _) => "the job is dropped".to_string(),
            (_, Call::Release { .. } | Call::Disconnect { .. } | Call::DisconnectByCid { .. }) => "we close in mid-job".to_string(),
            _ => "the job is broken off".to_string(),
        };
        let wiped = self.wiped(&[Held { place: 0, octets: old.have }]);
        Some(format!("{how}: {} of {} were here, {wiped}", old.have, count(old.want, "octet")))
    }

    /// Jobs that waited when the slot was freed.
    fn lost_jobs(&self) -> Option<String> {
        if !self.new.free() || self.old.jobs.is_empty() || !self.new.jobs.is_empty() {
            return None;
        }
        let lost: Vec<Held> = held(self.old).into_iter().skip(1).collect();
        let jobs = if lost.len() == 1 { "1 job that waited is".to_string() } else { format!("{} jobs that waited are", lost.len()) };
        Some(format!("{jobs} lost: {}", self.wiped(&lost)))
    }

    /// A job in portions that went with its channel.
    fn lost_open_job(&self) -> Option<String> {
        let job = self.old.job.filter(|_| self.new.job.is_none() && self.new.state != State::Connected)?;
        let gone = if job.aside == 1 { "is gone" } else { "are gone" };
        Some(format!(
            "our job goes with the channel: {} of {} were taken, {} {gone}",
            job.taken,
            count(job.length, "octet"),
            count(job.aside, "credit")
        ))
    }

    /// A disconnect that was due when the slot was freed, of a phone that is still there: it goes on as if there were a channel.
    fn lost_disconnect(&self) -> Option<String> {
        let due = match self.old.state {
            State::PeerDisconnecting(_) => "response",
            State::Disconnecting { announced: false } => "request",
            _ => return None,
        };
        let lost = self.new.free() && matches!(self.call, Call::Opened { up: true, .. });
        lost.then(|| format!("our {due} was due and is never written: the phone isn't told"))
    }

    /// A job in portions that was begun, came on, or is closed.
    fn job(&self) -> Option<String> {
        match (self.old.job, self.new.job) {
            (old, Some(job)) if old != Some(job) => Some(progress(&job)),
            (Some(_), None) if self.new.state == State::Connected => Some(match self.call {
                Call::Cancel { .. } => "the job is cancelled".to_string(),
                _ => "the job is closed, its last frame is out".to_string(),
            }),
            _ => None,
        }
    }

    fn state(&self) -> Option<String> {
        let (old, new) = (self.old, self.new);
        if old.state == new.state {
            return None;
        }
        let from = if name(old.state) == name(new.state) { String::new() } else { format!("{} → ", name(old.state)) };
        let of = if old.free() { format!(" for {}", phone(new.link)) } else { String::new() };
        let still = match new.hold {
            hold if hold > 0 && new.free() => format!(" but {}, so no phone gets it yet", holds(hold)),
            _ => String::new(),
        };
        Some(format!("{from}{}{of}{still}", state(new)))
    }

    fn arrival(&self) -> Option<String> {
        let (old, new) = (self.old, self.new);
        if self.finished() {
            let length = new.jobs.last().copied().unwrap_or_default();
            let all = if new.jobs.len() > 1 { format!(", {} jobs now", new.jobs.len()) } else { String::new() };
            return Some(format!("a job of {} is whole and waits{all}", count(length, "octet")));
        }
        let grew = new.want > 0 && (old.have, old.want) != (new.have, new.want);
        grew.then(|| format!("{} of {} of a job are here", new.have, count(new.want, "octet")))
    }

    fn taken(&self) -> Option<String> {
        let taken = matches!(self.call, Call::Take { .. }) && self.new.jobs.len() < self.old.jobs.len();
        taken.then(|| format!("the job is out of the room, {}", waiting(&self.new.jobs)))
    }

    /// The credits that the phone has to send frames to us, of a channel that stays open.
    fn credits(&self) -> Option<String> {
        let (old, new) = (self.old, self.new);
        if old.state != State::Connected || new.free() || old.credits == new.credits {
            return None;
        }
        Some(format!("the phone's credits {} → {}", old.credits, new.credits))
    }

    /// The credits that we have to send frames to the phone.
    fn peer_credits(&self) -> Option<String> {
        let (old, new) = (self.old, self.new);
        if old.state != State::Connected || new.free() || old.peer_credits == new.peer_credits {
            return None;
        }
        Some(format!("our credits {} → {}", old.peer_credits, new.peer_credits))
    }

    fn holds(&self) -> Option<String> {
        let (old, new) = (self.old, self.new);
        match new.hold {
            hold if hold == old.hold => None,
            0 if old.free() => Some("no hold left: free for the next phone".to_string()),
            0 => Some("no hold left".to_string()),
            hold => Some(holds(hold)),
        }
    }

    /// What was counted, or that all of it is gone. A line of its own: it changes nothing of the channel.
    fn tallies(&self) -> Option<String> {
        let (old, new) = (self.old.tallies, self.new.tallies);
        if old == new {
            return None;
        }
        if new == Tallies::default() {
            return Some(format!("its tallies are zeros again, and were: {}", tallies(old)));
        }
        let names = ["frames sent", "frames received", "blocked sends", "blocked frames"];
        let counted = names.into_iter().zip(old.numbers().into_iter().zip(new.numbers())).filter(|(_, (old, new))| old != new);
        Some(counted.map(|(name, (old, new))| format!("{name} {old} → {new}")).collect::<Vec<_>>().join("; "))
    }

    /// The room rule broken: octets that are of no job any more.
    fn left_behind(&self) -> Option<String> {
        let left = self.after.left_behind(self.slot);
        let more = left > 0 && left != self.before.left_behind(self.slot);
        more.then(|| format!("its room has {} of no job", count(left, "octet")))
    }
}

/// A state that is left, in a word.
fn name(state: State) -> &'static str {
    match state {
        State::Disconnected => "free",
        State::Connecting(_) => "an attempt of ours",
        State::PeerConnecting(_) => "pending",
        State::Connected => "open",
        State::ConnectFailed(_) => "failed",
        State::PeerDisconnecting(_) => "closed by the phone",
        State::Disconnecting { .. } => "closing",
    }
}
