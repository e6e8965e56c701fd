//! The answer of a row, by name and in words.

use crate::look::{open_job, room, table};
use crate::refusals::{refused, refused_so, result};
use crate::seen::Seen;
use crate::words::{count, list, parameters, short_hex, sizes, tallies};
use language::{Answer, Call, JobView, Row, State, Tallies, View};

/// The lines of an answer. `view` is what a `V` shows.
pub fn answer(call: &Call, row: &Row, view: Option<&View>, before: &Seen) -> Vec<String> {
    let number = match row.answer {
        Answer::Number(number) => number,
        Answer::Panic => return vec!["panic: the program broke down here".to_string()],
        Answer::Skipped => return vec!["~ the program was not asked this".to_string()],
        Answer::Unread => return vec!["? this line cannot be read".to_string()],
    };
    let columns: Vec<u64> = row.columns.iter().map_while(|column| column.parse().ok()).collect();
    if number != 0 {
        let code = columns.first().and_then(|code| u16::try_from(*code).ok());
        let code = code.filter(|_| number == 17).map(|code| format!(", {}", result(code)));
        return vec![named(call, number, before) + &code.unwrap_or_default()];
    }
    if let Some(view) = view {
        return [vec!["0 done".to_string()], table(view)].concat();
    }
    match said(call, row, &columns, before) {
        Some(said) => vec![format!("0 done: {said}")],
        None => vec!["0 done".to_string()],
    }
}

/// A refusal, in words that fit the call.
fn named(call: &Call, number: u16, before: &Seen) -> String {
    match (call, number) {
        (Call::Take { slot, size }, 12) => match before.slot(*slot).and_then(|slot| slot.jobs.first()) {
            Some(length) if length > size => {
                refused_so(12, &format!("the job of {} is longer than the buffer, and waits on", count(*length, "octet")))
            }
            _ => refused_so(12, "but no job waits that is longer than the buffer"),
        },
        _ => refused(number),
    }
}

fn said(call: &Call, row: &Row, columns: &[u64], before: &Seen) -> Option<String> {
    Some(match (call, columns) {
        (Call::Signal { .. }, [min, max, latency, timeout]) => {
            let narrow = |number: &u64| u16::try_from(*number).ok();
            let told = parameters(narrow(min)?, narrow(max)?, narrow(latency)?, narrow(timeout)?);
            format!("ours to decide on {told}")
        }
        (Call::NextPending { .. }, [slot]) => format!("yes, at slot {slot}"),
        (Call::NextPending { .. }, []) => "no".to_string(),
        (Call::RejectStep { .. }, []) => "none waits".to_string(),
        (Call::RejectStep { .. }, [slot]) => format!("the one at slot {slot}"),
        (Call::Create { .. }, [slot]) => format!("at slot {slot}"),
        (Call::Opened { .. }, [0]) => "not yet".to_string(),
        (Call::Opened { .. }, [1]) => "yes".to_string(),
        (Call::NextDisconnect, []) => "no".to_string(),
        (Call::NextDisconnect, [link, slot]) => format!("yes, of slot {slot}, for link {link}"),
        (Call::Send { .. }, [frames]) => format!("sent in {}", count(usize::try_from(*frames).ok()?, "frame")),
        (Call::Start { .. }, [frames]) => format!("begun, with {} to come", count(usize::try_from(*frames).ok()?, "frame")),
        (Call::Portion { octets, .. }, [taken, full]) => {
            let all = usize::try_from(*taken).ok()? == octets.len();
            let taken = if all { count(octets.len(), "octet") } else { format!("the first {taken} of {}", count(octets.len(), "octet")) };
            format!("{taken} taken, {}", if *full == 1 { "and a frame is full" } else { "no frame is full" })
        }
        (Call::OpenJob { .. }, [length, taken, filled, aside]) => {
            let narrow = |number: &u64| u16::try_from(*number).ok();
            let job = JobView { length: narrow(length)?, taken: narrow(taken)?, filled: narrow(filled)?, aside: narrow(aside)? };
            open_job(job, &row.octets)
        }
        (Call::Take { .. }, []) => "no job waits".to_string(),
        (Call::Take { .. }, [_, length, ..]) => {
            let length = usize::try_from(*length).ok()?;
            let job = short_hex(&row.octets);
            match row.octets.len() == length {
                true => format!("the whole job of {}: {job}", count(length, "octet")),
                // A program that cuts.
                false => format!("only {} of the job's {}: {job}", row.octets.len(), count(length, "octet")),
            }
        }
        (Call::Attention, [set, _, lowest]) => {
            let calling: Vec<String> = (0..64).filter(|slot| set >> slot & 1 == 1).map(|slot| slot.to_string()).collect();
            match calling.len() {
                0 => "no slot calls".to_string(),
                1 => format!("slot {lowest} calls"),
                _ => format!("slots {} call", list(&calling)),
            }
        }
        (Call::Queries { .. }, [spsm, mtu, mps, peer_mtu, peer_mps]) => {
            let narrow = |number: &u64| u16::try_from(*number).ok();
            let (ours, its) = (sizes(narrow(mtu)?, narrow(mps)?), sizes(narrow(peer_mtu)?, narrow(peer_mps)?));
            format!("SPSM {spsm}; we take {ours}; the phone takes {its}")
        }
        (Call::Tallies { .. }, &[sent, received, blocked_sends, blocked_receives]) => {
            tallies(Tallies { sent, received, blocked_sends, blocked_receives })
        }
        (Call::Room { slot }, _) => room(*slot, &row.octets, before),
        (Call::Frame { cid, .. }, _) => {
            let slot = before.view.slot_of(*cid).and_then(|slot| before.view.slots.get(slot))?;
            (slot.state != State::Connected).then(|| "dropped, since the slot isn't open".to_string())?
        }
        _ => return None,
    })
}
