//! What went out, in words.

use crate::seen::Seen;
use crate::signal::written;
use crate::words::{count, list, phone, short_hex};
use language::{unhex, Call, Row};

/// What the call wrote, and to which phone.
pub fn out(call: &Call, row: &Row, before: &Seen) -> Option<String> {
    let to = receiver(call, row, before).map_or("to no phone".to_string(), |link| format!("to {}", phone(link)));
    let octets = match call {
        Call::Send { .. } => return (!row.octets.is_empty()).then(|| format!("{to}: {}", frames(&row.octets))),
        Call::Portion { .. } => return (!row.octets.is_empty()).then(|| format!("{to}: {}", frame(&row.octets))),
        // The octets of a take are the job; its signal stands in a column. Those of a look go nowhere.
        Call::Take { .. } => row.columns.get(2).and_then(|column| unhex(column)).unwrap_or_default(),
        Call::Room { .. } | Call::OpenJob { .. } => return None,
        _ => row.octets.clone(),
    };
    if octets.is_empty() {
        return None;
    }
    let unknown = || format!("{} that are no signal: {}", count(octets.len(), "octet"), short_hex(&octets));
    Some(format!("{to}: {}", written(&octets, before).unwrap_or_else(unknown)))
}

/// The link of the phone that what was written is for.
fn receiver(call: &Call, row: &Row, before: &Seen) -> Option<u16> {
    match call {
        Call::NextDisconnect => row.columns.first().and_then(|link| link.parse().ok()),
        _ => call.link().or_else(|| call.slot().and_then(|slot| before.link_at(slot))),
    }
}

/// One frame of a job in portions.
fn frame(octets: &[u8]) -> String {
    match octets {
        [low, high, cid_low, cid_high, payload @ ..] if payload.len() == usize::from(u16::from_le_bytes([*low, *high])) => {
            format!("a frame to its CID {}, of {}", u16::from_le_bytes([*cid_low, *cid_high]), count(payload.len(), "octet"))
        }
        _ => format!("{} that are no frame: {}", count(octets.len(), "octet"), short_hex(octets)),
    }
}

/// Frames one after the other: length, CID, payload.
fn frames(octets: &[u8]) -> String {
    let mut payloads: Vec<&[u8]> = Vec::new();
    let mut cid = 0;
    let mut rest = octets;
    while let [low, high, cid_low, cid_high, behind @ ..] = rest {
        let length = usize::from(u16::from_le_bytes([*low, *high]));
        let (Some(payload), Some(next)) = (behind.get(..length), behind.get(length..)) else { break };
        cid = u16::from_le_bytes([*cid_low, *cid_high]);
        payloads.push(payload);
        rest = next;
    }
    let Some([low, high, ..]) = payloads.first().filter(|_| rest.is_empty()) else {
        return format!("{} that are no frames: {}", count(octets.len(), "octet"), short_hex(octets));
    };
    let job = count(u16::from_le_bytes([*low, *high]), "octet");
    let lengths: Vec<String> = payloads.iter().map(|payload| payload.len().to_string()).collect();
    let of = match &lengths[..] {
        [first, _, _, _, .., last] => format!("{first} octets, the last of {last}"),
        few => format!("{} octets", list(few)),
    };
    format!("{} to its CID {cid}, of {of}: a job of {job}, and its length", count(lengths.len(), "frame"))
}

#[cfg(test)]
mod tests {
    use super::*;

    #[test]
    fn a_frame_of_a_portion() {
        let told = |word: &str| frame(&unhex(word).unwrap());
        assert_eq!(told("0100500016"), "a frame to its CID 80, of 1 octet");
        assert_eq!(told("0200500016"), "5 octets that are no frame: 0200500016");
        assert_eq!(told("0200"), "2 octets that are no frame: 0200");
    }

    #[test]
    fn frames_are_counted() {
        let told = |word: &str| frames(&unhex(word).unwrap());
        assert_eq!(told("030060000100ff"), "1 frame to its CID 96, of 3 octets: a job of 1 octet, and its length");
        let one = "0400600002000102";
        assert_eq!(told(&format!("{one}{one}")), "2 frames to its CID 96, of 4 and 4 octets: a job of 2 octets, and its length");
        let five = "5 frames to its CID 96, of 4 octets, the last of 4: a job of 2 octets, and its length";
        assert_eq!(told(&one.repeat(5)), five);
        assert_eq!(told("0100600002"), "5 octets that are no frames: 0100600002");
        assert_eq!(told("04006000020001"), "7 octets that are no frames: 04006000020001");
        assert_eq!(told("03006000010002ff"), "8 octets that are no frames: 03006000010002ff");
    }
}
