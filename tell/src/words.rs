//! Words that many rows share.

use crate::refusals::result;
use language::{hex, Policy, SlotView, State, Tallies};

/// `no jobs`, `1 job`, `2 jobs`.
pub fn count(number: impl Into<usize>, thing: &str) -> String {
    // A length is below 2^64 on every machine that there is.
    many(number.into() as u64, thing)
}

fn many(number: u64, thing: &str) -> String {
    match number {
        0 => format!("no {thing}s"),
        1 => format!("1 {thing}"),
        number => format!("{number} {thing}s"),
    }
}

/// `0`, `0 and 1`, `0, 1 and 2`.
pub fn list(items: &[String]) -> String {
    match items {
        [] => String::new(),
        [one] => one.clone(),
        [first @ .., last] => format!("{} and {last}", first.join(", ")),
    }
}

/// What a slot's channel came to: `3 frames sent, 1 frame received; blocked: no sends, 2 frames`.
pub fn tallies(tallies: Tallies) -> String {
    let Tallies { sent, received, blocked_sends, blocked_receives } = tallies;
    format!(
        "{} sent, {} received; blocked: {}, {}",
        many(sent, "frame"),
        many(received, "frame"),
        many(blocked_sends, "send"),
        many(blocked_receives, "frame")
    )
}

/// Octets where they are few, and the first of many.
pub fn short_hex(octets: &[u8]) -> String {
    const SHOWN: usize = 16;
    match octets.get(..SHOWN) {
        Some(first) if octets.len() > SHOWN => format!("{}…", hex(first)),
        _ => hex(octets),
    }
}

pub fn phone(link: u16) -> String {
    format!("the phone on link {link}")
}

/// `held once`.
pub fn holds(hold: u16) -> String {
    match hold {
        0 => "not held".to_string(),
        1 => "held once".to_string(),
        2 => "held twice".to_string(),
        hold => format!("held {hold} times"),
    }
}

/// What a slot is, by its state.
pub fn state(slot: &SlotView) -> String {
    match slot.state {
        State::Disconnected if slot.hold == 0 => "free".to_string(),
        State::Disconnected => "freed".to_string(),
        State::Connecting(identifier) => format!("an attempt of ours (request {identifier})"),
        State::PeerConnecting(identifier) => format!("pending (request {identifier})"),
        State::Connected => "open".to_string(),
        State::ConnectFailed(code) => format!("failed ({})", result(code)),
        State::PeerDisconnecting(identifier) => format!("closed by the phone (request {identifier}), our response is due"),
        State::Disconnecting { announced: false } => "closing, our request is due".to_string(),
        State::Disconnecting { announced: true } => "closing, our request is out".to_string(),
    }
}

/// When the phone gets credits back; a take looks for it.
pub fn policy(policy: Policy) -> String {
    match policy {
        Policy::Every(0 | 1) => "more after every frame".to_string(),
        Policy::Every(frames) => format!("more after every {frames} frames"),
        Policy::MinThreshold(least) => format!("more when fewer than {least} are left"),
    }
}

/// The sizes that one side names: its longest job and frame.
pub fn sizes(mtu: u16, mps: u16) -> String {
    format!("jobs up to {} in frames up to {mps}", count(mtu, "octet"))
}

/// Connection parameters, in the times that their numbers stand for.
pub fn parameters(min: u16, max: u16, latency: u16, timeout: u16) -> String {
    let interval = |number: u16| f64::from(number) * 1.25;
    let timeout = u32::from(timeout) * 10;
    format!("an interval of {} to {} ms, latency {latency}, timeout {timeout} ms", interval(min), interval(max))
}

#[cfg(test)]
mod tests {
    use super::*;

    #[test]
    fn things_are_counted_and_listed() {
        assert_eq!([0usize, 1, 2].map(|number| count(number, "job")), ["no jobs", "1 job", "2 jobs"]);
        let slots = |numbers: &[usize]| list(&numbers.iter().map(usize::to_string).collect::<Vec<_>>());
        assert_eq!([slots(&[]), slots(&[3]), slots(&[0, 1]), slots(&[0, 1, 2])], ["", "3", "0 and 1", "0, 1 and 2"]);
    }

    #[test]
    fn tallies_have_64_bits() {
        let most = Tallies { sent: u64::MAX, received: 1, blocked_sends: 0, blocked_receives: 2 };
        assert_eq!(tallies(most), "18446744073709551615 frames sent, 1 frame received; blocked: no sends, 2 frames");
    }

    #[test]
    fn long_octets_are_cut() {
        assert_eq!(short_hex(&[]), "-");
        assert_eq!(short_hex(&[1; 16]), "01".repeat(16));
        assert_eq!(short_hex(&[1; 17]), "01".repeat(16) + "…");
    }

    #[test]
    fn parameters_are_times() {
        assert_eq!(parameters(6, 9, 0, 100), "an interval of 7.5 to 11.25 ms, latency 0, timeout 1000 ms");
    }
}
