//! Makes a script that shows a difference as small as it gets: calls are left out, then numbers and octets made simpler, as long as the
//! port still leaves what it must print. The original is run anew on every try, so that what must be printed is always its own.

use crate::compare::Difference;
use crate::play::SIZES;
use crate::port::Port;
use crate::script::Script;
use language::{signals, Call, Config, Manner, BASE_ID, HIGHEST_LINK, SLOTS};

/// The most tries for one script.
const TRIES: usize = 3_000;

struct Shrinker<'a> {
    port: &'a mut dyn Port,
    manner: Manner,
    tries: usize,
    best: (Script, Difference),
}

/// The smallest script found, and its difference. None where the script shows none.
pub fn shrink(port: &mut dyn Port, script: &Script) -> Option<(Script, Difference)> {
    let manner = script.manner;
    let best = difference(port, manner, &script.calls())?;
    let mut shrinker = Shrinker { port, manner, tries: 0, best };
    loop {
        let before = shrinker.size();
        shrinker.leave_out();
        shrinker.move_down();
        shrinker.simplify();
        if shrinker.size() == before || shrinker.tries > TRIES {
            return Some(shrinker.best);
        }
    }
}

/// The script up to its first difference, if it has one.
fn difference(port: &mut dyn Port, manner: Manner, calls: &[Call]) -> Option<(Script, Difference)> {
    let mut script = Script::in_manner(calls, manner)?;
    let (_, difference) = port.differences(std::slice::from_ref(&script)).ok()?.into_iter().next()?;
    script.steps.truncate(difference.step + 1);
    Some((script, difference))
}

impl Shrinker<'_> {
    fn size(&self) -> (usize, usize) {
        (self.best.0.steps.len(), self.best.0.text().len())
    }

    /// Takes a smaller script if it still differs.
    fn attempt(&mut self, calls: &[Call]) -> bool {
        if self.tries > TRIES {
            return false;
        }
        self.tries += 1;
        match difference(self.port, self.manner, calls) {
            Some(found) => {
                self.best = found;
                true
            }
            None => false,
        }
    }

    fn leave_out(&mut self) {
        let mut run = self.best.0.steps.len() / 2;
        while run > 0 {
            let mut at = 1;
            while at < self.best.0.steps.len() {
                let mut calls = self.best.0.calls();
                let end = (at + run).min(calls.len());
                calls.drain(at..end);
                if !self.attempt(&calls) {
                    at += run;
                }
            }
            run /= 2;
        }
    }

    /// Leaves one call out that others lean on: the slots above one move down by one, as the call may have been there to take that slot,
    /// or the responses that follow name one identifier less, as the call may have used one.
    fn move_down(&mut self) {
        let mut at = 1;
        while at < self.best.0.steps.len() {
            let mut calls = self.best.0.calls();
            calls.remove(at);
            let sooner: Vec<Call> = calls.iter().map(with_identifier_less).collect();
            let moved = (0..highest_slot(&calls)).any(|gone| {
                let lower: Vec<Call> = calls.iter().map(|call| without_slot(call, gone)).collect();
                self.attempt(&lower)
            });
            if !moved && (sooner == calls || !self.attempt(&sooner)) {
                at += 1;
            }
        }
    }

    fn simplify(&mut self) {
        self.rename_links();
        let mut at = 0;
        while at < self.best.0.steps.len() {
            let calls = self.best.0.calls();
            let smaller = simpler(&calls[at]).into_iter().find(|call| {
                let mut calls = calls.clone();
                calls[at] = call.clone();
                self.attempt(&calls)
            });
            if smaller.is_none() {
                at += 1;
            }
        }
    }
}

impl Shrinker<'_> {
    /// Gives the links the numbers 1, 2, .. in the order in which they come up.
    fn rename_links(&mut self) {
        let mut calls = self.best.0.calls();
        let mut links: Vec<u16> = Vec::new();
        for link in calls.iter_mut().filter_map(link_mut).filter(|link| **link <= HIGHEST_LINK) {
            let at = links.iter().position(|known| known == link).unwrap_or_else(|| {
                links.push(*link);
                links.len() - 1
            });
            *link = at as u16 + 1;
        }
        if links.iter().zip(1..).any(|(link, number)| *link != number) {
            self.attempt(&calls);
        }
    }
}

/// The slots that calls name, at most.
fn highest_slot(calls: &[Call]) -> u16 {
    calls.iter().filter_map(Call::slot).max().unwrap_or(0).min(SLOTS)
}

/// The call on a table in which slot `gone` isn't there, so that those above it are one lower.
fn without_slot(call: &Call, gone: u16) -> Call {
    let lower = |number: u16, base: u16| if number > base + gone && number < base + SLOTS { number - 1 } else { number };
    let mut call = call.clone();
    if let Some(slot) = slot_mut(&mut call) {
        *slot = lower(*slot, 0);
    }
    match &mut call {
        Call::Frame { cid, .. } | Call::DisconnectByCid { cid } => *cid = lower(*cid, BASE_ID),
        Call::Signal { pdu, .. } if matches!(pdu[..], [0x06 | 0x07, _, 4, 0, _, _, _, _]) => {
            let at = if pdu[0] == 0x06 { 4 } else { 6 };
            let cid = lower(u16::from_le_bytes([pdu[at], pdu[at + 1]]), BASE_ID);
            pdu[at..at + 2].copy_from_slice(&cid.to_le_bytes());
        }
        _ => {}
    }
    call
}

/// A connect response to the identifier before.
fn with_identifier_less(call: &Call) -> Call {
    let mut call = call.clone();
    if let Call::Signal { pdu, .. } = &mut call {
        if let [0x15, identifier @ 2..=255, ..] = &mut pdu[..] {
            *identifier -= 1;
        }
    }
    call
}

fn slot_mut(call: &mut Call) -> Option<&mut u16> {
    use Call::*;
    match call {
        Accept { slot, .. } | Reject { slot, .. } | DropPending { slot } | Opened { slot, .. } | GiveUp { slot } => Some(slot),
        AddHold { slot } | Release { slot } | Disconnect { slot } | Send { slot, .. } | Take { slot, .. } => Some(slot),
        Start { slot, .. } | Portion { slot, .. } | Cancel { slot } => Some(slot),
        Queries { slot } | Tallies { slot } | Room { slot } | OpenJob { slot } => Some(slot),
        _ => None,
    }
}

fn link_mut(call: &mut Call) -> Option<&mut u16> {
    use Call::*;
    match call {
        Signal { link, .. } | NextPending { link, .. } | RejectStep { link } | Create { link, .. } => Some(link),
        Opened { link, .. } | LinkDown { link } | Frame { link, .. } => Some(link),
        ParameterRequest { link, .. } | ParameterResponse { link, .. } => Some(link),
        _ => None,
    }
}

/// Calls like this one with less in them, the least first.
fn simpler(call: &Call) -> Vec<Call> {
    match call.clone() {
        Call::Make { n, d, m } => {
            let slots = (1..n).map(|n| Call::Make { n, d, m });
            let queues = (1..d).map(|d| Call::Make { n, d, m });
            let packets = SIZES.iter().filter(|size| **size < m).map(|m| Call::Make { n, d, m: *m });
            slots.chain(queues).chain(packets).collect()
        }
        Call::Signal { link, listening, central, pdu } => {
            let again = |pdu: Vec<u8>| Call::Signal { link, listening, central, pdu };
            let parts = signals(&pdu).unwrap_or_default();
            let fewer = (0..parts.len()).filter(|_| parts.len() > 1).map(|out| {
                let kept: Vec<&[u8]> = parts.iter().enumerate().filter(|(at, _)| *at != out).map(|(_, part)| *part).collect();
                kept.concat()
            });
            // A plain request: the peer of document 01's bench, with its own identifier and CID.
            let plain = match pdu[..] {
                [0x14, identifier, 10, 0, 0x80, 0, low, high, ..] => {
                    Some(vec![0x14, identifier, 10, 0, 0x80, 0, low, high, 0x64, 0, 0x17, 0, 5, 0])
                }
                _ => None,
            };
            fewer.chain(plain.filter(|plain| *plain != pdu)).map(again).collect()
        }
        Call::Frame { link, cid, payload } => shorter(&payload).into_iter().map(|payload| Call::Frame { link, cid, payload }).collect(),
        Call::Send { slot, sdu } => shorter(&sdu).into_iter().map(|sdu| Call::Send { slot, sdu }).collect(),
        Call::Start { slot, length, size } => {
            let lengths = [0, 1, length / 2, length.saturating_sub(1)].into_iter().filter(|less| *less < length);
            lengths.map(|length| Call::Start { slot, length, size }).collect()
        }
        Call::Portion { slot, size, octets } => shorter(&octets).into_iter().map(|octets| Call::Portion { slot, size, octets }).collect(),
        Call::Accept { slot, config } => plainer(&config).into_iter().map(|config| Call::Accept { slot, config }).collect(),
        Call::Create { link, spsm, config } => plainer(&config).into_iter().map(|config| Call::Create { link, spsm, config }).collect(),
        Call::Take { slot, size } if size > 8 => vec![Call::Take { slot, size: 8 }],
        _ => Vec::new(),
    }
}

fn shorter(octets: &[u8]) -> Vec<Vec<u8>> {
    let length = octets.len();
    let cuts = [0, 2, length / 2, length.saturating_sub(1)];
    let mut shorter: Vec<Vec<u8>> = cuts.iter().filter(|cut| **cut < length).map(|cut| octets[..*cut].to_vec()).collect();
    let plain: Vec<u8> = octets.iter().enumerate().map(|(at, octet)| if at < 2 { *octet } else { 0 }).collect();
    if plain != octets {
        shorter.push(plain);
    }
    shorter
}

fn plainer(config: &Config) -> Vec<Config> {
    let one_less = [
        Config::default(),
        Config { mtu: None, ..*config },
        Config { mps: None, ..*config },
        Config { policy: None, ..*config },
        Config { credits: None, ..*config },
    ];
    one_less.into_iter().filter(|plain| plain != config).collect()
}
