//! Sizes below 23 in an opening, and frames longer than our MPS.

use super::{Fault, Scene};
use crate::memory::Asked;
use language::{Call, SlotView, State, SIZE_LEAST};

const REQUEST: u8 = 0x14;
const RESPONSE: u8 = 0x15;
const UNACCEPTABLE: u8 = 0x0b;

pub const FAULTS: &[Fault] = &[
    Fault {
        title: "a request with an MTU or MPS of 22 is taken",
        slip: |scene| let_pass(scene, REQUEST, |mtu, mps| mtu.min(mps) == SIZE_LEAST - 1),
    },
    Fault { title: "a request's MTU is tested, but not its MPS", slip: |scene| let_pass(scene, REQUEST, |mtu, _| mtu >= SIZE_LEAST) },
    Fault { title: "a request's MPS is tested, but not its MTU", slip: |scene| let_pass(scene, REQUEST, |_, mps| mps >= SIZE_LEAST) },
    Fault { title: "a request below 23 is refused before its SPSM is looked at", slip: |scene| refused_sooner(scene, 2, |_| true) },
    Fault {
        title: "a request below 23 is refused before it is asked whether anybody listens",
        slip: |scene| refused_sooner(scene, 4, |call| matches!(call, Call::Signal { listening: false, .. })),
    },
    Fault {
        title: "a request below 23 is refused behind the test of the peer's CID",
        slip: |scene| {
            let body = scene.signal(REQUEST, 10)?;
            let (cid, link) = (u16::from_le_bytes([body[2], body[3]]), scene.asked.call.link()?);
            scene.before.view.slots.iter().find(|record| record.is_of(link) && record.peer_cid == cid)?;
            refused_later(scene, 10)
        },
    },
    Fault {
        title: "a request below 23 is refused behind the search for a free slot",
        slip: |scene| {
            let full = !scene.before.view.slots.iter().any(|record| record.free() && record.hold == 0);
            full.then_some(())?;
            refused_later(scene, 4)
        },
    },
    Fault {
        title: "a request below 23 that is refused takes a slot all the same",
        slip: |scene| {
            let reply = refused(scene)?;
            let_pass(scene, REQUEST, |_, _| true)?;
            scene.memory.signal.lend().copy_from_slice(&reply);
            scene.memory.answer.lend()[2] = reply.len() as u8;
            Some(())
        },
    },
    Fault {
        title: "a response with an MTU or MPS of 22 opens its channel",
        slip: |scene| let_pass(scene, RESPONSE, |mtu, mps| mtu.min(mps) == SIZE_LEAST - 1),
    },
    Fault { title: "a response's MTU is tested, but not its MPS", slip: |scene| let_pass(scene, RESPONSE, |mtu, _| mtu >= SIZE_LEAST) },
    Fault { title: "a response's MPS is tested, but not its MTU", slip: |scene| let_pass(scene, RESPONSE, |_, mps| mps >= SIZE_LEAST) },
    Fault {
        title: "a response below 23 leaves its slot Connected",
        slip: |scene| change_left(scene, |record| record.state = State::Connected),
    },
    Fault {
        title: "a response below 23 leaves its slot's disconnect announced",
        slip: |scene| change_left(scene, |record| record.state = State::Disconnecting { announced: true }),
    },
    Fault {
        title: "a response below 23 leaves none of the peer's numbers",
        slip: |scene| {
            change_left(scene, |record| {
                (record.peer_cid, record.peer_mtu, record.peer_mps, record.peer_credits) = (0, 0, 0, 0);
            })
        },
    },
    Fault {
        title: "a response below 23 frees its slot",
        slip: |scene| {
            let slot = left(scene)?;
            scene.change(|now| super::free(now, slot))
        },
    },
    Fault {
        title: "a refused response below 23 is taken for a good one",
        slip: |scene| {
            sizes(scene, RESPONSE)?;
            scene.answered(17)?;
            again_with(scene, |signal| signal[12..14].fill(0))
        },
    },
    Fault {
        title: "a frame longer than our MPS uses no credit",
        slip: |scene| {
            let slot = longer(scene, |_, _| true)?;
            scene.change(|now| {
                let record = &mut now.view.slots[slot];
                (record.credits, record.received) = (record.credits + 1, record.received - 1);
            })
        },
    },
    Fault {
        title: "a frame longer than our MPS leaves its slot Connected",
        slip: |scene| {
            let slot = longer(scene, |_, _| true)?;
            scene.change(|now| now.view.slots[slot].state = State::Connected)
        },
    },
    Fault {
        title: "a frame longer than our MPS is refused for that where no credit is left",
        slip: |scene| {
            scene.answered(10)?;
            let Call::Frame { payload, .. } = scene.asked.call else { return None };
            let (slot, record) = scene.named().filter(|(_, record)| payload.len() > record.mps.into())?;
            scene.again(
                |before| (before.view.slots[slot].credits, before.view.slots[slot].received) = (1, record.received.saturating_sub(1)),
                |now| (now.view.slots[slot].credits, now.view.slots[slot].received) = (record.credits, record.received),
            )
        },
    },
    Fault {
        title: "a first frame under two octets is refused for that where it is longer than our MPS",
        slip: |scene| {
            longer(scene, |record, length| record.want == 0 && length < 2)?;
            scene.memory.number = 19;
            scene.memory.answer.lend()[1] = 19;
            Some(())
        },
    },
    Fault {
        title: "a job that finds the queue full is dropped before its frame is held to our MPS",
        slip: |scene| {
            longer(scene, |_, _| true)?;
            held_to(scene, |_| u16::MAX)?;
            if scene.answered(21).is_none() {
                scene.again(|_| {}, |_| {})?;
            }
            Some(())
        },
    },
    Fault { title: "a frame is held to two octets less than our MPS", slip: |scene| held_to(scene, |record| record.mps.saturating_sub(2)) },
    Fault { title: "a frame of exactly our MPS is refused", slip: |scene| held_to(scene, |record| record.mps.saturating_sub(1)) },
    Fault {
        title: "a first frame's length octets don't count against our MPS",
        slip: |scene| held_to(scene, |record| if record.want == 0 { record.mps + 2 } else { record.mps }),
    },
    Fault {
        title: "a first frame isn't held to our MPS",
        slip: |scene| held_to(scene, |record| if record.want == 0 { u16::MAX } else { record.mps }),
    },
    Fault {
        title: "a joining frame isn't held to our MPS",
        slip: |scene| held_to(scene, |record| if record.want > 0 { u16::MAX } else { record.mps }),
    },
];

/// Where the MTU of an opening stands in its signal; the MPS is behind it.
fn mtu_at(code: u8) -> usize {
    if code == REQUEST {
        8
    } else {
        6
    }
}

/// MTU and MPS of the opening that came, where it has this code and one of them is below 23.
fn sizes(scene: &Scene<'_>, code: u8) -> Option<[u16; 2]> {
    scene.signal(code, 10)?;
    let at = mtu_at(code);
    let sizes = [at, at + 2].map(|at| u16::from_le_bytes([scene.asked.pdu[at], scene.asked.pdu[at + 1]]));
    sizes.iter().any(|size| *size < SIZE_LEAST).then_some(sizes)
}

/// The reply to a request that was refused for its sizes.
fn refused(scene: &mut Scene<'_>) -> Option<Vec<u8>> {
    sizes(scene, REQUEST)?;
    scene.wrote(RESPONSE).filter(|reply| reply[16] == UNACCEPTABLE).map(|reply| reply.to_vec())
}

/// The slot of the attempt whose response was refused for its sizes.
fn left(scene: &Scene<'_>) -> Option<usize> {
    sizes(scene, RESPONSE)?;
    scene.answered(9)?;
    changed(scene)
}

/// The lowest slot whose state is another than before the call.
fn changed(scene: &Scene<'_>) -> Option<usize> {
    let (before, now) = (&scene.before.view.slots, scene.memory.view().slots);
    (0..now.len()).find(|slot| before[*slot].state != now[*slot].state)
}

fn change_left(scene: &mut Scene<'_>, change: fn(&mut SlotView)) -> Option<()> {
    let slot = left(scene)?;
    scene.change(|now| change(&mut now.view.slots[slot]))
}

/// Makes the call again with another signal.
fn again_with(scene: &mut Scene<'_>, change: impl FnOnce(&mut [u8])) -> Option<()> {
    let mut pdu = scene.asked.pdu.to_vec();
    change(&mut pdu);
    scene.undo()?;
    scene.memory.enter(Asked { pdu: &pdu, ..scene.asked });
    Some(())
}

/// Takes an opening that was refused for its sizes, where they pass a test.
fn let_pass(scene: &mut Scene<'_>, code: u8, test: fn(u16, u16) -> bool) -> Option<()> {
    let [mtu, mps] = sizes(scene, code).filter(|[mtu, mps]| test(*mtu, *mps))?;
    if code == REQUEST {
        refused(scene)?;
    } else {
        left(scene)?;
    }
    let allowed = [mtu, mps].map(|size| size.max(SIZE_LEAST).to_le_bytes()).concat();
    again_with(scene, |signal| signal[mtu_at(code)..][..4].copy_from_slice(&allowed))?;
    let slot = changed(scene)?;
    scene.change(|now| (now.view.slots[slot].peer_mtu, now.view.slots[slot].peer_mps) = (mtu, mps))
}

/// Refuses a request for its sizes that was refused by another result.
fn refused_sooner(scene: &mut Scene<'_>, result: u8, test: fn(&Call) -> bool) -> Option<()> {
    sizes(scene, REQUEST).filter(|_| test(scene.asked.call))?;
    scene.wrote(RESPONSE).filter(|reply| reply[16] == result)?[16] = UNACCEPTABLE;
    Some(())
}

/// Refuses a request by another result that was refused for its sizes.
fn refused_later(scene: &mut Scene<'_>, result: u8) -> Option<()> {
    refused(scene)?;
    scene.wrote(RESPONSE)?[16] = result;
    Some(())
}

/// The slot of a frame that was refused, and is longer than our MPS and passes a test.
fn longer(scene: &Scene<'_>, test: fn(&SlotView, usize) -> bool) -> Option<usize> {
    let Call::Frame { payload, .. } = scene.asked.call else { return None };
    scene.answered(9)?;
    scene.slot_where(|record| payload.len() > record.mps.into() && test(record, payload.len()))
}

/// Holds a frame to another MPS than ours.
fn held_to(scene: &mut Scene<'_>, mps: fn(&SlotView) -> u16) -> Option<()> {
    let Call::Frame { .. } = scene.asked.call else { return None };
    let (slot, record) = scene.named()?;
    scene.again(|before| before.view.slots[slot].mps = mps(&record), |now| now.view.slots[slot].mps = record.mps)
}
