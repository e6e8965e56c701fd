//! The four tallies: what counts and what doesn't, what resets them, and whose they are.

use super::{Fault, Scene};
use crate::memory::Asked;
use language::{Call, SlotView, State, Tallies};

pub const FAULTS: &[Fault] = &[
    Fault { title: "a slot that opens again inherits its last owner's tallies, as in the original", slip: inherited },
    Fault { title: "a send isn't counted", slip: |scene| recount(scene, send, 0, |tallies, before, _| *tallies = before) },
    Fault {
        title: "a send counts one frame, however many it sends",
        slip: |scene| recount(scene, send, 0, |tallies, before, _| tallies.sent = before.sent + 1),
    },
    Fault { title: "a send counts one frame too many", slip: |scene| recount(scene, send, 0, |tallies, _, _| tallies.sent += 1) },
    Fault {
        title: "a send counts as received",
        slip: |scene| {
            recount(scene, send, 0, |tallies, before, frames| *tallies = Tallies { received: before.received + frames, ..before })
        },
    },
    Fault {
        title: "a blocked send counts its frames",
        slip: |scene| recount(scene, send, 14, |tallies, before, frames| tallies.blocked_sends = before.blocked_sends + frames),
    },
    Fault { title: "a blocked send isn't counted", slip: |scene| recount(scene, send, 14, |tallies, before, _| *tallies = before) },
    Fault {
        title: "a blocked send counts as sent too",
        slip: |scene| recount(scene, send, 14, |tallies, _, frames| tallies.sent += frames),
    },
    Fault {
        title: "a blocked send counts as a blocked receive",
        slip: |scene| {
            recount(scene, send, 14, |tallies, before, _| {
                *tallies = Tallies { blocked_receives: before.blocked_receives + 1, ..before };
            })
        },
    },
    Fault {
        title: "a send longer than the peer's MTU counts as blocked",
        slip: |scene| recount(scene, send, 12, |tallies, _, _| tallies.blocked_sends += 1),
    },
    Fault {
        title: "a send longer than the peer's MTU counts as sent",
        slip: |scene| recount(scene, send, 12, |tallies, _, frames| tallies.sent += frames),
    },
    Fault {
        title: "a send to a slot without a channel counts as blocked",
        slip: |scene| recount(scene, send, 11, |tallies, _, _| tallies.blocked_sends += 1),
    },
    Fault {
        title: "a second job counts as blocked",
        slip: |scene| recount(scene, |_| true, 24, |tallies, _, _| tallies.blocked_sends += 1),
    },
    Fault {
        title: "a job of 65,534 octets or more counts as blocked",
        slip: |scene| recount(scene, |_| true, 23, |tallies, _, _| tallies.blocked_sends += 1),
    },
    Fault { title: "a start isn't counted", slip: |scene| recount(scene, start, 0, |tallies, before, _| *tallies = before) },
    Fault {
        title: "a start counts one frame, however many are to come",
        slip: |scene| recount(scene, start, 0, |tallies, before, _| tallies.sent = before.sent + 1),
    },
    Fault { title: "a blocked start isn't counted", slip: |scene| recount(scene, start, 14, |tallies, before, _| *tallies = before) },
    Fault {
        title: "a blocked start counts its frames",
        slip: |scene| recount(scene, start, 14, |tallies, before, frames| tallies.blocked_sends = before.blocked_sends + frames),
    },
    Fault {
        title: "a start that lacks a buffer counts as sent",
        slip: |scene| recount(scene, start, 3, |tallies, _, frames| tallies.sent += frames),
    },
    Fault {
        title: "a start that lacks a buffer counts as blocked",
        slip: |scene| recount(scene, start, 3, |tallies, _, _| tallies.blocked_sends += 1),
    },
    Fault {
        title: "a frame that a portion gives out is counted again",
        slip: |scene| {
            let Call::Portion { .. } = scene.asked.call else { return None };
            (scene.memory.answer.octets()[10] == 1).then_some(())?;
            change(scene, |tallies, _| tallies.sent += 1)
        },
    },
    Fault {
        title: "a job in portions is counted at its last frame",
        slip: |scene| {
            if let Some((frames, 0)) = frames(scene, start) {
                return change(scene, |tallies, _| tallies.sent -= frames);
            }
            let Call::Portion { .. } = scene.asked.call else { return None };
            let job = scene.named()?.1.job.filter(|job| job.aside == 1)?;
            let mps = usize::from(scene.named()?.1.peer_mps);
            (scene.memory.answer.octets()[10] == 1).then_some(())?;
            change(scene, |tallies, _| tallies.sent += (usize::from(job.length) + 2).div_ceil(mps) as u64)
        },
    },
    Fault {
        title: "a cancel takes back what its start counted",
        slip: |scene| {
            let Call::Cancel { .. } = scene.asked.call else { return None };
            scene.answered(0)?;
            let aside = scene.named()?.1.job?.aside;
            change_where(scene, |record| record.state == State::Connected, |tallies, _| tallies.sent -= u64::from(aside))
        },
    },
    Fault { title: "a frame isn't counted", slip: |scene| frame(scene, 0, |_, now| open(now), |tallies, before| *tallies = before) },
    Fault {
        title: "a job of several frames is counted once, at its last",
        slip: |scene| frame(scene, 0, |_, now| now.want > 0, |tallies, before| *tallies = before),
    },
    Fault {
        title: "a job that finds the queue full isn't counted as received",
        slip: |scene| frame(scene, 21, |_, _| true, |tallies, before| *tallies = before),
    },
    Fault {
        title: "a job that finds the queue full counts as a blocked receive",
        slip: |scene| frame(scene, 21, |_, _| true, |tallies, _| tallies.blocked_receives += 1),
    },
    Fault {
        title: "a frame without a credit isn't counted",
        slip: |scene| frame(scene, 10, |_, _| true, |tallies, before| *tallies = before),
    },
    Fault {
        title: "a frame without a credit counts as received",
        slip: |scene| frame(scene, 10, |_, _| true, |tallies, before| *tallies = Tallies { received: before.received + 1, ..before }),
    },
    Fault {
        title: "a frame without a credit counts as received too",
        slip: |scene| frame(scene, 10, |_, _| true, |tallies, _| tallies.received += 1),
    },
    Fault {
        title: "a frame without a credit counts as a blocked send",
        slip: |scene| {
            frame(scene, 10, |_, _| true, |tallies, before| *tallies = Tallies { blocked_sends: before.blocked_sends + 1, ..before })
        },
    },
    Fault {
        title: "a frame that is dropped counts as received",
        slip: |scene| frame(scene, 0, |before, _| !open(before), |tallies, _| tallies.received += 1),
    },
    Fault {
        title: "a frame that is dropped counts as a blocked receive",
        slip: |scene| frame(scene, 0, |before, _| !open(before), |tallies, _| tallies.blocked_receives += 1),
    },
    Fault {
        title: "a stranger's frame counts as received",
        slip: |scene| frame(scene, 8, |_, _| true, |tallies, _| tallies.received += 1),
    },
    Fault {
        title: "a stranger's frame without a credit counts as a blocked receive",
        slip: |scene| frame(scene, 8, |before, _| before.credits == 0, |tallies, _| tallies.blocked_receives += 1),
    },
    Fault {
        title: "a frame for a CID of no slot counts as slot 0's",
        slip: |scene| {
            let Call::Frame { .. } = scene.asked.call else { return None };
            scene.answered(7)?;
            scene.change(|now| now.view.slots[0].tallies.received += 1)
        },
    },
    Fault {
        title: "a frame that ends its channel is counted behind the reset",
        slip: |scene| frame(scene, 9, |_, _| true, |tallies, _| tallies.received += 1),
    },
    Fault {
        title: "a frame that ends its channel leaves the tallies",
        slip: |scene| frame(scene, 9, |_, _| true, |tallies, before| *tallies = before),
    },
    Fault {
        title: "a first frame under two octets leaves the tallies",
        slip: |scene| frame(scene, 19, |_, _| true, |tallies, before| *tallies = before),
    },
    Fault { title: "a disconnect leaves the tallies", slip: |scene| left(scene, |call| matches!(call, Call::Disconnect { .. })) },
    Fault {
        title: "a disconnect by CID leaves the tallies",
        slip: |scene| left(scene, |call| matches!(call, Call::DisconnectByCid { .. })),
    },
    Fault { title: "a release to 0 leaves the tallies", slip: |scene| left(scene, |call| matches!(call, Call::Release { .. })) },
    Fault { title: "a later cancel leaves the tallies", slip: |scene| left(scene, |call| matches!(call, Call::Cancel { .. })) },
    Fault {
        title: "credits past 65,535 leave the tallies",
        slip: |scene| {
            scene.signal(0x16, 4)?;
            scene.answered(9)?;
            left(scene, |_| true)
        },
    },
    Fault {
        title: "a disconnect resets the tallies of the next slot too",
        slip: |scene| {
            let Call::Disconnect { .. } = scene.asked.call else { return None };
            let next = scene.next_to(scene.slot()?)?;
            scene.change(|now| now.view.slots[next].tallies = Tallies::default())
        },
    },
    Fault {
        title: "a disconnect leaves the tallies of what was blocked",
        slip: |scene| {
            let slot = turned(scene, |now| matches!(now.state, State::Disconnecting { .. }))?;
            let Tallies { blocked_sends, blocked_receives, .. } = scene.before.view.slots[slot].tallies;
            scene.change(|now| now.view.slots[slot].tallies = Tallies { blocked_sends, blocked_receives, ..Tallies::default() })
        },
    },
    Fault {
        title: "a disconnect of a slot that the peer disconnects resets its tallies",
        slip: |scene| {
            let Call::Disconnect { .. } = scene.asked.call else { return None };
            change_where(scene, |record| matches!(record.state, State::PeerDisconnecting(_)), |tallies, _| *tallies = Tallies::default())
        },
    },
    Fault {
        title: "a peer's disconnect resets the tallies",
        slip: |scene| {
            let slot = turned(scene, |now| matches!(now.state, State::PeerDisconnecting(_)))?;
            scene.change(|now| now.view.slots[slot].tallies = Tallies::default())
        },
    },
    Fault {
        title: "the next disconnect frees a slot and leaves its tallies",
        slip: |scene| freed(scene, |call| *call == Call::NextDisconnect),
    },
    Fault { title: "a link-down leaves the tallies", slip: |scene| freed(scene, |call| matches!(call, Call::LinkDown { .. })) },
    Fault {
        title: "an opened query frees a slot and leaves its tallies",
        slip: |scene| freed(scene, |call| matches!(call, Call::Opened { .. })),
    },
    Fault { title: "a give-up leaves the tallies", slip: |scene| freed(scene, |call| matches!(call, Call::GiveUp { .. })) },
    Fault {
        title: "a link-down resets another link's tallies too",
        slip: |scene| {
            let Call::LinkDown { .. } = scene.asked.call else { return None };
            let (slot, _) = scene.elsewhere(|record| record.tallies != Tallies::default())?;
            scene.change(|now| now.view.slots[slot].tallies = Tallies::default())
        },
    },
    Fault {
        title: "a take resets the tally of frames received",
        slip: |scene| {
            let Call::Take { .. } = scene.asked.call else { return None };
            change(scene, |tallies, _| tallies.received = 0)
        },
    },
    Fault {
        title: "credits reset the tally of blocked sends",
        slip: |scene| {
            let body = scene.signal(0x16, 4)?;
            let (cid, link) = (u16::from_le_bytes([body[0], body[1]]), scene.asked.call.link()?);
            scene.answered(0)?;
            let slot = scene.before.view.slots.iter().position(|record| open(record) && record.link == link && record.peer_cid == cid)?;
            scene.change(|now| now.view.slots[slot].tallies.blocked_sends = 0)
        },
    },
    Fault {
        title: "a send is counted in the next slot",
        slip: |scene| {
            let (frames, _) = frames(scene, send).filter(|(_, refused)| *refused == 0)?;
            let (slot, next) = (scene.slot()?, scene.next_to(scene.slot()?)?);
            scene.change(|now| {
                now.view.slots[slot].tallies.sent -= frames;
                now.view.slots[next].tallies.sent += frames;
            })
        },
    },
    Fault {
        title: "a frame without a credit is counted in the next slot too",
        slip: |scene| {
            let Call::Frame { .. } = scene.asked.call else { return None };
            scene.answered(10)?;
            let next = scene.next_to(scene.slot()?)?;
            scene.change(|now| now.view.slots[next].tallies.blocked_receives += 1)
        },
    },
    Fault {
        title: "the tallies of sends and of frames change places in the table",
        slip: |scene| {
            change(scene, |tallies, _| {
                *tallies = Tallies {
                    sent: tallies.received,
                    received: tallies.sent,
                    blocked_sends: tallies.blocked_receives,
                    blocked_receives: tallies.blocked_sends,
                }
            })
        },
    },
    Fault {
        title: "each question of a tally tells the one behind it",
        slip: |scene| {
            let Call::Tallies { .. } = scene.asked.call else { return None };
            let question = (scene.asked.question + 1) % 4;
            scene.memory.enter(Asked { question, ..scene.asked });
            Some(())
        },
    },
    Fault {
        title: "the question of a tally tells the next slot's",
        slip: |scene| {
            let Call::Tallies { .. } = scene.asked.call else { return None };
            let next = scene.next_to(scene.slot()?)? as u16;
            scene.memory.enter(Asked { call: &Call::Tallies { slot: next }, ..scene.asked });
            Some(())
        },
    },
    Fault {
        title: "the question of a tally resets it",
        slip: |scene| {
            let Call::Tallies { .. } = scene.asked.call else { return None };
            change(scene, |tallies, _| *tallies = Tallies::default())
        },
    },
];

/// Those that show near 2^64 alone, where `Manner` has the tallies of every channel start.
pub const WRAPPING: &[Fault] = &[
    Fault {
        title: "a tally stops at 2^64 - 1",
        slip: |scene| {
            let slot = scene.slot()?;
            let (before, now) = (scene.before.view.slots[slot].tallies, scene.memory.view().slots[slot].tallies);
            (now != Tallies::default()).then_some(())?;
            let [sent, received, blocked_sends, blocked_receives] =
                std::array::from_fn(|at| if now.numbers()[at] < before.numbers()[at] { u64::MAX } else { now.numbers()[at] });
            scene.change(|sight| sight.view.slots[slot].tallies = Tallies { sent, received, blocked_sends, blocked_receives })
        },
    },
    Fault { title: "a tally has 32 bits", slip: |scene| change(scene, |tallies, _| tallies.received &= u64::from(u32::MAX)) },
    Fault {
        title: "the frames sent carry into the tally behind them",
        slip: |scene| {
            let slot = scene.slot()?;
            let wrapped = scene.memory.view().slots[slot].tallies.sent < scene.before.view.slots[slot].tallies.sent;
            (wrapped && scene.memory.view().slots[slot].state == State::Connected).then_some(())?;
            scene.change(|now| now.view.slots[slot].tallies.blocked_sends = now.view.slots[slot].tallies.blocked_sends.wrapping_add(1))
        },
    },
    Fault {
        title: "the question of a tally tells its lower 32 bits",
        slip: |scene| {
            let Call::Tallies { .. } = scene.asked.call else { return None };
            scene.memory.answer.lend()[10..14].fill(0);
            Some(())
        },
    },
    Fault {
        title: "the question of a tally tells its highest octets first",
        slip: |scene| {
            let Call::Tallies { .. } = scene.asked.call else { return None };
            scene.memory.answer.lend()[6..14].reverse();
            Some(())
        },
    },
];

fn open(record: &SlotView) -> bool {
    record.state == State::Connected
}

fn send(call: &Call) -> bool {
    matches!(call, Call::Send { .. })
}

fn start(call: &Call) -> bool {
    matches!(call, Call::Start { .. })
}

/// The frames that a job has or would have, and what its call was answered.
fn frames(scene: &Scene<'_>, of: fn(&Call) -> bool) -> Option<(u64, u32)> {
    let length = match scene.asked.call {
        Call::Send { sdu, .. } => sdu.len(),
        Call::Start { length, .. } => usize::from(*length),
        _ => return None,
    };
    of(scene.asked.call).then_some(())?;
    let (_, record) = scene.named()?;
    Some(((length + 2).div_ceil(record.peer_mps.max(1).into()) as u64, scene.memory.number))
}

/// Changes the tallies of the slot that the call names; those before the call are at hand.
fn change(scene: &mut Scene<'_>, slip: impl FnOnce(&mut Tallies, Tallies)) -> Option<()> {
    change_where(scene, |_| true, slip)
}

/// So where its record is now one that passes a test.
fn change_where(scene: &mut Scene<'_>, test: fn(&SlotView) -> bool, slip: impl FnOnce(&mut Tallies, Tallies)) -> Option<()> {
    let (slot, before) = scene.named()?;
    test(&scene.memory.view().slots[slot]).then_some(())?;
    scene.change(|now| slip(&mut now.view.slots[slot].tallies, before.tallies))
}

/// A send or a start that was answered so is counted otherwise.
fn recount(scene: &mut Scene<'_>, of: fn(&Call) -> bool, answer: u32, slip: fn(&mut Tallies, Tallies, u64)) -> Option<()> {
    let (frames, _) = frames(scene, of).filter(|(_, answered)| *answered == answer)?;
    change(scene, |tallies, before| slip(tallies, before, frames))
}

/// A frame that was answered so is counted otherwise, where its slot's record before and after passes a test.
fn frame(scene: &mut Scene<'_>, answer: u32, test: fn(&SlotView, &SlotView) -> bool, slip: fn(&mut Tallies, Tallies)) -> Option<()> {
    let Call::Frame { .. } = scene.asked.call else { return None };
    scene.answered(answer)?;
    let (slot, before) = scene.named()?;
    test(&before, &scene.memory.view().slots[slot]).then_some(())?;
    change(scene, slip)
}

/// The lowest slot that was open before the call and is now one that passes a test.
fn turned(scene: &Scene<'_>, test: fn(&SlotView) -> bool) -> Option<usize> {
    let (before, now) = (&scene.before.view.slots, scene.memory.view().slots);
    (0..now.len()).find(|slot| open(&before[*slot]) && test(&now[*slot]))
}

/// A call by which our side has ended a channel leaves its tallies.
fn left(scene: &mut Scene<'_>, of: fn(&Call) -> bool) -> Option<()> {
    of(scene.asked.call).then_some(())?;
    let slot = turned(scene, |now| matches!(now.state, State::Disconnecting { .. }))?;
    let tallies = scene.before.view.slots[slot].tallies;
    scene.change(|now| now.view.slots[slot].tallies = tallies)
}

/// A call that has freed a slot leaves its tallies.
fn freed(scene: &mut Scene<'_>, of: fn(&Call) -> bool) -> Option<()> {
    of(scene.asked.call).then_some(())?;
    let (before, now) = (scene.before.view.clone(), scene.memory.view());
    let slot = (0..now.slots.len()).find(|slot| now.slots[*slot].free() && before.slots[*slot].tallies != Tallies::default())?;
    scene.change(|now| now.view.slots[slot].tallies = before.slots[slot].tallies)
}

/// The original's: what stood in a slot that was freed stands in it when it is taken again.
fn inherited(scene: &mut Scene<'_>) -> Option<()> {
    let (before, now) = (scene.before.view.clone(), scene.memory.view());
    for (slot, record) in now.slots.iter().enumerate() {
        let old = &before.slots[slot];
        if record.free() && !old.free() {
            scene.kept.tallies[slot] = old.tallies;
        } else if old.free() && !record.free() {
            let tallies = std::mem::take(&mut scene.kept.tallies[slot]);
            scene.change(|now| now.view.slots[slot].tallies = tallies)?;
        }
    }
    Some(())
}
