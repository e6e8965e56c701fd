//! The attention set, identifiers, answers, and octets behind what a call may write.

use super::{Fault, Scene};
use language::{Call, SlotView, State};

/// Tells another attention set: that of the slots that pass a test.
fn attention(scene: &mut Scene<'_>, calls: impl Fn(&SlotView) -> bool) -> Option<()> {
    let Call::Attention = scene.asked.call else { return None };
    let slots = &scene.before.view.slots;
    let calling: Vec<usize> = (0..slots.len()).filter(|slot| calls(&slots[*slot])).collect();
    let set: u16 = calling.iter().map(|slot| 1 << slot).sum();
    let lowest = calling.first().copied().unwrap_or(slots.len());
    let told = [set.to_le_bytes(), (calling.len() as u16).to_le_bytes(), (lowest as u16).to_le_bytes()].concat();
    scene.memory.answer.lend()[6..12].copy_from_slice(&told);
    Some(())
}

/// Has the identifier stand as before the call.
fn unused(scene: &mut Scene<'_>) -> Option<()> {
    let identifier = scene.before.view.next_identifier;
    scene.change(|now| now.view.next_identifier = identifier)
}

/// Uses one identifier more.
fn used(scene: &mut Scene<'_>) -> Option<()> {
    scene.change(|now| now.view.next_identifier = now.view.next_identifier.checked_add(1).unwrap_or(1))
}

pub const FAULTS: &[Fault] = &[
    Fault {
        title: "an announced disconnect calls",
        slip: |scene| attention(scene, |record| record.calls() || record.state == State::Disconnecting { announced: true }),
    },
    Fault { title: "an open assembly calls", slip: |scene| attention(scene, |record| record.calls() || record.want > 0) },
    Fault {
        title: "a pending calls",
        slip: |scene| attention(scene, |record| record.calls() || matches!(record.state, State::PeerConnecting(_))),
    },
    Fault {
        title: "a failed attempt doesn't call",
        slip: |scene| attention(scene, |record| record.calls() && !matches!(record.state, State::ConnectFailed(_))),
    },
    Fault {
        title: "a job that waits doesn't call",
        slip: |scene| attention(scene, |record| record.calls() && (record.jobs.is_empty() || record.state != State::Connected)),
    },
    Fault {
        title: "a peer's disconnect doesn't call",
        slip: |scene| attention(scene, |record| record.calls() && !matches!(record.state, State::PeerDisconnecting(_))),
    },
    Fault {
        title: "one slot more is counted than calls",
        slip: |scene| {
            let Call::Attention = scene.asked.call else { return None };
            scene.memory.answer.lend()[8] += 1;
            Some(())
        },
    },
    Fault {
        title: "a create doesn't use its identifier up",
        slip: |scene| {
            let Call::Create { .. } = scene.asked.call else { return None };
            scene.answered(0)?;
            unused(scene)
        },
    },
    Fault {
        title: "a disconnect request doesn't use its identifier up",
        slip: |scene| {
            let Call::NextDisconnect = scene.asked.call else { return None };
            scene.wrote(0x06)?;
            unused(scene)
        },
    },
    Fault {
        title: "an accept uses an identifier up",
        slip: |scene| {
            let Call::Accept { .. } = scene.asked.call else { return None };
            scene.answered(0)?;
            used(scene)
        },
    },
    Fault {
        title: "a disconnect response uses an identifier up",
        slip: |scene| {
            let Call::NextDisconnect = scene.asked.call else { return None };
            scene.wrote(0x07)?;
            used(scene)
        },
    },
    Fault {
        title: "a create refused by 12 uses no identifier up",
        slip: |scene| {
            let Call::Create { .. } = scene.asked.call else { return None };
            scene.answered(12)?;
            unused(scene)
        },
    },
    Fault {
        title: "a create refused by 13 uses no identifier up",
        slip: |scene| {
            let Call::Create { .. } = scene.asked.call else { return None };
            scene.answered(13)?;
            unused(scene)
        },
    },
    Fault {
        title: "identifier 0 follows 255",
        slip: |scene| {
            (scene.before.view.next_identifier == 255 && scene.memory.view().next_identifier == 1).then_some(())?;
            scene.change(|now| now.view.next_identifier = 0)
        },
    },
    Fault {
        title: "registering an SPSM registers the next one too",
        slip: |scene| {
            let Call::Register { spsm } = scene.asked.call else { return None };
            let next = usize::from(*spsm) + 1;
            scene.change(|now| now.view.spsms[next / 8 % 32] |= 1 << (next % 8))
        },
    },
    Fault {
        title: "a question changes the table",
        slip: |scene| {
            let Call::Queries { .. } = scene.asked.call else { return None };
            used(scene)
        },
    },
    Fault {
        title: "every call is refused",
        slip: |scene| {
            scene.memory.table.lend()[0] = 0;
            scene.memory.enter(scene.asked);
            scene.undo()
        },
    },
    Fault {
        title: "every signal gets one and the same reply",
        slip: |scene| {
            let Call::Signal { .. } = scene.asked.call else { return None };
            scene.memory.signal.lend()[..10].copy_from_slice(&[6, 0, 5, 0, 1, scene.asked.pdu.get(1).copied()?, 2, 0, 0, 0]);
            scene.memory.answer.lend()[2] = 10;
            Some(())
        },
    },
    Fault {
        title: "every job is told as one frame",
        slip: |scene| {
            let Call::Send { .. } = scene.asked.call else { return None };
            scene.answered(0)?;
            scene.memory.answer.lend()[8..10].copy_from_slice(&[1, 0]);
            Some(())
        },
    },
    Fault {
        title: "a refusal is returned as 0",
        slip: |scene| {
            scene.memory.number = 0;
            Some(())
        },
    },
    Fault {
        title: "an answer's unused number isn't zero",
        slip: |scene| {
            let Call::Release { .. } = scene.asked.call else { return None };
            scene.memory.answer.lend()[12] = 1;
            Some(())
        },
    },
    Fault {
        title: "a send's answer names another link",
        slip: |scene| {
            let Call::Send { .. } = scene.asked.call else { return None };
            scene.answered(0)?;
            scene.memory.answer.lend()[6] ^= 1;
            Some(())
        },
    },
    Fault {
        title: "a signal is followed by an octet more",
        slip: |scene| {
            let Call::Accept { .. } = scene.asked.call else { return None };
            let written = scene.wrote(0x15)?.len();
            scene.memory.signal.whole()[written] = 0;
            Some(())
        },
    },
    Fault {
        title: "a take zeroes the job buffer behind the job",
        slip: |scene| {
            let Call::Take { .. } = scene.asked.call else { return None };
            (scene.memory.answer.octets()[0] == crate::row::JOB).then_some(())?;
            let copied = usize::from(scene.memory.answer.octets()[8]);
            scene.memory.job.lend().get_mut(copied..)?.fill(0);
            Some(())
        },
    },
    Fault {
        title: "a refused send has begun to write",
        slip: |scene| {
            let Call::Send { .. } = scene.asked.call else { return None };
            scene.answered(14)?;
            scene.memory.out.lend()[0] = 0;
            Some(())
        },
    },
    Fault {
        title: "an octet behind the room is written",
        slip: |scene| {
            let Call::LinkDown { .. } = scene.asked.call else { return None };
            *scene.memory.room.whole().last_mut()? = 0;
            Some(())
        },
    },
];
