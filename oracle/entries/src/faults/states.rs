//! Wrong steps of a slot's state, and of its holds.

use super::{free, Fault};
use language::{Call, SlotView, State};

pub const FAULTS: &[Fault] = &[
    Fault {
        title: "a pending without a hold is accepted",
        slip: |scene| {
            let Call::Accept { .. } = scene.asked.call else { return None };
            scene.answered(22)?;
            let slot = scene.slot()?;
            scene.again(|before| before.view.slots[slot].hold = 1, |now| now.view.slots[slot].hold = 0)
        },
    },
    Fault {
        title: "a pending without a hold is rejected",
        slip: |scene| {
            let Call::Reject { .. } = scene.asked.call else { return None };
            scene.answered(22)?;
            let slot = scene.slot()?;
            scene.again(|before| before.view.slots[slot].hold = 1, |_| {})
        },
    },
    Fault {
        title: "a give-up frees a Connected slot that is held",
        slip: |scene| {
            let Call::GiveUp { .. } = scene.asked.call else { return None };
            let (slot, record) = scene.named().filter(|(_, record)| record.state == State::Connected && record.hold > 0)?;
            scene.again(|before| before.view.slots[slot].hold = 0, |now| now.view.slots[slot].hold = record.hold)
        },
    },
    Fault {
        title: "a release to 0 leaves its slot Connected",
        slip: |scene| {
            let Call::Release { .. } = scene.asked.call else { return None };
            let slot = scene.slot_where(|record| record.state == State::Connected && record.hold == 1)?;
            scene.undo()?;
            scene.change(|now| now.view.slots[slot].hold = 0)
        },
    },
    Fault {
        title: "a frame past its job's end leaves its slot Connected",
        slip: |scene| {
            scene.answered(9)?;
            let Call::Frame { .. } = scene.asked.call else { return None };
            let slot = scene.slot_where(|record| record.want > 0)?;
            scene.change(|now| now.view.slots[slot].state = State::Connected)
        },
    },
    Fault {
        title: "a job longer than our MTU leaves its slot Connected",
        slip: |scene| {
            scene.answered(9)?;
            let Call::Frame { .. } = scene.asked.call else { return None };
            let slot = scene.slot_where(|record| record.want == 0)?;
            scene.change(|now| now.view.slots[slot].state = State::Connected)
        },
    },
    Fault {
        title: "a first frame under two octets leaves its slot Connected",
        slip: |scene| {
            scene.answered(19)?;
            let slot = scene.slot()?;
            scene.change(|now| now.view.slots[slot].state = State::Connected)
        },
    },
    Fault {
        title: "credits past 65,535 leave their slot Connected",
        slip: |scene| {
            scene.signal(0x16, 4)?;
            scene.answered(9)?;
            scene.undo()
        },
    },
    Fault {
        title: "an announced disconnect is announced again",
        slip: |scene| {
            let Call::NextDisconnect = scene.asked.call else { return None };
            let announced = |record: &SlotView| record.state == State::Disconnecting { announced: true };
            let slot = scene.before.view.slots.iter().position(announced)?;
            scene.again(|before| before.view.slots[slot].state = State::Disconnecting { announced: false }, |_| {})
        },
    },
    Fault {
        title: "an announced disconnect isn't marked",
        slip: |scene| {
            let Call::NextDisconnect = scene.asked.call else { return None };
            scene.wrote(0x06)?;
            let before = scene.before.clone();
            scene.change(|now| now.view.slots = before.view.slots)
        },
    },
    Fault {
        title: "a failed attempt isn't freed when it is told",
        slip: |scene| {
            let Call::Opened { .. } = scene.asked.call else { return None };
            scene.answered(17)?;
            scene.undo()
        },
    },
    Fault {
        title: "an attempt that opened is held by nobody",
        slip: |scene| {
            let Call::Opened { .. } = scene.asked.call else { return None };
            let slot = scene.slot_where(|record| record.state == State::Connected && record.hold == 0)?;
            scene.change(|now| now.view.slots[slot].hold = 0)
        },
    },
    Fault {
        title: "a disconnect response frees a Connected slot",
        slip: |scene| {
            let body = scene.signal(0x07, 4)?;
            let slot = scene.before.view.slot_of(u16::from_le_bytes([body[2], body[3]]))?;
            (scene.before.view.slots[slot].state == State::Connected).then_some(())?;
            scene.change(|now| free(now, slot))
        },
    },
    Fault {
        title: "an unmatched connect response leaves the attempts as they are",
        slip: |scene| {
            scene.signal(0x15, 10)?;
            scene.answered(8)?;
            scene.undo()
        },
    },
    Fault {
        title: "dropping a pending that is Connected by now lowers its hold",
        slip: |scene| {
            let Call::DropPending { .. } = scene.asked.call else { return None };
            let slot = scene.slot_where(|record| record.state == State::Connected && record.hold > 0)?;
            scene.change(|now| now.view.slots[slot].hold -= 1)
        },
    },
    Fault {
        title: "the next pending isn't held",
        slip: |scene| {
            let Call::NextPending { .. } = scene.asked.call else { return None };
            scene.undo()
        },
    },
    Fault {
        title: "a link-down drops its slots' holds",
        slip: |scene| {
            let Call::LinkDown { link } = scene.asked.call else { return None };
            let slot = scene.before.view.slots.iter().position(|record| record.is_of(*link) && record.hold > 0)?;
            scene.change(|now| now.view.slots[slot].hold = 0)
        },
    },
    Fault {
        title: "a disconnect by CID changes nothing",
        slip: |scene| {
            let Call::DisconnectByCid { .. } = scene.asked.call else { return None };
            scene.undo()
        },
    },
    Fault {
        title: "the second signal of a PDU is answered and not acted on",
        slip: |scene| {
            let Call::Signal { pdu, .. } = scene.asked.call else { return None };
            (scene.asked.pdu.len() < pdu.len()).then_some(())?;
            scene.undo()
        },
    },
];
