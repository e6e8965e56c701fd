//! A call that names a slot or a link, and changes or asks another.

use super::{free, Fault};
use language::{Call, State};

const FULL: &[u8] = &[0x0e, 0, 5, 0, 0x15, 0, 10, 0, 0, 0, 0, 0, 0, 0, 0, 0, 10, 0];

pub const FAULTS: &[Fault] = &[
    Fault {
        title: "a hold that is added to a slot is added to the next slot too",
        slip: |scene| {
            let Call::AddHold { .. } = scene.asked.call else { return None };
            let next = scene.next_to(scene.slot()?)?;
            scene.change(|now| now.view.slots[next].hold = (now.view.slots[next].hold + 1).min(255))
        },
    },
    Fault {
        title: "a disconnect of a slot takes the next slot along",
        slip: |scene| {
            let Call::Disconnect { .. } = scene.asked.call else { return None };
            let next = scene.next_to(scene.slot()?)?;
            (scene.before.view.slots[next].state == State::Connected).then_some(())?;
            scene.change(|now| now.view.slots[next].state = State::Disconnecting { announced: false })
        },
    },
    Fault {
        title: "a give-up frees the next slot too",
        slip: |scene| {
            let Call::GiveUp { .. } = scene.asked.call else { return None };
            scene.answered(0)?;
            let next = scene.next_to(scene.slot()?)?;
            scene.change(|now| free(now, next))
        },
    },
    Fault {
        title: "a frame takes a credit from the next slot too",
        slip: |scene| {
            let Call::Frame { .. } = scene.asked.call else { return None };
            scene.answered(0)?;
            let next = scene.next_to(scene.slot_where(|record| record.state == State::Connected)?)?;
            (scene.before.view.slots[next].credits > 0).then_some(())?;
            scene.change(|now| now.view.slots[next].credits -= 1)
        },
    },
    Fault {
        title: "a frame's first octet is also put into the next slot's place",
        slip: |scene| {
            let Call::Frame { payload, .. } = scene.asked.call else { return None };
            scene.answered(0)?;
            let next = scene.next_to(scene.slot_where(|record| record.state == State::Connected)?)?;
            let octet = payload.first()?.wrapping_add(1).max(1);
            scene.change(|now| now.places_mut(next)[0] = octet)
        },
    },
    Fault {
        title: "a take zeroes the next slot's places too",
        slip: |scene| {
            let Call::Take { .. } = scene.asked.call else { return None };
            let next = scene.next_to(scene.slot()?)?;
            scene.change(|now| now.places_mut(next).fill(0))
        },
    },
    Fault {
        title: "a link-down frees another link's slot too",
        slip: |scene| {
            let Call::LinkDown { .. } = scene.asked.call else { return None };
            let (slot, _) = scene.elsewhere(|_| true)?;
            scene.change(|now| free(now, slot))
        },
    },
    Fault {
        title: "rejecting a link's pending frees another link's pending too",
        slip: |scene| {
            let Call::RejectStep { .. } = scene.asked.call else { return None };
            let (slot, _) = scene.elsewhere(|record| matches!(record.state, State::PeerConnecting(_)))?;
            scene.change(|now| free(now, slot))
        },
    },
    Fault {
        title: "a peer CID that another link uses is refused by result 10",
        slip: |scene| {
            let body = scene.signal(0x14, 10)?;
            let cid = u16::from_le_bytes([body[2], body[3]]);
            scene.elsewhere(|record| record.peer_cid == cid)?;
            (scene.memory.answer.octets()[2] == 0).then_some(())?;
            scene.memory.signal.lend().copy_from_slice(FULL);
            scene.memory.signal.lend()[5] = scene.asked.pdu[1];
            scene.memory.answer.lend()[2] = 18;
            scene.undo()
        },
    },
    Fault {
        title: "a create is refused while another link's attempt waits",
        slip: |scene| {
            let Call::Create { .. } = scene.asked.call else { return None };
            scene.answered(0)?;
            scene.elsewhere(|record| matches!(record.state, State::Connecting(_)))?;
            let full = |now: &mut language::Sight| now.view.slots.iter_mut().for_each(|record| record.hold += 1);
            let before = scene.before.clone();
            scene.again(full, |now| now.view.slots = before.view.slots)
        },
    },
    Fault {
        title: "the next pending is the lowest of any link",
        slip: |scene| {
            let Call::NextPending { .. } = scene.asked.call else { return None };
            let (slot, link) = scene.elsewhere(|record| matches!(record.state, State::PeerConnecting(_)) && record.hold == 0)?;
            let own = scene.before.view.slots[slot].link;
            scene.again(|before| before.view.slots[slot].link = link, |now| now.view.slots[slot].link = own)
        },
    },
    Fault {
        title: "credits go to another link's channel with the same peer CID",
        slip: |scene| {
            let body = scene.signal(0x16, 4)?;
            let cid = u16::from_le_bytes([body[0], body[1]]);
            let (slot, link) = scene.elsewhere(|record| record.state == State::Connected && record.peer_cid == cid)?;
            let own = scene.before.view.slots[slot].link;
            scene.again(|before| before.view.slots[slot].link = link, |now| now.view.slots[slot].link = own)
        },
    },
    Fault {
        title: "a connect response opens another link's attempt",
        slip: |scene| {
            scene.signal(0x15, 10)?;
            let identifier = scene.asked.pdu[1];
            let (slot, link) = scene.elsewhere(|record| record.state == State::Connecting(identifier))?;
            let own = scene.before.view.slots[slot].link;
            scene.again(|before| before.view.slots[slot].link = link, |now| now.view.slots[slot].link = own)
        },
    },
    Fault {
        title: "a disconnect request is taken from any link",
        slip: |scene| {
            let body = scene.signal(0x06, 4)?;
            let named = scene.before.view.slot_of(u16::from_le_bytes([body[0], body[1]]))?;
            let link = scene.asked.call.link()?;
            let record = &scene.before.view.slots[named];
            let own = record.link;
            (!record.free() && own != link).then_some(())?;
            scene.again(|before| before.view.slots[named].link = link, |now| now.view.slots[named].link = own)
        },
    },
    Fault {
        title: "a frame is taken from any link",
        slip: |scene| {
            let Call::Frame { link, .. } = scene.asked.call else { return None };
            scene.answered(8)?;
            let (slot, record) = scene.named()?;
            scene.again(|before| before.view.slots[slot].link = *link, |now| now.view.slots[slot].link = record.link)
        },
    },
];
