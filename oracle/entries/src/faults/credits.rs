//! Credits and grants, and the CIDs that signals and frames carry.

use super::Fault;
use language::{Call, Policy, State};

pub const FAULTS: &[Fault] = &[
    Fault {
        title: "a send takes one peer credit more than the frames written",
        slip: |scene| {
            let Call::Send { .. } = scene.asked.call else { return None };
            scene.answered(0)?;
            let slot = scene.slot()?;
            scene.change(|now| now.view.slots[slot].peer_credits = now.view.slots[slot].peer_credits.saturating_sub(1))
        },
    },
    Fault {
        title: "a send takes one peer credit fewer than the frames written",
        slip: |scene| {
            let Call::Send { .. } = scene.asked.call else { return None };
            scene.answered(0)?;
            let slot = scene.slot()?;
            scene.change(|now| now.view.slots[slot].peer_credits += 1)
        },
    },
    Fault {
        title: "a refused send takes a peer credit",
        slip: |scene| {
            let Call::Send { .. } = scene.asked.call else { return None };
            scene.answered(14)?;
            let slot = scene.slot_where(|record| record.peer_credits > 0)?;
            scene.change(|now| now.view.slots[slot].peer_credits -= 1)
        },
    },
    Fault {
        title: "a grant tells one credit more than it books",
        slip: |scene| {
            let Call::Take { .. } = scene.asked.call else { return None };
            scene.wrote(0x16)?[10] += 1;
            Some(())
        },
    },
    Fault {
        title: "a grant books one credit fewer than it tells",
        slip: |scene| {
            let Call::Take { .. } = scene.asked.call else { return None };
            scene.wrote(0x16)?;
            let slot = scene.slot()?;
            scene.change(|now| now.view.slots[slot].credits -= 1)
        },
    },
    Fault {
        title: "a grant leaves the frames received as they were",
        slip: |scene| {
            let Call::Take { .. } = scene.asked.call else { return None };
            scene.wrote(0x16)?;
            let (slot, record) = scene.named()?;
            scene.change(|now| now.view.slots[slot].received = record.received)
        },
    },
    Fault {
        title: "credits are granted outside Connected",
        slip: |scene| {
            let Call::Take { .. } = scene.asked.call else { return None };
            let (slot, record) = scene.named()?;
            matches!(record.state, State::Disconnecting { .. } | State::PeerDisconnecting(_)).then_some(())?;
            scene.again(|before| before.view.slots[slot].state = State::Connected, |now| now.view.slots[slot].state = record.state)
        },
    },
    Fault {
        title: "a frame without a credit is taken",
        slip: |scene| {
            let Call::Frame { .. } = scene.asked.call else { return None };
            scene.answered(10)?;
            let (slot, record) = scene.named()?;
            scene.again(
                |before| (before.view.slots[slot].credits, before.view.slots[slot].received) = (1, record.received.saturating_sub(1)),
                |_| {},
            )
        },
    },
    Fault {
        title: "a policy of MinThreshold is kept as Every",
        slip: |scene| {
            scene.answered(0)?;
            let (Call::Accept { config, .. } | Call::Create { config, .. }) = scene.asked.call else { return None };
            let Some(Policy::MinThreshold(number)) = config.policy else { return None };
            let minded = |record: &language::SlotView| record.policy == Policy::MinThreshold(number);
            let slot = scene.memory.view().slots.iter().position(minded)?;
            scene.change(|now| now.view.slots[slot].policy = Policy::Every(number))
        },
    },
    Fault {
        title: "a peer's MTU and MPS change places",
        slip: |scene| {
            scene.signal(0x14, 10)?;
            let now = scene.memory.view();
            let taken = |slot: &usize| scene.before.view.slots[*slot].free() && !now.slots[*slot].free();
            let slot = (0..now.slots.len()).find(taken)?;
            let record = &now.slots[slot];
            scene.change(|sight| {
                (sight.view.slots[slot].peer_mtu, sight.view.slots[slot].peer_mps) = (record.peer_mps, record.peer_mtu);
            })
        },
    },
    Fault {
        title: "a grant names another slot's CID",
        slip: |scene| {
            let Call::Take { .. } = scene.asked.call else { return None };
            scene.wrote(0x16)?[8] ^= 1;
            Some(())
        },
    },
    Fault {
        title: "an accept names another slot's CID",
        slip: |scene| {
            let Call::Accept { .. } = scene.asked.call else { return None };
            scene.wrote(0x15)?[8] ^= 1;
            Some(())
        },
    },
    Fault {
        title: "a connect request names another slot's CID",
        slip: |scene| {
            let Call::Create { .. } = scene.asked.call else { return None };
            scene.wrote(0x14)?[10] ^= 1;
            Some(())
        },
    },
    Fault {
        title: "a disconnect request names our CID first",
        slip: |scene| {
            let Call::NextDisconnect = scene.asked.call else { return None };
            scene.wrote(0x06)?[8..].rotate_left(2);
            Some(())
        },
    },
    Fault {
        title: "a job's first frame carries our CID in place of the peer's",
        slip: |scene| {
            let Call::Send { .. } = scene.asked.call else { return None };
            scene.answered(0)?;
            let cid = language::BASE_ID + scene.slot()? as u16;
            scene.memory.out.lend()[2..4].copy_from_slice(&cid.to_le_bytes());
            Some(())
        },
    },
];
