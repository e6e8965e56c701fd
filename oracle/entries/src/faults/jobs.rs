//! Jobs and their octets.

use super::{Fault, Scene};
use language::{Call, State};

pub const FAULTS: &[Fault] = &[
    Fault { title: "a slot that opens again keeps its last owner's open assembly", slip: lost_line },
    Fault {
        title: "a freed slot's jobs stay in the room: only the assembly's place is zeroed",
        slip: |scene| {
            let (before, now) = (scene.before.clone(), scene.memory.view());
            let freed = |slot: &usize| !before.view.slots[*slot].jobs.is_empty() && now.slots[*slot].free();
            let slot = (0..now.slots.len()).find(freed)?;
            let place = usize::from(now.m) - 6;
            scene.change(|now| now.places_mut(slot)[place..].copy_from_slice(&before.places(slot)[place..]))
        },
    },
    Fault {
        title: "an assembly's octets stay in the room when its slot leaves Connected",
        slip: |scene| {
            let (before, now) = (scene.before.clone(), scene.memory.view());
            let left = |slot: &usize| before.view.slots[*slot].have > 0 && now.slots[*slot].state != State::Connected;
            let slot = (0..now.slots.len()).find(left)?;
            let have = usize::from(before.view.slots[slot].have);
            scene.change(|now| now.places_mut(slot)[..have].copy_from_slice(&before.places(slot)[..have]))
        },
    },
    Fault {
        title: "a job that finds the queue full leaves an octet in the assembly's place",
        slip: |scene| {
            scene.answered(21)?;
            let slot = scene.slot()?;
            let Call::Frame { payload, .. } = scene.asked.call else { return None };
            let last = payload.last().filter(|_| payload.len() > 2).copied()?;
            scene.change(|now| now.places_mut(slot)[0] = last.max(1))
        },
    },
    Fault {
        title: "a joining frame's first two octets are read as a length",
        slip: |scene| {
            let (slot, record) = scene.named()?;
            let Call::Frame { payload, .. } = scene.asked.call else { return None };
            let (have, more) = (usize::from(record.have), payload.len());
            let joined = record.want > 0 && more > 2 && usize::from(scene.memory.view().slots[slot].have) == have + more;
            joined.then_some(())?;
            scene.change(|now| {
                now.view.slots[slot].have -= 2;
                let place = now.places_mut(slot);
                place.copy_within(have + 2..have + more, have);
                place[have + more - 2..have + more].fill(0);
            })
        },
    },
    Fault {
        title: "two waiting jobs change places",
        slip: |scene| {
            let (slot, record) = scene.named()?;
            let count = record.jobs.len();
            let more = scene.memory.view().slots[slot].jobs.len() > count && count > 0;
            let place = usize::from(scene.before.view.m) - 6;
            more.then_some(())?;
            scene.change(|now| {
                now.view.slots[slot].jobs.swap(count - 1, count);
                let (older, newer) = now.places_mut(slot)[count * place..].split_at_mut(place);
                older.swap_with_slice(&mut newer[..place]);
            })
        },
    },
    Fault {
        title: "a take leaves the octets of the jobs that it moves up",
        slip: |scene| {
            let slot = scene.slot_where(|record| record.jobs.len() > 1)?;
            let Call::Take { .. } = scene.asked.call else { return None };
            let before = scene.before.clone();
            let place = usize::from(before.view.m) - 6;
            scene.change(|now| now.places_mut(slot)[2 * place..].copy_from_slice(&before.places(slot)[2 * place..]))
        },
    },
    Fault {
        title: "the last octet of a taken job is another",
        slip: |scene| {
            let Call::Take { .. } = scene.asked.call else { return None };
            let answer = scene.memory.answer.octets();
            let copied = usize::from(u16::from_le_bytes([answer[8], answer[9]]));
            let last = copied.checked_sub(1).filter(|_| answer[0] == crate::row::JOB)?;
            scene.memory.job.lend()[last] ^= 1;
            Some(())
        },
    },
    Fault {
        title: "a job is taken newest first",
        slip: |scene| {
            let slot = scene.slot_where(|record| record.jobs.len() == 2)?;
            let Call::Take { .. } = scene.asked.call else { return None };
            let place = usize::from(scene.before.view.m) - 6;
            scene.again(
                |before| {
                    before.view.slots[slot].jobs.swap(0, 1);
                    let (older, newer) = before.places_mut(slot)[place..].split_at_mut(place);
                    older.swap_with_slice(&mut newer[..place]);
                },
                |_| {},
            )
        },
    },
];

/// The client's: the line that clears the assembly when its slot opens again is lost.
fn lost_line(scene: &mut Scene<'_>) -> Option<()> {
    let before = scene.before.clone();
    let now = scene.memory.view();
    for (slot, record) in now.slots.iter().enumerate() {
        let old = before.view.slots[slot].clone();
        if old.want > 0 && record.state != State::Connected {
            scene.kept.assemblies[slot] = Some((old.have, old.want, before.places(slot)[..usize::from(old.have)].to_vec()));
        }
        if old.state != State::Connected && record.state == State::Connected {
            if let Some((have, want, octets)) = scene.kept.assemblies[slot].take() {
                scene.change(|now| {
                    (now.view.slots[slot].have, now.view.slots[slot].want) = (have, want);
                    now.places_mut(slot)[..octets.len()].copy_from_slice(&octets);
                })?;
            }
        }
    }
    Some(())
}
