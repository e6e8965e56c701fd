//! Takes into a buffer that is shorter than the job, and those beside them that are not refused.

use super::{Fault, Scene};
use crate::lent::Lent;
use crate::memory::Asked;
use crate::row::JOB;
use language::{Call, SlotView, State};

const REFUSED: u8 = 1;
const SHORT: u8 = 12;

pub const FAULTS: &[Fault] = &[
    Fault { title: "a job is cut to a shorter buffer, as the original cuts it", slip: |scene| cut(scene, |_, _| true) },
    Fault { title: "a job is cut to a shorter buffer while disconnecting", slip: |scene| cut(scene, |record, _| closing(record)) },
    Fault { title: "a job is cut by one octet", slip: |scene| cut(scene, |record, size| record.jobs[0] == size + 1) },
    Fault { title: "a job is cut to a buffer of 0 octets", slip: |scene| cut(scene, |_, size| size == 0) },
    Fault {
        title: "a job is cut where credits are due",
        slip: |scene| cut(scene, |record, _| record.state == State::Connected && record.received > 0),
    },
    Fault {
        title: "a job is cut to a shorter buffer, and its whole length told",
        slip: |scene| {
            let length = scene.named()?.1.jobs.first()?.to_le_bytes();
            cut(scene, |_, _| true)?;
            scene.memory.answer.lend()[8..10].copy_from_slice(&length);
            Some(())
        },
    },
    Fault {
        title: "a buffer of exactly the job is too short",
        slip: |scene| refuse(scene, |record, size| record.jobs.first() == Some(&size)),
    },
    Fault {
        title: "a job of 0 octets isn't taken into 0 octets",
        slip: |scene| refuse(scene, |record, size| size == 0 && record.jobs.first() == Some(&0)),
    },
    Fault {
        title: "a buffer is too short that is shorter than our MTU",
        slip: |scene| refuse(scene, |record, size| size < record.mtu && !record.jobs.is_empty()),
    },
    Fault {
        title: "a buffer is held to the newest job",
        slip: |scene| refuse(scene, |record, size| record.jobs.last().is_some_and(|job| size < *job)),
    },
    Fault {
        title: "a buffer is held to all waiting jobs together",
        slip: |scene| refuse(scene, |record, size| !record.jobs.is_empty() && size < record.jobs.iter().sum()),
    },
    Fault {
        title: "where no job waits, a buffer of 0 octets is too short",
        slip: |scene| refuse(scene, |record, size| size == 0 && record.state == State::Connected && record.jobs.is_empty()),
    },
    Fault {
        title: "where no job waits while disconnecting, a buffer of 0 octets is too short",
        slip: |scene| refuse(scene, |record, size| size == 0 && closing(record) && record.jobs.is_empty()),
    },
    Fault {
        title: "a buffer of 0 octets is too short before it is asked whether the slot has a channel",
        slip: |scene| {
            scene.answered(11)?;
            refuse(scene, |_, size| size == 0)
        },
    },
    Fault {
        title: "a buffer shorter than the table's longest job is too short before it is asked whether the slot has a channel",
        slip: |scene| {
            scene.answered(11)?;
            let longest = scene.before.view.m - 6;
            let Call::Take { size, .. } = scene.asked.call else { return None };
            (*size < longest).then_some(())?;
            refuse(scene, |_, _| true)
        },
    },
    Fault { title: "a short take is told that no job waits", slip: |scene| told_otherwise(scene, |_| true, [0, 0]) },
    Fault { title: "a short take is refused by 3", slip: |scene| told_otherwise(scene, |_| true, [REFUSED, 3]) },
    Fault { title: "a short take while disconnecting is refused by 11", slip: |scene| told_otherwise(scene, closing, [REFUSED, 11]) },
    Fault {
        title: "a short take's refusal tells the job's length",
        slip: |scene| {
            let (_, record) = short(scene)?;
            scene.memory.answer.lend()[6..8].copy_from_slice(&record.jobs[0].to_le_bytes());
            Some(())
        },
    },
    Fault {
        title: "a short take drops its job",
        slip: |scene| {
            let (slot, _) = short(scene)?;
            scene.change(|now| {
                now.view.slots[slot].jobs.remove(0);
                let place = usize::from(now.view.m) - 6;
                let places = now.places_mut(slot);
                places.copy_within(2 * place.., place);
                let last = places.len() - place;
                places[last..].fill(0);
            })
        },
    },
    Fault {
        title: "a short take puts its job behind the later ones",
        slip: |scene| {
            let (slot, record) = short(scene).filter(|(_, record)| record.jobs.len() > 1)?;
            scene.change(|now| {
                now.view.slots[slot].jobs.rotate_left(1);
                let place = usize::from(now.view.m) - 6;
                now.places_mut(slot)[place..(record.jobs.len() + 1) * place].rotate_left(place);
            })
        },
    },
    Fault {
        title: "a short take shortens its job to the buffer",
        slip: |scene| {
            let Call::Take { size, .. } = scene.asked.call else { return None };
            let (slot, record) = short(scene)?;
            let place = usize::from(scene.before.view.m) - 6;
            scene.change(|now| {
                now.view.slots[slot].jobs[0] = *size;
                now.places_mut(slot)[place + usize::from(*size)..place + usize::from(record.jobs[0])].fill(0);
            })
        },
    },
    Fault {
        title: "a short take zeroes its job's place",
        slip: |scene| {
            let (slot, _) = short(scene)?;
            let place = usize::from(scene.before.view.m) - 6;
            scene.change(|now| now.places_mut(slot)[place..2 * place].fill(0))
        },
    },
    Fault {
        title: "a short take grants all the same",
        slip: |scene| {
            let (slot, _) = short(scene)?;
            let granted = granted(scene)?;
            scene.memory.signal.lend()[..granted.len()].copy_from_slice(&granted);
            scene.memory.answer.lend()[2] = granted.len() as u8;
            book(scene, slot)?;
            use_up(scene)
        },
    },
    Fault {
        title: "a short take books the credits of a grant",
        slip: |scene| {
            let (slot, _) = short(scene)?;
            granted(scene)?;
            book(scene, slot)
        },
    },
    Fault {
        title: "a short take forgets the frames that a grant is due for",
        slip: |scene| {
            let (slot, _) = short(scene).filter(|(_, record)| record.received > 0)?;
            scene.change(|now| now.view.slots[slot].received = 0)
        },
    },
    Fault {
        title: "a short take writes the signal of a grant",
        slip: |scene| {
            write_grant(scene)?;
            Some(())
        },
    },
    Fault {
        title: "a short take writes the signal of a grant, and says so",
        slip: |scene| {
            let written = write_grant(scene)?;
            scene.memory.answer.lend()[2] = written as u8;
            Some(())
        },
    },
    Fault {
        title: "a short take uses an identifier up",
        slip: |scene| {
            short(scene)?;
            use_up(scene)
        },
    },
    Fault {
        title: "a short take writes the octets that fit",
        slip: |scene| {
            let (slot, _) = short(scene)?;
            let place = usize::from(scene.before.view.m) - 6;
            let buffer = scene.memory.job.lend();
            buffer.copy_from_slice(&scene.before.places(slot)[place..][..buffer.len()]);
            Some(())
        },
    },
    Fault {
        title: "a short take zeroes the buffer",
        slip: |scene| {
            short(scene)?;
            scene.memory.job.lend().fill(0);
            Some(())
        },
    },
    Fault {
        title: "a short take disconnects its slot",
        slip: |scene| {
            let (slot, _) =
                short(scene).filter(|(_, record)| record.state == State::Connected && record.want == 0 && record.job.is_none())?;
            scene.change(|now| now.view.slots[slot].state = State::Disconnecting { announced: false })
        },
    },
    Fault {
        title: "a slot whose take was short doesn't call any more",
        slip: |scene| {
            keep(scene);
            let Call::Attention = scene.asked.call else { return None };
            let kept = &scene.kept.short;
            let calls = |slot: &usize| scene.before.view.slots[*slot].calls() && !kept[*slot];
            let slots = scene.before.view.slots.len();
            let calling: Vec<usize> = (0..slots).filter(calls).collect();
            let set: u16 = calling.iter().map(|slot| 1 << slot).sum();
            let lowest = calling.first().copied().unwrap_or(slots);
            let told = [set.to_le_bytes(), (calling.len() as u16).to_le_bytes(), (lowest as u16).to_le_bytes()].concat();
            scene.memory.answer.lend()[6..12].copy_from_slice(&told);
            Some(())
        },
    },
    Fault {
        title: "a job whose take was short isn't given to the next one either",
        slip: |scene| {
            let slot = scene.slot()?;
            let again = scene.kept.short[slot];
            keep(scene);
            (again && scene.memory.answer.octets()[0] == JOB).then_some(())?;
            scene.kept.short[slot] = true;
            refuse(scene, |_, _| true)
        },
    },
    Fault {
        title: "a taken job is told one octet longer",
        slip: |scene| {
            let length = taken(scene)? + 1;
            scene.memory.answer.lend()[8..10].copy_from_slice(&length.to_le_bytes());
            Some(())
        },
    },
    Fault {
        title: "a taken job is told as long as its buffer",
        slip: |scene| {
            taken(scene)?;
            let Call::Take { size, .. } = scene.asked.call else { return None };
            scene.memory.answer.lend()[8..10].copy_from_slice(&size.to_le_bytes());
            Some(())
        },
    },
    Fault {
        title: "a taken job's answer has its length twice",
        slip: |scene| {
            let length = taken(scene).filter(|length| *length > 0)?;
            scene.memory.answer.lend()[10..12].copy_from_slice(&length.to_le_bytes());
            Some(())
        },
    },
];

fn closing(record: &SlotView) -> bool {
    matches!(record.state, State::Disconnecting { .. } | State::PeerDisconnecting(_))
}

/// The slot of a take that was refused for its buffer, and its record before the call.
fn short(scene: &Scene<'_>) -> Option<(usize, SlotView)> {
    let Call::Take { .. } = scene.asked.call else { return None };
    scene.answered(SHORT.into())?;
    scene.named()
}

/// The length of a job that was taken.
fn taken(scene: &Scene<'_>) -> Option<u16> {
    let Call::Take { .. } = scene.asked.call else { return None };
    let answer = scene.memory.answer.octets();
    (answer[0] == JOB).then(|| u16::from_le_bytes([answer[8], answer[9]]))
}

/// Cuts a job to the buffer that was too short for it, where record and buffer pass a test.
fn cut(scene: &mut Scene<'_>, test: fn(&SlotView, u16) -> bool) -> Option<()> {
    let Call::Take { size, .. } = scene.asked.call else { return None };
    let (slot, record) = short(scene).filter(|(_, record)| test(record, *size))?;
    let ample = Call::Take { slot: slot as u16, size: record.jobs[0] };
    scene.undo()?;
    scene.memory.enter(Asked { call: &ample, ..scene.asked });
    let mut buffer = Lent::new(usize::from(*size));
    buffer.lend().copy_from_slice(&scene.memory.job.octets()[..usize::from(*size)]);
    scene.memory.job = buffer;
    scene.memory.answer.lend()[8..10].copy_from_slice(&size.to_le_bytes());
    Some(())
}

/// Refuses a take as a short one, where record and buffer pass a test: nothing is changed and nothing written.
fn refuse(scene: &mut Scene<'_>, test: fn(&SlotView, u16) -> bool) -> Option<()> {
    let Call::Take { size, .. } = scene.asked.call else { return None };
    scene.named().filter(|(_, record)| test(record, *size))?;
    scene.undo()?;
    let memory = &mut *scene.memory;
    memory.job = Lent::new(usize::from(*size));
    memory.signal = Lent::new(memory.signal.octets().len());
    tell(scene, [REFUSED, SHORT])
}

/// Answers a short take by another kind and number, where its record passes a test.
fn told_otherwise(scene: &mut Scene<'_>, test: fn(&SlotView) -> bool, answer: [u8; 2]) -> Option<()> {
    short(scene).filter(|(_, record)| test(record))?;
    tell(scene, answer)
}

/// An answer of this kind and number, which tells nothing more.
fn tell(scene: &mut Scene<'_>, [kind, number]: [u8; 2]) -> Option<()> {
    scene.memory.number = number.into();
    let answer = scene.memory.answer.lend();
    answer.fill(0);
    answer[..2].copy_from_slice(&[kind, number]);
    Some(())
}

/// The signal of the grant that the take of a short buffer would have had, where it would.
fn granted(scene: &mut Scene<'_>) -> Option<Vec<u8>> {
    let now = scene.memory.sight();
    cut(scene, |_, _| true)?;
    let written = usize::from(scene.memory.answer.octets()[2]);
    let signal = scene.memory.signal.octets()[..written].to_vec();
    scene.memory.put(&now);
    scene.memory.enter(scene.asked);
    (written > 0).then_some(signal)
}

/// A take of a short buffer writes that signal all the same: how many octets it has.
fn write_grant(scene: &mut Scene<'_>) -> Option<usize> {
    short(scene)?;
    let granted = granted(scene)?;
    scene.memory.signal.lend()[..granted.len()].copy_from_slice(&granted);
    Some(granted.len())
}

/// The frames received are granted anew.
fn book(scene: &mut Scene<'_>, slot: usize) -> Option<()> {
    scene.change(|now| {
        let record = &mut now.view.slots[slot];
        (record.credits, record.received) = (record.credits.saturating_add(record.received), 0);
    })
}

fn use_up(scene: &mut Scene<'_>) -> Option<()> {
    scene.change(|now| now.view.next_identifier = now.view.next_identifier.checked_add(1).unwrap_or(1))
}

/// Remembers which slots had a take that was short and none since that was answered.
fn keep(scene: &mut Scene<'_>) {
    let now = scene.memory.view();
    if let Some((slot, _)) = short(scene) {
        scene.kept.short[slot] = true;
    } else if let (Some(_), Some(slot)) = (taken(scene), scene.slot()) {
        scene.kept.short[slot] = false;
    }
    now.slots.iter().enumerate().filter(|(_, record)| record.jobs.is_empty()).for_each(|(slot, _)| scene.kept.short[slot] = false);
}
