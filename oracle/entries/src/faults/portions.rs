//! Jobs handed over in portions.

use super::{Fault, Scene};
use language::{Call, JobView, State};

pub const FAULTS: &[Fault] = &[
    Fault {
        title: "a start sets one credit less aside than it takes",
        slip: |scene| begun(scene, |job| job.aside > 1, |job, _| job.aside -= 1),
    },
    Fault {
        title: "a start takes no credits from those that we have",
        slip: |scene| begun(scene, |_| true, |job, credits| *credits += job.aside),
    },
    Fault { title: "a start counts none of the length octets as filled", slip: |scene| begun(scene, |_| true, |job, _| job.filled = 0) },
    Fault {
        title: "a start's header has the job's length and not the frame's",
        slip: |scene| {
            let (slot, job) = open_now(scene, is_start)?;
            let payload = u16::from_le_bytes(scene.memory.buffers[slot].octets()[..2].try_into().ok()?);
            (payload != job.length + 2).then_some(())?;
            write(scene, slot, 0, &(job.length + 2).to_le_bytes())
        },
    },
    Fault {
        title: "a start zeroes the rest of its buffer",
        slip: |scene| {
            let (slot, _) = open_now(scene, is_start)?;
            write(scene, slot, 6, &[0, 0])
        },
    },
    Fault {
        title: "a refused start leaves its header in the buffer",
        slip: |scene| {
            let slot = scene.slot_where(|record| record.state == State::Connected)?;
            let Call::Start { .. } = scene.asked.call else { return None };
            (scene.memory.number != 0).then_some(())?;
            write(scene, slot, 0, &[7, 0, 0x50, 0, 5, 0])
        },
    },
    Fault {
        title: "a frame that is given out uses no credit set aside",
        slip: |scene| {
            given_out(scene)?;
            let (slot, _) = open_now(scene, is_portion)?;
            change_job(scene, slot, |job| job.aside += 1)
        },
    },
    Fault {
        title: "a frame that is given out still counts as being filled",
        slip: |scene| {
            given_out(scene)?;
            let (slot, _) = open_now(scene, is_portion)?;
            change_job(scene, slot, |job| job.filled = 1)
        },
    },
    Fault {
        title: "the last frame leaves its job open",
        slip: |scene| {
            given_out(scene)?;
            let (slot, record) = scene.named()?;
            let job = record.job.filter(|job| job.aside == 1)?;
            let Call::Portion { .. } = scene.asked.call else { return None };
            scene.change(|now| now.view.slots[slot].job = Some(JobView { taken: job.length, filled: 0, ..job }))
        },
    },
    Fault {
        title: "a portion takes an octet that it says nothing of",
        slip: |scene| {
            let (slot, job) = open_now(scene, is_portion)?;
            (job.taken < job.length).then_some(())?;
            change_job(scene, slot, |job| job.taken += 1)
        },
    },
    Fault {
        title: "a portion says that it took all, though a frame was full before",
        slip: |scene| {
            given_out(scene)?;
            let Call::Portion { octets, .. } = scene.asked.call else { return None };
            let count = (octets.len() as u16).to_le_bytes();
            scene.memory.answer.lend()[8..10].copy_from_slice(&count);
            Some(())
        },
    },
    Fault {
        title: "a portion that fills a frame doesn't say so",
        slip: |scene| {
            given_out(scene)?;
            scene.memory.answer.lend()[10] = 0;
            Some(())
        },
    },
    Fault {
        title: "the last octet of a frame that a portion gives out is another",
        slip: |scene| {
            let written = given_out(scene)?;
            let slot = scene.slot()?;
            scene.memory.buffers[slot].lend()[written - 1] ^= 1;
            Some(())
        },
    },
    Fault {
        title: "the header of a job's last frame has the MPS",
        slip: |scene| {
            let written = given_out(scene)?;
            let (slot, record) = scene.named()?;
            (written < 4 + usize::from(record.peer_mps) && record.job?.aside == 1).then_some(())?;
            write(scene, slot, 0, &record.peer_mps.to_le_bytes())
        },
    },
    Fault {
        title: "a portion's octets that were not taken stand behind the frame",
        slip: |scene| {
            let written = given_out(scene)?;
            let slot = scene.slot()?;
            let Call::Portion { octets, .. } = scene.asked.call else { return None };
            let octet = octets.last().filter(|_| octets.len() > written)?;
            write(scene, slot, written, &[*octet | 1])
        },
    },
    Fault {
        title: "a frame's octets go to the buffer's start, over those before them",
        slip: |scene| {
            let (slot, record) = scene.named()?;
            let (before, now) = (record.job.filter(|job| job.filled > 0)?, scene.memory.view().slots[slot].job?);
            let count = usize::from(now.taken.checked_sub(before.taken).filter(|count| *count > 0)?);
            let from = 4 + usize::from(before.filled);
            let octets = scene.memory.buffers[slot].octets().get(from..from + count)?.to_vec();
            write(scene, slot, 4, &octets)
        },
    },
    Fault {
        title: "a portion is filled in the next slot's buffer",
        slip: |scene| {
            let (slot, record) = scene.named()?;
            let next = scene.next_to(slot)?;
            let Call::Portion { octets, .. } = scene.asked.call else { return None };
            let from = 4 + usize::from(record.job?.filled);
            scene.answered(0)?;
            write(scene, next, from, &octets[..octets.len().min(1)])
        },
    },
    Fault {
        title: "a cancel before the first frame returns one credit less",
        slip: |scene| {
            let slot = cancelled(scene)?;
            scene.change(|now| now.view.slots[slot].peer_credits -= 1)
        },
    },
    Fault {
        title: "a cancel before the first frame returns none",
        slip: |scene| {
            let slot = cancelled(scene)?;
            let credits = scene.before.view.slots[slot].peer_credits;
            scene.change(|now| now.view.slots[slot].peer_credits = credits)
        },
    },
    Fault {
        title: "a cancel zeroes the buffer",
        slip: |scene| {
            let slot = cancelled(scene)?;
            write(scene, slot, 0, &[0; 6])
        },
    },
    Fault {
        title: "a cancel before the first frame leaves the channel disconnecting",
        slip: |scene| {
            let slot = cancelled(scene)?;
            scene.change(|now| now.view.slots[slot].state = State::Disconnecting { announced: false })
        },
    },
    Fault {
        title: "a later cancel leaves the channel open",
        slip: |scene| {
            let (slot, record) = scene.named().filter(|(_, record)| record.job.is_some())?;
            let Call::Cancel { .. } = scene.asked.call else { return None };
            (scene.memory.view().slots[slot].state != State::Connected).then_some(())?;
            scene.change(|now| now.view.slots[slot].state = record.state)
        },
    },
    Fault {
        title: "a channel that ends returns the credits that its job set aside",
        slip: |scene| {
            let (slot, job) = left(scene)?;
            (!scene.memory.view().slots[slot].free()).then_some(())?;
            scene.change(|now| now.view.slots[slot].peer_credits += job.aside)
        },
    },
    Fault {
        title: "a channel that ends keeps its open job",
        slip: |scene| {
            let (slot, job) = left(scene)?;
            (!scene.memory.view().slots[slot].free()).then_some(())?;
            scene.change(|now| now.view.slots[slot].job = Some(job))
        },
    },
    Fault {
        title: "a freed slot keeps its open job",
        slip: |scene| {
            let (slot, job) = left(scene)?;
            scene.memory.view().slots[slot].free().then_some(())?;
            scene.change(|now| now.view.slots[slot].job = Some(job))
        },
    },
    Fault {
        title: "a credit signal doesn't count the credits that are set aside",
        slip: |scene| {
            scene.signal(0x16, 4)?;
            scene.answered(9)?;
            let (slot, job) = left(scene)?;
            scene.again(|before| before.view.slots[slot].job = None, |now| now.view.slots[slot].job = Some(job))
        },
    },
    Fault {
        title: "a credit signal adds to the credits that are set aside",
        slip: |scene| {
            let given = scene.signal(0x16, 4).map(|body| u16::from_le_bytes([body[2], body[3]])).filter(|given| *given > 0)?;
            scene.answered(0)?;
            let (before, now) = (scene.before.view.clone(), scene.memory.view());
            let slot = (0..now.slots.len()).find(|slot| now.slots[*slot].job.is_some() && now.slots[*slot] != before.slots[*slot])?;
            scene.change(|now| {
                now.view.slots[slot].peer_credits -= given;
                now.view.slots[slot].job.iter_mut().for_each(|job| job.aside += given);
            })
        },
    },
    Fault {
        title: "a job is sent while another one is open",
        slip: |scene| {
            scene.answered(24)?;
            let (slot, record) = scene.named()?;
            let Call::Send { .. } = scene.asked.call else { return None };
            scene.again(|before| before.view.slots[slot].job = None, |now| now.view.slots[slot].job = record.job)
        },
    },
    Fault {
        title: "a slot with an open job calls",
        slip: |scene| {
            let slot = scene.before.view.slots.iter().position(|record| record.job.is_some() && !record.calls())?;
            let Call::Attention = scene.asked.call else { return None };
            let answer = scene.memory.answer.lend();
            let set = u16::from_le_bytes([answer[6], answer[7]]) | 1 << slot;
            answer[6..8].copy_from_slice(&set.to_le_bytes());
            answer[8] += 1;
            Some(())
        },
    },
    Fault {
        title: "a frame that comes in closes the open job",
        slip: |scene| {
            let slot = scene.slot_where(|record| record.job.is_some())?;
            let Call::Frame { .. } = scene.asked.call else { return None };
            scene.change(|now| now.view.slots[slot].job = None)
        },
    },
];

fn is_start(call: &Call) -> bool {
    matches!(call, Call::Start { .. })
}

fn is_portion(call: &Call) -> bool {
    matches!(call, Call::Portion { .. })
}

/// The slot of a call that was answered 0, and the job that is open in it now.
fn open_now(scene: &Scene<'_>, of: fn(&Call) -> bool) -> Option<(usize, JobView)> {
    of(scene.asked.call).then_some(())?;
    scene.answered(0)?;
    let slot = scene.slot()?;
    Some((slot, scene.memory.view().slots[slot].job?))
}

/// A start that was answered 0 has set other numbers aside.
fn begun(scene: &mut Scene<'_>, test: fn(&JobView) -> bool, slip: fn(&mut JobView, &mut u16)) -> Option<()> {
    let (slot, mut job) = open_now(scene, is_start).filter(|(_, job)| test(job))?;
    scene.change(|now| {
        slip(&mut job, &mut now.view.slots[slot].peer_credits);
        now.view.slots[slot].job = Some(job);
    })
}

/// The octets of the frame that a portion gave out.
fn given_out(scene: &Scene<'_>) -> Option<usize> {
    let Call::Portion { .. } = scene.asked.call else { return None };
    let answer = scene.memory.answer.octets();
    Some(u16::from_le_bytes([answer[2], answer[3]]).into()).filter(|written| *written > 0)
}

/// The slot whose job was cancelled with the channel left open.
fn cancelled(scene: &Scene<'_>) -> Option<usize> {
    let slot = scene.slot_where(|record| record.job.is_some())?;
    let Call::Cancel { .. } = scene.asked.call else { return None };
    Some(slot).filter(|slot| scene.memory.view().slots[*slot].state == State::Connected)
}

/// The lowest slot with an open job before the call that isn't Connected after it, and that job.
fn left(scene: &Scene<'_>) -> Option<(usize, JobView)> {
    let now = scene.memory.view();
    let jobs = scene.before.view.slots.iter().enumerate().filter_map(|(slot, record)| record.job.map(|job| (slot, job)));
    jobs.into_iter().find(|(slot, _)| now.slots[*slot].state != State::Connected)
}

fn change_job(scene: &mut Scene<'_>, slot: usize, slip: fn(&mut JobView)) -> Option<()> {
    scene.change(|now| now.view.slots[slot].job.iter_mut().for_each(slip))
}

fn write(scene: &mut Scene<'_>, slot: usize, at: usize, octets: &[u8]) -> Option<()> {
    scene.memory.buffers[slot].lend().get_mut(at..at + octets.len())?.copy_from_slice(octets);
    Some(())
}
