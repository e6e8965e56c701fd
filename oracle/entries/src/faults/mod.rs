//! Faults planted at the entries: a port whose every call is the archive's, but for one slip on the octets that it left. The comparison has to
//! find each of them, or it could not have found such a slip in the port either.

mod answers;
mod credits;
mod jobs;
mod least;
mod others;
mod portions;
mod states;
mod takes;
mod tallies;

use crate::memory::{Asked, Memory};
use language::{Call, Sight, SlotView, Tallies};

pub struct Fault {
    pub title: &'static str,
    /// Acts after a call; where it finds nothing to act on, it gives none.
    slip: fn(&mut Scene<'_>) -> Option<()>,
}

/// The list; the client's lost line is the first.
pub fn all() -> impl Iterator<Item = &'static Fault> {
    let base = [jobs::FAULTS, others::FAULTS, credits::FAULTS, states::FAULTS, answers::FAULTS];
    let of_02 = [portions::FAULTS, least::FAULTS, takes::FAULTS, tallies::FAULTS];
    base.into_iter().chain(of_02).flatten()
}

/// Those that show where tallies are near 2^64.
pub fn wrapping() -> impl Iterator<Item = &'static Fault> {
    tallies::WRAPPING.iter()
}

/// What a fault keeps from call to call, by slot: the numbers and octets of an assembly that was open when its channel ended; that its last take was short; its last owner's tallies.
#[derive(Default)]
pub struct Kept {
    assemblies: [Option<(u16, u16, Vec<u8>)>; 16],
    short: [bool; 16],
    tallies: [Tallies; 16],
}

/// A call that was made, and what stood before it.
pub struct Scene<'a> {
    pub asked: Asked<'a>,
    pub before: Sight,
    pub memory: &'a mut Memory,
    pub kept: &'a mut Kept,
}

impl Fault {
    pub fn act(&self, mut scene: Scene<'_>) {
        (self.slip)(&mut scene);
    }
}

impl Scene<'_> {
    /// The slot that the call names, by its number or by a CID.
    fn slot(&self) -> Option<usize> {
        let view = &self.before.view;
        match self.asked.call {
            Call::Frame { cid, .. } | Call::DisconnectByCid { cid } => view.slot_of(*cid),
            call => call.slot().map(usize::from).filter(|slot| *slot < view.slots.len()),
        }
    }

    /// That slot, and its record before the call.
    fn named(&self) -> Option<(usize, SlotView)> {
        self.slot().map(|slot| (slot, self.before.view.slots[slot].clone()))
    }

    /// That slot, where its record before the call passes a test.
    fn slot_where(&self, test: impl Fn(&SlotView) -> bool) -> Option<usize> {
        self.named().filter(|(_, record)| test(record)).map(|(slot, _)| slot)
    }

    /// The lowest slot of another link that passes a test, and the link that the call names.
    fn elsewhere(&self, test: impl Fn(&SlotView) -> bool) -> Option<(usize, u16)> {
        let link = self.asked.call.link()?;
        let foreign = |record: &SlotView| !record.free() && record.link != link && test(record);
        self.before.view.slots.iter().position(foreign).map(|slot| (slot, link))
    }

    /// The slot behind another one, where the table has it.
    fn next_to(&self, slot: usize) -> Option<usize> {
        Some(slot + 1).filter(|next| *next < self.before.view.slots.len())
    }

    /// The code of the signal that came, where its body has so many octets.
    fn signal(&self, code: u8, body: usize) -> Option<&[u8]> {
        match self.asked.pdu {
            [first, _, low, high, octets @ ..] if *first == code && [*low, *high] == [body as u8, 0] => octets.get(..body),
            _ => None,
        }
    }

    fn answered(&self, number: u32) -> Option<()> {
        (self.memory.number == number).then_some(())
    }

    /// The signal that the call wrote, with its L2CAP header, where it has this code.
    fn wrote(&mut self, code: u8) -> Option<&mut [u8]> {
        let written = usize::from(self.memory.answer.octets()[2]);
        let signal = self.memory.signal.lend();
        (written > 4 && written <= signal.len() && signal[4] == code).then(move || &mut signal[..written])
    }

    /// Changes what stands now.
    fn change(&mut self, change: impl FnOnce(&mut Sight)) -> Option<()> {
        let mut now = self.memory.sight();
        change(&mut now);
        self.memory.put(&now);
        Some(())
    }

    /// Makes the call again on a table that was changed first, and changes what it leaves.
    fn again(&mut self, first: impl FnOnce(&mut Sight), then: impl FnOnce(&mut Sight)) -> Option<()> {
        let mut before = self.before.clone();
        first(&mut before);
        self.memory.put(&before);
        self.memory.enter(self.asked);
        self.change(then)
    }

    /// Has table and room stand as before the call.
    fn undo(&mut self) -> Option<()> {
        self.memory.put(&self.before);
        Some(())
    }
}

/// Frees a slot as document 01 does.
fn free(sight: &mut Sight, slot: usize) {
    sight.view.slots[slot] = SlotView { hold: sight.view.slots[slot].hold, ..SlotView::fresh() };
    sight.places_mut(slot).fill(0);
}
