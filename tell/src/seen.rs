//! Table and room as the rows show them.

use crate::words::phone;
use language::{SlotView, View};

pub struct Seen {
    pub view: View,
    /// Each slot's D+1 places, one after the other.
    pub rooms: Vec<Vec<u8>>,
}

/// A job that a slot's part of the room holds: the place where it stands, and how many octets of it are there.
pub struct Held {
    pub place: usize,
    pub octets: u16,
}

impl Seen {
    /// Before the first table.
    pub fn none() -> Self {
        Self { view: View::none(), rooms: Vec::new() }
    }

    pub fn slot(&self, slot: u16) -> Option<&SlotView> {
        self.view.slots.get(usize::from(slot))
    }

    pub fn is_made(&self) -> bool {
        !self.view.slots.is_empty()
    }

    /// The octets of a place.
    pub fn place(&self) -> usize {
        usize::from(self.view.m).saturating_sub(6)
    }

    /// The link of the phone that has a slot.
    pub fn link_at(&self, slot: u16) -> Option<u16> {
        self.slot(slot).filter(|record| !record.free()).map(|record| record.link)
    }

    /// The phone that has a slot: `the phone on link 1 (slot 0)`, or the slot alone where nobody has it.
    pub fn phone_at(&self, slot: u16) -> String {
        self.link_at(slot).map_or(format!("slot {slot}"), |link| format!("{} (slot {slot})", phone(link)))
    }

    /// `CID 64 (slot 0)`, or `CID 63 (no slot's)`.
    pub fn cid(&self, cid: u16) -> String {
        match self.view.slot_of(cid) {
            Some(slot) => format!("CID {cid} (slot {slot})"),
            None => format!("CID {cid} (no slot's)"),
        }
    }

    /// The octets of a job that a slot holds.
    pub fn octets(&self, slot: usize, held: &Held) -> &[u8] {
        let start = held.place.saturating_mul(self.place());
        let end = start.saturating_add(usize::from(held.octets));
        self.rooms.get(slot).and_then(|room| room.get(start..end)).unwrap_or_default()
    }

    /// The octets of a slot's part of the room that are of no job and yet not zero. The room rule says that there are none.
    pub fn left_behind(&self, slot: usize) -> usize {
        let (Some(record), Some(room)) = (self.view.slots.get(slot), self.rooms.get(slot)) else {
            return 0;
        };
        let set = |octets: &[u8]| octets.iter().filter(|octet| **octet != 0).count();
        let of_jobs: usize = held(record).iter().map(|held| set(self.octets(slot, held))).sum();
        set(room).saturating_sub(of_jobs)
    }
}

/// The jobs that a slot holds: what has come of one that is arriving, then those that wait.
pub fn held(record: &SlotView) -> Vec<Held> {
    let arriving = Held { place: 0, octets: record.have };
    let waiting = record.jobs.iter().enumerate().map(|(job, octets)| Held { place: job + 1, octets: *octets });
    std::iter::once(arriving).chain(waiting).collect()
}
