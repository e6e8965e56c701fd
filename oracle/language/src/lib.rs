//! The script language of `chanrun` (docs/CHANRUN.md): lines and calls as they are written, rows as they are printed, the view of a
//! table, and the edge between a driver and whoever feeds it calls. Nothing here knows the original or the port.

mod call;
mod row;
mod script;
mod view;
mod wrong;

pub use call::{signals, Call, Config, Policy};
pub use row::{hex, unhex, Answer, Reply, Row};
pub use script::{is_played, lines, played};
pub use view::{JobView, Sight, SlotView, Stale, State, Tallies, View};
pub use wrong::Wrong;

/// The limits of document 01, and the room that `chanrun` lends at most.
pub const SLOTS: u16 = 16;
pub const QUEUE: u16 = 4;
pub const PACKET: std::ops::RangeInclusive<u16> = 29..=1024;
pub const HIGHEST_LINK: u16 = 0x0EFF;
pub const ROOM: usize = 65_536;
/// The buffer that `chanrun` lends for each slot's open job.
pub const BUFFER: usize = 4_096;
/// The local CID of slot 0.
pub const BASE_ID: u16 = 0x40;
/// The least MTU, and the least MPS, of a peer (document 02).
pub const SIZE_LEAST: u16 = 23;

/// True where `chanrun` makes a table of these sizes.
pub fn can_be_made(n: u16, d: u16, m: u16) -> bool {
    (1..=SLOTS).contains(&n)
        && (1..=QUEUE).contains(&d)
        && PACKET.contains(&m)
        && usize::from(n) * (usize::from(d) + 1) * (usize::from(m) - 6) <= ROOM
}

/// How the original is driven, where there is a choice.
#[derive(Clone, Copy, Debug, Default, PartialEq, Eq)]
pub struct Manner {
    /// A disconnect of our own is confirmed as soon as its request is sent, as the original's own host does. Otherwise the slot waits for
    /// the peer's response, as Core and document 01 have it.
    pub confirm_at_once: bool,
    /// A planted fault: a slot that opens again keeps the open assembly of its last owner, as if the original's line that clears it were
    /// lost.
    pub lost_line: bool,
    /// The number at which every tally of a channel stands when it opens, 0 but in tests: so they wrap.
    pub counted: u64,
}

/// What whoever feeds a driver may look at before each call.
pub trait Eyes {
    fn view(&self) -> View;
    /// The view, and every slot's places.
    fn sight(&self) -> Sight;
    /// The job that a take of this slot would give.
    fn oldest_job(&self, slot: usize) -> Option<Vec<u8>>;
}

/// The source of calls for one table, and where their replies go.
pub trait Feed {
    /// The next call on this table; none ends the table's life.
    fn next(&mut self, eyes: &dyn Eyes) -> Option<Call>;
    fn answered(&mut self, reply: Reply);
}
