//! The table's octets (crates/edge_layout/specs/Layout.antt): 16 of sizes and the identifier, 32 of SPSMs, then a column of 16 for each octet of a
//! slot's row. A table has one spelling, so that two tables are equal where their octets are.

use language::{JobView, Policy, SlotView, Stale, State, Tallies, View};

pub const TABLE_OCTETS: usize = 1_312;

const HEAD: usize = 48;
const SLOTS: usize = 16;
const COLUMNS: usize = 79;
const NUMBER: u8 = 3;

/// What a closed job's columns say.
const NO_JOB: JobView = JobView { length: 0, taken: 0, filled: 0, aside: 0 };

/// The octets of a table.
pub fn spell(view: &View) -> [u8; TABLE_OCTETS] {
    let mut octets = [0; TABLE_OCTETS];
    let [low, high] = view.m.to_le_bytes();
    octets[..6].copy_from_slice(&[NUMBER, view.slots.len() as u8, view.d as u8, low, high, view.next_identifier]);
    octets[16..HEAD].copy_from_slice(&view.spsms);
    let fresh = SlotView::fresh();
    for slot in 0..SLOTS {
        let row = row(view.slots.get(slot).unwrap_or(&fresh));
        (0..COLUMNS).for_each(|column| octets[HEAD + SLOTS * column + slot] = row[column]);
    }
    octets
}

fn row(slot: &SlotView) -> [u8; COLUMNS] {
    let (state, value) = match slot.state {
        State::Disconnected => (0, 0),
        State::Connecting(identifier) => (1, identifier),
        State::PeerConnecting(identifier) => (2, identifier),
        State::Connected => (3, 0),
        State::ConnectFailed(code) => (4, code as u8),
        State::PeerDisconnecting(identifier) => (5, identifier),
        State::Disconnecting { announced } => (6, announced.into()),
    };
    let (policy, number) = match slot.policy {
        Policy::Every(count) => (0, count),
        Policy::MinThreshold(threshold) => (1, threshold),
    };
    let job = |at: usize| slot.jobs.get(at).copied().unwrap_or(0);
    let open = slot.job.unwrap_or(NO_JOB);
    let mut row = [0; COLUMNS];
    [row[0], row[1], row[10], row[17], row[30]] = [state, value, policy, slot.hold as u8, slot.jobs.len() as u8];
    let numbers = [
        (2, slot.link),
        (4, slot.spsm),
        (6, slot.mps),
        (8, slot.mtu),
        (11, number),
        (13, slot.credits),
        (15, slot.received),
        (18, slot.peer_cid),
        (20, slot.peer_mps),
        (22, slot.peer_mtu),
        (24, slot.peer_credits),
        (26, slot.have),
        (28, slot.want),
        (31, job(0)),
        (33, job(1)),
        (35, job(2)),
        (37, job(3)),
        (39, open.length),
        (41, open.taken),
        (43, open.filled),
        (45, open.aside),
    ];
    numbers.iter().for_each(|(column, number)| row[*column..*column + 2].copy_from_slice(&number.to_le_bytes()));
    // What a send counts, then what a frame does.
    let Tallies { sent, received, blocked_sends, blocked_receives } = slot.tallies;
    let tallies = [(47, sent), (55, blocked_sends), (63, received), (71, blocked_receives)];
    tallies.iter().for_each(|(column, number)| row[*column..*column + 8].copy_from_slice(&number.to_le_bytes()));
    row
}

/// What octets say, whether they spell a table or not.
pub fn read(octets: &[u8; TABLE_OCTETS]) -> View {
    let mut spsms = [0; 32];
    spsms.copy_from_slice(&octets[16..HEAD]);
    View {
        d: octets[2].into(),
        m: u16::from_le_bytes([octets[3], octets[4]]),
        next_identifier: octets[5],
        spsms,
        slots: (0..SLOTS.min(octets[1].into())).map(|slot| slot_of(octets, slot)).collect(),
    }
}

fn slot_of(octets: &[u8; TABLE_OCTETS], slot: usize) -> SlotView {
    let octet = |column: usize| octets[HEAD + SLOTS * column + slot];
    let number = |column: usize| u16::from_le_bytes([octet(column), octet(column + 1)]);
    let tally = |column: usize| u64::from_le_bytes(std::array::from_fn(|place| octet(column + place)));
    let waiting = usize::from(octet(30).min(4));
    SlotView {
        state: match (octet(0), octet(1)) {
            (1, identifier) => State::Connecting(identifier),
            (2, identifier) => State::PeerConnecting(identifier),
            (3, _) => State::Connected,
            (4, code) => State::ConnectFailed(code.into()),
            (5, identifier) => State::PeerDisconnecting(identifier),
            (6, announced) => State::Disconnecting { announced: announced == 1 },
            _ => State::Disconnected,
        },
        link: number(2),
        spsm: number(4),
        mps: number(6),
        mtu: number(8),
        policy: if octet(10) == 1 { Policy::MinThreshold(number(11)) } else { Policy::Every(number(11)) },
        credits: number(13),
        received: number(15),
        peer_cid: number(18),
        peer_mps: number(20),
        peer_mtu: number(22),
        peer_credits: number(24),
        hold: octet(17).into(),
        have: number(26),
        want: number(28),
        jobs: (0..waiting).map(|job| number(31 + 2 * job)).collect(),
        job: Some(JobView { length: number(39), taken: number(41), filled: number(43), aside: number(45) }).filter(|job| *job != NO_JOB),
        stale: Stale::Nothing,
        tallies: Tallies { sent: tally(47), received: tally(63), blocked_sends: tally(55), blocked_receives: tally(71) },
        inherited: Tallies::default(),
    }
}
