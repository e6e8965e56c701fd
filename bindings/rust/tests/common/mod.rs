//! What the tests share. Scripts of the same names stand in the port's readings of its scope: two slots, two waiting jobs, packets of 64 octets.
#![allow(dead_code)]

pub mod calls;
pub mod raw;

use l2cap_channels::*;

pub const PHONE: ConnHandle = ConnHandle(1);
pub const OTHER: ConnHandle = ConnHandle(2);
pub const SPSM: u16 = 0x80;
pub const ROOM: usize = room_octets(2, 2, 64);
pub const PLACE: usize = 58;
pub const SLOT: ChannelIndex = ChannelIndex(0);

pub type Outcome = Result<Option<ConnParamUpdateReq>, Refusal>;

pub fn hex(octets: &[u8]) -> String {
    octets.iter().map(|octet| format!("{octet:02x}")).collect()
}

pub fn octets(hex: &str) -> Vec<u8> {
    (0..hex.len() / 2).map(|k| u8::from_str_radix(&hex[2 * k..2 * k + 2], 16).expect("hex")).collect()
}

/// A table of two slots with the SPSM registered.
pub fn made(room: &mut [u8]) -> ChannelManager<'_> {
    let mut channels = ChannelManager::new(2, 2, 64, room).expect("made");
    channels.register_spsm(SPSM).expect("registered");
    channels
}

/// Every signal of a PDU, with somebody listening and us the central: what each came to, and its reply in hex.
pub fn feed(channels: &mut ChannelManager<'_>, link: ConnHandle, pdu: &str) -> Vec<(Outcome, String)> {
    let mut all = Vec::new();
    channels.feed_pdu(link, true, LeConnRole::Central, &octets(pdu), |outcome, reply| all.push((outcome, hex(reply))));
    all
}

/// The peer's connect request: identifier 7, peer CID, MTU, MPS and credits.
pub fn request(cid: u16, mtu: u16, mps: u16, credits: u16) -> String {
    let mut pdu = vec![0x14, 7, 10, 0];
    for number in [SPSM, cid, mtu, mps, credits] {
        pdu.extend(number.to_le_bytes());
    }
    hex(&pdu)
}

/// Opens a channel for a peer: its slot, held once. The tests that need the hold itself take it up by [`Hold::of`].
pub fn open(channels: &mut ChannelManager<'_>, link: ConnHandle, request: &str, config: &L2capChannelConfig) -> ChannelIndex {
    assert_eq!(feed(channels, link, request), [(Ok(None), String::new())]);
    let slot = channels.next_pending(link, true).expect("pending").expect("a slot").into_index();
    let mut signal = [0; SIGNAL_OCTETS];
    let response = channels.accept_pending(slot, config, &mut signal).expect("accepted");
    assert_eq!(response.handle, link);
    assert_eq!(response.octets.len(), 18);
    slot
}

/// The usual open channel: the peer's MTU is 100, its MPS 23, its credits 5.
pub fn opened(channels: &mut ChannelManager<'_>) -> ChannelIndex {
    open(channels, PHONE, &request(0x50, 100, 23, 5), &L2capChannelConfig::default())
}

pub fn slot(channels: &ChannelManager<'_>, index: ChannelIndex) -> Slot {
    channels.table().slot(index).expect("a slot of the table")
}

/// Where a column of a slot's row stands in a table's octets.
pub fn cell(slot: usize, column: usize) -> usize {
    48 + 16 * column + slot
}

/// A number of two octets, written there.
pub fn put(octets: &mut [u8; TABLE_OCTETS], slot: usize, column: usize, number: u16) {
    [octets[cell(slot, column)], octets[cell(slot, column + 1)]] = number.to_le_bytes();
}

/// The columns of a tally: eight each.
pub const SENT: usize = 47;
pub const BLOCKED_SENDS: usize = 55;
pub const RECEIVED: usize = 63;
pub const BLOCKED_RECEIVES: usize = 71;

pub fn put_tally(octets: &mut [u8; TABLE_OCTETS], slot: usize, column: usize, tally: u64) {
    for (place, octet) in tally.to_le_bytes().into_iter().enumerate() {
        octets[cell(slot, column + place)] = octet;
    }
}

pub fn put_tallies(octets: &mut [u8; TABLE_OCTETS], slot: usize, tallies: Tallies) {
    let Tallies { sent, received, blocked_sends, blocked_receives } = tallies;
    for (column, tally) in [(SENT, sent), (RECEIVED, received), (BLOCKED_SENDS, blocked_sends), (BLOCKED_RECEIVES, blocked_receives)] {
        put_tally(octets, slot, column, tally);
    }
}

/// The same channels with other tallies of a slot.
pub fn with_tallies(channels: ChannelManager<'_>, index: ChannelIndex, tallies: Tallies) -> ChannelManager<'_> {
    let (table, room) = channels.into_parts();
    let mut octets = *table.octets();
    put_tallies(&mut octets, index.0.into(), tallies);
    ChannelManager::from_parts(Table::from_octets(octets), room)
}

/// The same channels with another MPS of a slot's peer. No call leaves one under 23.
pub fn with_peer_mps(channels: ChannelManager<'_>, index: ChannelIndex, mps: u16) -> ChannelManager<'_> {
    let (table, room) = channels.into_parts();
    let mut octets = *table.octets();
    put(&mut octets, index.0.into(), 20, mps);
    ChannelManager::from_parts(Table::from_octets(octets), room)
}

pub fn state(channels: &ChannelManager<'_>) -> (Table, Vec<u8>) {
    (channels.table().clone(), channels.room().to_vec())
}

/// What a call that ends a hold came to; the hold that a refusal gives back is put away.
pub fn ended<T>(result: Result<T, StillHeld>) -> Result<T, Refusal> {
    result.map_err(|StillHeld { refusal, hold }| {
        hold.into_index();
        refusal
    })
}

/// The call refuses by this, and leaves table and room as they were.
pub fn unchanged<T: std::fmt::Debug>(
    channels: &mut ChannelManager<'_>,
    refusal: Refusal,
    call: impl FnOnce(&mut ChannelManager<'_>) -> Result<T, Refusal>,
) {
    let before = state(channels);
    assert_eq!(call(channels).err(), Some(refusal));
    assert!(before == state(channels), "a refusal by {refusal} changed table or room");
}

/// The call refuses by 10 or 14. That counts once, in its tally of this slot, and leaves every other octet of table and room as it was.
pub fn blocked<T: std::fmt::Debug>(
    channels: &mut ChannelManager<'_>,
    index: ChannelIndex,
    refusal: Refusal,
    call: impl FnOnce(&mut ChannelManager<'_>) -> Result<T, Refusal>,
) {
    let (table, room) = state(channels);
    let (mut wanted, tallies) = (*table.octets(), table.slot(index).expect("a slot of the table").tallies);
    match refusal {
        Refusal::OutOfMemory => put_tally(&mut wanted, index.0.into(), BLOCKED_RECEIVES, tallies.blocked_receives.wrapping_add(1)),
        Refusal::Busy => put_tally(&mut wanted, index.0.into(), BLOCKED_SENDS, tallies.blocked_sends.wrapping_add(1)),
        other => panic!("{other} blocks nothing"),
    }
    assert_eq!(call(channels).err(), Some(refusal));
    assert!(channels.table().octets() == &wanted && channels.room() == room, "a refusal by {refusal} changed more than its tally");
}

pub fn is_free(slot: &Slot) -> bool {
    let numbers = [slot.handle.0, slot.spsm, slot.mps, slot.mtu, slot.credits, slot.received, slot.have, slot.want];
    let peer = [slot.peer_cid, slot.peer_mps, slot.peer_mtu, slot.peer_credits];
    slot.state == ChannelState::Disconnected
        && slot.flow_policy == CreditFlowPolicy::Every(1)
        && slot.waiting == 0
        && slot.job.is_none()
        && slot.tallies == Tallies::default()
        && numbers.iter().chain(&peer).chain(&slot.lens).all(|number| *number == 0)
}
