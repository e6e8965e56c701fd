//! Every refusal, by its number, and what it leaves.

mod common;

use common::calls::*;
use common::*;
use l2cap_channels::*;

fn config(mtu: Option<u16>, mps: Option<u16>, credits: Option<u16>) -> L2capChannelConfig {
    L2capChannelConfig { mtu, mps, initial_credits: credits, ..Default::default() }
}

/// The calls that refuse by this, each made on the given table and room, and none of which changed table, room or signal buffer.
fn refusing(refusal: Refusal, table: &Table, room: &[u8], link: ConnHandle, index: ChannelIndex, signal: &[u8]) -> Vec<&'static str> {
    let mut names = Vec::new();
    for name in CALLS {
        let (mut its_room, mut its_signal) = (room.to_vec(), signal.to_vec());
        let mut channels = ChannelManager::from_parts(table.clone(), &mut its_room);
        if call(name, &mut channels, link, index, &mut its_signal) == Some(refusal) {
            names.push(name);
            assert!(channels.table() == table, "{name}: the table changed");
            assert!(channels.room() == room, "{name}: the room changed");
            assert_eq!(its_signal, signal, "{name}: the signal buffer changed");
        }
    }
    names
}

const LENT_ROOM: [&str; 16] = [
    "signal",
    "reject_pending",
    "reject_all_pending",
    "drop_pending",
    "opened",
    "give_up",
    "dec_ref",
    "disconnect",
    "disconnect_by_cid",
    "disconnected",
    "next_disconnect",
    "dispatch",
    "cancel_job",
    "receive",
    "dispatch_run",
    "make",
];

#[test]
fn refusal_01_bad_table() {
    // A refused making leaves the room as it was, and a table of no slots that refuses every call.
    for (n, d, m) in [(0, 1, 64), (17, 1, 64), (1, 0, 64), (1, 5, 64), (1, 1, 28), (1, 1, 1025), (65535, 65535, 65535)] {
        let mut room = [0xAA; 58];
        assert_eq!(ChannelManager::new(n, d, m, &mut room).err(), Some(Refusal::BadTable));
        assert_eq!(room, [0xAA; 58]);
    }
    let (table, mut room) = busy();
    let was = room.clone();
    let mut channels = ChannelManager::from_parts(table, &mut room);
    assert_eq!(channels.make(0, 1, 64), Err(Refusal::BadTable));
    assert_eq!((channels.table().channels(), channels.table().queue(), channels.table().packet()), (0, 0, 0));
    assert_eq!(channels.room(), was);
    let none = channels.table().clone();
    assert_eq!(refusing(Refusal::BadTable, &none, &was, PHONE, SLOT, &BUFFER), CALLS);
    // It comes before every other refusal.
    assert_eq!(refusing(Refusal::BadTable, &none, &[], HIGH, ChannelIndex(255), &[]), CALLS);
}

#[test]
fn refusal_02_bad_room() {
    let mut room = [0xAA; 57];
    assert_eq!(ChannelManager::new(1, 1, 35, &mut room).err(), Some(Refusal::BadRoom));
    assert_eq!(room, [0xAA; 57]);
    let (table, room) = busy();
    for wrong in [&room[..ROOM - 1], &[&room[..], &[0]].concat(), &[]] {
        let names = refusing(Refusal::BadRoom, &table, wrong, PHONE, SLOT, &BUFFER);
        assert_eq!(names, CALLS.iter().filter(|name| LENT_ROOM.contains(name)).copied().collect::<Vec<_>>());
    }
}

#[test]
fn refusal_03_no_room() {
    let (table, room) = busy();
    let names = refusing(Refusal::NoRoom, &table, &room, PHONE, SLOT, &BUFFER[..17]);
    assert_eq!(
        names,
        [
            "signal",
            "send_conn_param_update_req",
            "send_conn_param_update_res",
            "accept_pending",
            "reject_pending",
            "reject_all_pending",
            "create",
            "next_disconnect",
            "receive"
        ]
    );
    assert_eq!(refusing(Refusal::NoRoom, &table, &room, HIGH, ChannelIndex(9), &[]), names);
    assert!(refusing(Refusal::NoRoom, &table, &room, PHONE, SLOT, &BUFFER).is_empty());
    // A job of 22 octets takes two frames, and 32 octets of output.
    let mut room = room;
    let mut channels = ChannelManager::from_parts(table, &mut room);
    let mut out = [0x77; 32];
    unchanged(&mut channels, Refusal::NoRoom, |channels| channels.send(SLOT, &[1; 22], &mut out[..31]));
    assert_eq!(out, [0x77; 32]);
    assert_eq!(channels.send(SLOT, &[1; 22], &mut out).unwrap().count, 2);
}

#[test]
fn refusal_04_bad_handle() {
    let (table, room) = busy();
    let names = refusing(Refusal::BadHandle, &table, &room, HIGH, SLOT, &BUFFER);
    let given = [
        "signal",
        "send_conn_param_update_req",
        "send_conn_param_update_res",
        "next_pending",
        "reject_all_pending",
        "create",
        "opened",
        "disconnected",
        "dispatch",
    ];
    assert_eq!(names, given);
    assert_eq!(refusing(Refusal::BadHandle, &table, &room, ConnHandle(65535), ChannelIndex(9), &BUFFER), given);
    assert!(refusing(Refusal::BadHandle, &table, &room, ConnHandle(0x0EFF), SLOT, &BUFFER).is_empty());
}

#[test]
fn refusal_05_bad_spsm() {
    let mut room = [0; ROOM];
    let mut channels = made(&mut room);
    for spsm in [0, 256, 65535] {
        unchanged(&mut channels, Refusal::BadSpsm, |channels| channels.register_spsm(spsm));
    }
    for spsm in [1, 255] {
        channels.register_spsm(spsm).unwrap();
    }
}

#[test]
fn refusal_06_bad_slot() {
    let (table, room) = busy();
    for index in [2, 16, 255] {
        let names = refusing(Refusal::BadSlot, &table, &room, PHONE, ChannelIndex(index), &BUFFER);
        assert_eq!(
            names,
            [
                "accept_pending",
                "reject_pending",
                "drop_pending",
                "opened",
                "give_up",
                "inc_ref",
                "dec_ref",
                "disconnect",
                "send",
                "start_job",
                "give_portion",
                "cancel_job",
                "receive",
                "spsm",
                "mtu",
                "mps",
                "peer_mtu",
                "peer_mps",
                "tally_sent",
                "tally_received",
                "tally_blocked_sends",
                "tally_blocked_receives"
            ]
        );
    }
}

#[test]
fn refusal_07_invalid_channel_id() {
    let mut room = [0; ROOM];
    let mut channels = made(&mut room);
    opened(&mut channels);
    for cid in [0, 0x3F, 0x42, 0x50, 0x140, 65535] {
        unchanged(&mut channels, Refusal::InvalidChannelId, |channels| channels.dispatch(PHONE, Cid(cid), &[1, 0, 9]));
    }
    let before = state(&channels);
    assert_eq!(channels.dispatch(PHONE, Cid(0x41), &[1, 0, 9]), Ok(()));
    assert!(before == state(&channels));
}

#[test]
fn refusal_08_not_found() {
    let (table, mut room) = busy();
    let mut channels = ChannelManager::from_parts(table, &mut room);
    unchanged(&mut channels, Refusal::NotFound, |channels| channels.dispatch(OTHER, SLOT.cid(), &[1, 0, 9]));
    unchanged(&mut channels, Refusal::NotFound, |channels| channels.opened(SLOT, OTHER, true));
    unchanged(&mut channels, Refusal::NotFound, |channels| channels.give_up(SLOT));
    unchanged(&mut channels, Refusal::NotFound, |channels| {
        channels.accept_pending(SLOT, &L2capChannelConfig::default(), &mut BUFFER.clone()).map(|_| ())
    });
    // Credits for a peer CID that no channel of this link has.
    let before = state(&channels);
    assert_eq!(feed(&mut channels, PHONE, "1609040051000100"), [(Err(Refusal::NotFound), String::new())]);
    assert_eq!(feed(&mut channels, OTHER, "1609040050000100"), [(Err(Refusal::NotFound), String::new())]);
    assert!(before == state(&channels));
    // An unmatched connect response frees the link's attempts, and nothing else.
    let mut signal = [0; SIGNAL_OCTETS];
    let attempt = channels.create(PHONE, SPSM, &L2capChannelConfig::default(), &mut signal).unwrap().index;
    assert_eq!(slot(&channels, attempt).state, ChannelState::Connecting(1));
    assert_eq!(feed(&mut channels, PHONE, "15630a0050006400170005000000"), [(Err(Refusal::NotFound), String::new())]);
    assert!(is_free(&slot(&channels, attempt)));
    assert_eq!(channels.table().slot(SLOT), before.0.slot(SLOT));
    assert_eq!(channels.room(), before.1);
}

#[test]
fn refusal_09_invalid_value() {
    // A signal longer than its PDU: the reject has its identifier, no signal before it is handled, and nothing is left to handle.
    let mut room = [0; ROOM];
    let mut channels = made(&mut room);
    let before = state(&channels);
    let pdu = request(0x50, 100, 23, 5) + "160a0900";
    assert_eq!(feed(&mut channels, PHONE, &pdu), [(Err(Refusal::InvalidValue), "06000500010a02000000".into())]);
    assert!(before == state(&channels));
    // Credits above 65,535: disconnecting, credits kept, the half job gone.
    let index = open(&mut channels, PHONE, &request(0x50, 100, 23, 65530), &L2capChannelConfig::default());
    channels.dispatch(PHONE, index.cid(), &[4, 0, 3]).unwrap();
    assert_eq!(feed(&mut channels, PHONE, "1609040050000500"), [(Ok(None), String::new())]);
    assert_eq!(slot(&channels, index).peer_credits, 65535);
    assert_eq!(feed(&mut channels, PHONE, "1609040050000100"), [(Err(Refusal::InvalidValue), String::new())]);
    let left = slot(&channels, index);
    assert_eq!((left.state, left.peer_credits, left.have, left.want), (ChannelState::Disconnecting(false), 65535, 0, 0));
    assert!(channels.room().iter().all(|octet| *octet == 0));
    // A response that accepts under 23: disconnecting, and the peer's numbers are there for our request.
    let mut room = [0; ROOM];
    let mut channels = made(&mut room);
    channels.create(PHONE, SPSM, &L2capChannelConfig::default(), &mut BUFFER.clone()).unwrap();
    assert_eq!(feed(&mut channels, PHONE, "15010a0050006400160005000000"), [(Err(Refusal::InvalidValue), String::new())]);
    let left = slot(&channels, SLOT);
    assert_eq!((left.state, left.hold), (ChannelState::Disconnecting(false), 0));
    assert_eq!((left.peer_cid, left.peer_mtu, left.peer_mps, left.peer_credits), (0x50, 100, 22, 5));
    // A frame: longer than our MPS or our MTU, than the job's length, or than what is left of the job. The credit is used.
    let long = [&[22, 0][..], &[1; 22]].concat();
    for frames in [&[&long[..]][..], &[&[40, 0, 1, 2], &[3; 24]], &[&[59, 0]], &[&[1, 0, 1, 2]], &[&[4, 0, 1, 2], &[3, 4, 5]]] {
        let mut room = [0; ROOM];
        let mut channels = made(&mut room);
        let index = open(&mut channels, PHONE, &request(0x50, 100, 23, 5), &config(None, Some(23), None));
        let (last, first) = frames.split_last().unwrap();
        for frame in first {
            channels.dispatch(PHONE, index.cid(), frame).unwrap();
        }
        assert_eq!(channels.dispatch(PHONE, index.cid(), last), Err(Refusal::InvalidValue));
        let left = slot(&channels, index);
        assert_eq!((left.state, left.have, left.want), (ChannelState::Disconnecting(false), 0, 0));
        assert_eq!((usize::from(left.credits), usize::from(left.received)), (2 - frames.len(), frames.len()));
        assert!(channels.room().iter().all(|octet| *octet == 0));
    }
}

#[test]
fn refusal_10_out_of_memory() {
    let (table, mut room) = busy();
    let mut channels = ChannelManager::from_parts(table, &mut room);
    assert_eq!(slot(&channels, SLOT).credits, 0);
    blocked(&mut channels, SLOT, Refusal::OutOfMemory, |channels| channels.dispatch(PHONE, SLOT.cid(), &[4, 5, 6]));
    assert_eq!(slot(&channels, SLOT).state, ChannelState::Connected);
}

#[test]
fn refusal_11_channel_closed() {
    let mut room = [0; ROOM];
    let mut channels = made(&mut room);
    let (mut job, mut out) = ([0x77; PLACE], [0x77; 64]);
    for round in 0..2 {
        unchanged(&mut channels, Refusal::ChannelClosed, |channels| channels.send(SLOT, &[1], &mut out).map(|_| ()));
        unchanged(&mut channels, Refusal::ChannelClosed, |channels| channels.receive(SLOT, &mut job, &mut BUFFER.clone()).map(|_| ()));
        if round == 0 {
            feed(&mut channels, PHONE, &request(0x50, 100, 23, 5));
        }
    }
    assert_eq!((job, out), ([0x77; PLACE], [0x77; 64]));
}

#[test]
fn refusal_12_insufficient_space() {
    let mut room = [0; ROOM];
    let mut channels = made(&mut room);
    feed(&mut channels, PHONE, &request(0x50, 100, 23, 5));
    channels.next_pending(PHONE, true).unwrap().map(Hold::into_index);
    let mut signal = BUFFER;
    for (mtu, mps) in [(Some(59), None), (None, Some(61)), (Some(65535), Some(65535))] {
        let asked = config(mtu, mps, None);
        unchanged(&mut channels, Refusal::InsufficientSpace, |channels| channels.accept_pending(SLOT, &asked, &mut signal).map(|_| ()));
        // A create has used an identifier, and nothing more.
        let (before, room) = state(&channels);
        assert_eq!(channels.create(PHONE, SPSM, &asked, &mut signal).err(), Some(Refusal::InsufficientSpace));
        let (mut wanted, given) = (*before.octets(), before.identifier());
        wanted[5] = given + 1;
        assert!(channels.table().octets() == &wanted && channels.room() == &room[..]);
    }
    assert_eq!(signal, BUFFER);
    channels.accept_pending(SLOT, &config(Some(58), Some(60), None), &mut signal).unwrap();
    let mut out = [0x77; 256];
    unchanged(&mut channels, Refusal::InsufficientSpace, |channels| channels.send(SLOT, &[1; 101], &mut out).map(|_| ()));
    assert_eq!(out, [0x77; 256]);
    channels.send(SLOT, &[1; 100], &mut out).unwrap();
    // A take: `takes.rs` has the rest.
    channels.dispatch(PHONE, SLOT.cid(), &[3, 0, 1, 2, 3]).unwrap();
    let (mut job, mut signal) = ([0x77; 2], BUFFER);
    unchanged(&mut channels, Refusal::InsufficientSpace, |channels| channels.receive(SLOT, &mut job, &mut signal).map(|_| ()));
    assert_eq!((job, signal), ([0x77; 2], BUFFER));
    assert_eq!(channels.receive(SLOT, &mut [0; 3], &mut signal).unwrap().unwrap().sdu, [1, 2, 3]);
}

#[test]
fn refusal_13_no_channel_available() {
    let mut room = [0; ROOM];
    let mut channels = made(&mut room);
    let hold = channels.inc_ref(SLOT).unwrap();
    feed(&mut channels, PHONE, &request(0x50, 100, 23, 5));
    let (before, room) = state(&channels);
    let mut signal = BUFFER;
    assert_eq!(channels.create(PHONE, SPSM, &L2capChannelConfig::default(), &mut signal).err(), Some(Refusal::NoChannelAvailable));
    let mut wanted = *before.octets();
    wanted[5] = 2;
    assert!(channels.table().octets() == &wanted && channels.room() == &room[..]);
    assert_eq!(signal, BUFFER);
    channels.dec_ref(hold).unwrap();
    assert_eq!(channels.create(PHONE, SPSM, &L2capChannelConfig::default(), &mut signal).unwrap().index, SLOT);
}

#[test]
fn refusal_14_busy() {
    let mut room = [0; ROOM];
    let mut channels = made(&mut room);
    let index = open(&mut channels, PHONE, &request(0x50, 100, 23, 1), &L2capChannelConfig::default());
    let mut out = [0x77; 64];
    blocked(&mut channels, index, Refusal::Busy, |channels| channels.send(index, &[1; 22], &mut out).map(|_| ()));
    blocked(&mut channels, index, Refusal::Busy, |channels| channels.start_job(index, 22, &mut out).map(|_| ()));
    assert_eq!(out, [0x77; 64]);
    assert_eq!(channels.send(index, &[1; 21], &mut out).unwrap().count, 1);
    assert_eq!(slot(&channels, index).peer_credits, 0);
}

#[test]
fn refusal_15_decode() {
    let mut room = [0; ROOM];
    let mut channels = made(&mut room);
    let before = state(&channels);
    for pdu in ["14", "1407", "14070a", "06210400400050001603"] {
        assert_eq!(feed(&mut channels, PHONE, pdu), [(Err(Refusal::Decode), String::new())]);
    }
    // A body of another length; of a response, an unlisted result too.
    for code in ["01", "06", "07", "12", "13", "14", "15", "16"] {
        let pdu = code.to_owned() + "05010000";
        assert_eq!(feed(&mut channels, PHONE, &pdu), [(Err(Refusal::Decode), "06000500010502000000".into())]);
    }
    assert_eq!(feed(&mut channels, PHONE, "15010a0050006400170005000300"), [(Err(Refusal::Decode), "06000500010102000000".into())]);
    assert!(before == state(&channels));
}

#[test]
fn refusal_16_not_supported() {
    let (table, mut room) = busy();
    let mut channels = ChannelManager::from_parts(table, &mut room);
    let before = state(&channels);
    for code in [0x00, 0x02, 0x05, 0x08, 0x11, 0x17, 0xFF] {
        let pdu = format!("{code:02x}0a0000");
        assert_eq!(feed(&mut channels, PHONE, &pdu), [(Err(Refusal::NotSupported), "06000500010a02000000".into())]);
    }
    assert!(before == state(&channels));
}

#[test]
fn refusal_17_connect_error() {
    for number in [2, 4, 5, 6, 7, 8, 9, 10, 11] {
        let code = LeCreditConnResultCode::from_number(number).unwrap();
        let mut room = [0; ROOM];
        let mut channels = made(&mut room);
        let mut signal = [0; SIGNAL_OCTETS];
        channels.create(PHONE, SPSM, &L2capChannelConfig::default(), &mut signal).unwrap();
        let pdu = format!("15010a000000000000000000{number:02x}00");
        assert_eq!(feed(&mut channels, PHONE, &pdu), [(Err(Refusal::ConnectError(code)), String::new())]);
        assert_eq!(slot(&channels, SLOT).state, ChannelState::ConnectFailed(code));
        assert_eq!(channels.attention(), Ok(Attention { set: Slots::from_bits(1), count: 1, lowest: Some(SLOT) }));
        assert_eq!(channels.opened(SLOT, PHONE, true), Err(Refusal::ConnectError(code)));
        assert!(is_free(&slot(&channels, SLOT)));
    }
}

#[test]
fn refusal_18_disconnected() {
    let mut room = [0; ROOM];
    let mut channels = made(&mut room);
    unchanged(&mut channels, Refusal::Disconnected, |channels| channels.next_pending(PHONE, false));
    unchanged(&mut channels, Refusal::Disconnected, |channels| channels.opened(SLOT, PHONE, true));
    let mut signal = [0; SIGNAL_OCTETS];
    // The link is down, or the channel ends before it was asked for: freed.
    for up in [false, true] {
        channels.create(PHONE, SPSM, &L2capChannelConfig::default(), &mut signal).unwrap();
        if up {
            assert_eq!(feed(&mut channels, PHONE, "0621040040005000"), [(Ok(None), String::new())]);
        }
        assert_eq!(channels.opened(SLOT, PHONE, up), Err(Refusal::Disconnected));
        assert!(is_free(&slot(&channels, SLOT)));
    }
}

#[test]
fn refusal_19_short_frame() {
    for frame in [&[][..], &[7]] {
        let mut room = [0; ROOM];
        let mut channels = made(&mut room);
        let index = opened(&mut channels);
        channels.dispatch(PHONE, index.cid(), &[2, 0, 8, 9]).unwrap();
        assert_eq!(channels.dispatch(PHONE, index.cid(), frame), Err(Refusal::ShortFrame));
        let left = slot(&channels, index);
        assert_eq!((left.state, left.credits, left.received), (ChannelState::Disconnecting(false), 0, 2));
        // The finished job can still be taken; nothing is granted any more.
        let (mut job, mut signal) = ([0; PLACE], [0; SIGNAL_OCTETS]);
        let taken = channels.receive(index, &mut job, &mut signal).unwrap().unwrap();
        assert_eq!((taken.sdu, taken.credits), (&[8, 9][..], &[][..]));
    }
}

#[test]
fn refusal_20_bad_mps() {
    // No call leaves such a channel: the octets are changed.
    let mut room = [0; ROOM];
    let mut channels = made(&mut room);
    let index = opened(&mut channels);
    let mut channels = with_peer_mps(channels, index, 22);
    let mut out = [0x77; 64];
    unchanged(&mut channels, Refusal::BadMps, |channels| channels.send(index, &[1], &mut out).map(|_| ()));
    unchanged(&mut channels, Refusal::BadMps, |channels| channels.start_job(index, 1, &mut out).map(|_| ()));
    let (mut run, mut answers) = ([0; 8], [[0; ANSWER_OCTETS]]);
    let mut run = one_job(&mut run, index);
    let before = state(&channels);
    assert_eq!(channels.send_run(&mut run, &mut out, &mut answers).unwrap().next(), Some(Err(Refusal::BadMps)));
    assert!(before == state(&channels));
    assert_eq!(out, [0x77; 64]);
    let mut channels = with_peer_mps(channels, index, 23);
    assert_eq!(channels.send(index, &[1], &mut out).unwrap().count, 1);
}

#[test]
fn refusal_21_queue_full() {
    let mut room = [0; ROOM];
    let mut channels = made(&mut room);
    let index = open(&mut channels, PHONE, &request(0x50, 100, 23, 5), &config(None, None, Some(9)));
    channels.dispatch(PHONE, index.cid(), &[2, 0, 1, 2]).unwrap();
    channels.dispatch(PHONE, index.cid(), &[1, 0, 3]).unwrap();
    let (table, room) = state(&channels);
    // Whole in one frame, and in two: the job is dropped and zeroed, the two that wait stay, the credits are used.
    assert_eq!(channels.dispatch(PHONE, index.cid(), &[2, 0, 4, 5]), Err(Refusal::QueueFull));
    channels.dispatch(PHONE, index.cid(), &[2, 0, 4]).unwrap();
    assert_eq!(channels.dispatch(PHONE, index.cid(), &[5]), Err(Refusal::QueueFull));
    let tallies = Tallies { received: 5, ..Tallies::default() };
    let wanted = Slot { credits: 4, received: 5, tallies, ..table.slot(index).unwrap() };
    assert_eq!(slot(&channels, index), wanted);
    assert_eq!(channels.room(), room);
    let (mut job, mut signal) = ([0; PLACE], [0; SIGNAL_OCTETS]);
    assert_eq!(channels.receive(index, &mut job, &mut signal).unwrap().unwrap().sdu, [1, 2]);
    assert_eq!(channels.receive(index, &mut job, &mut signal).unwrap().unwrap().sdu, [3]);
}

#[test]
fn refusal_22_held() {
    let mut room = [0; ROOM];
    let mut channels = made(&mut room);
    unchanged(&mut channels, Refusal::Held, |channels| ended(channels.dec_ref(Hold::of(SLOT))));
    unchanged(&mut channels, Refusal::Held, |channels| ended(channels.drop_pending(Hold::of(SLOT))));
    feed(&mut channels, PHONE, &request(0x50, 100, 23, 5));
    let mut signal = BUFFER;
    unchanged(&mut channels, Refusal::Held, |channels| {
        channels.accept_pending(SLOT, &L2capChannelConfig::default(), &mut signal).map(|_| ())
    });
    unchanged(&mut channels, Refusal::Held, |channels| {
        ended(channels.reject_pending(Hold::of(SLOT), LeCreditConnResultCode::NoResources, &mut signal)).map(|_| ())
    });
    assert_eq!(signal, BUFFER);
    assert_eq!(channels.next_pending(PHONE, true).unwrap().map(Hold::into_index), Some(SLOT));
    unchanged(&mut channels, Refusal::Held, |channels| channels.next_pending(PHONE, true));
    channels.accept_pending(SLOT, &L2capChannelConfig::default(), &mut signal).unwrap();
    unchanged(&mut channels, Refusal::Held, |channels| channels.opened(SLOT, PHONE, true));
    for _ in 1..255 {
        channels.inc_ref(SLOT).unwrap().into_index();
    }
    assert_eq!(slot(&channels, SLOT).hold, 255);
    unchanged(&mut channels, Refusal::Held, |channels| channels.inc_ref(SLOT));
}

#[test]
fn refusal_23_too_long() {
    let mut room = [0; ROOM];
    let mut channels = made(&mut room);
    let index = open(&mut channels, PHONE, &request(0x50, 65535, 23, 65535), &L2capChannelConfig::default());
    let mut out = vec![0x77; 76_935];
    for length in [65534, 65535] {
        unchanged(&mut channels, Refusal::TooLong, |channels| channels.send(index, &vec![1; length], &mut out).map(|_| ()));
    }
    assert!(out.iter().all(|octet| *octet == 0x77));
    unchanged(&mut channels, Refusal::InsufficientSpace, |channels| channels.send(index, &vec![1; 65536], &mut out).map(|_| ()));
    // The longest job that goes: 2,850 frames.
    let frames = channels.send(index, &vec![1; 65533], &mut out).unwrap();
    assert_eq!((frames.count, frames.octets.len(), frames.iter().count()), (2850, 76_935, 2850));
}

#[test]
fn refusal_24_job_open() {
    let mut room = [0; ROOM];
    let mut channels = made(&mut room);
    let index = opened(&mut channels);
    let (mut buffer, mut out) = ([0x77; 64], [0x77; 64]);
    let _ = channels.start_job(index, 5, &mut buffer).unwrap();
    unchanged(&mut channels, Refusal::JobOpen, |channels| channels.send(index, &[1], &mut out).map(|_| ()));
    unchanged(&mut channels, Refusal::JobOpen, |channels| channels.start_job(index, 5, &mut out).map(|_| ()));
    assert_eq!(out, [0x77; 64]);
    // Its last octet closes it.
    assert!(channels.give_portion(index, &[1; 5], &mut buffer).unwrap().done);
    assert_eq!(channels.send(index, &[1], &mut out).unwrap().count, 1);
}

#[test]
fn refusal_25_wrong_length() {
    let mut room = [0; ROOM];
    let mut channels = made(&mut room);
    let index = opened(&mut channels);
    let mut buffer = [0x77; 27];
    let _ = channels.start_job(index, 30, &mut buffer).unwrap();
    let begun = buffer;
    // Also where the call would have stopped at a frame, long before the last octet.
    unchanged(&mut channels, Refusal::WrongLength, |channels| channels.give_portion(index, &[1; 31], &mut buffer).map(|_| ()));
    assert_eq!(buffer, begun);
    assert_eq!(channels.give_portion(index, &[1; 30], &mut buffer).unwrap().taken, 21);
    let full = buffer;
    unchanged(&mut channels, Refusal::WrongLength, |channels| channels.give_portion(index, &[1; 10], &mut buffer).map(|_| ()));
    assert_eq!(buffer, full);
}
