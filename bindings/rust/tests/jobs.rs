//! What the manager is for: channels opened and closed, jobs both ways, and no half job in another's.

mod common;

use common::*;
use l2cap_channels::*;

/// The scope's sample.
#[test]
fn sample() {
    let mut room = [0xAA; room_octets(2, 1, 64)];
    let mut channels = ChannelManager::new(2, 1, 64, &mut room).unwrap();
    assert!(channels.room().iter().all(|octet| *octet == 0));
    channels.register_spsm(128).unwrap();
    assert_eq!(feed(&mut channels, PHONE, "14070a0080004000170017000500"), [(Ok(None), String::new())]);
    assert_eq!(feed(&mut channels, PHONE, "14080a0081004100170017000500"), [(Ok(None), "0e00050015080a0000000000000000000200".into())]);
}

/// A phone closes its channel in the middle of a job; the next phone gets the slot, and its job comes out clean.
#[test]
fn half_job_is_gone() {
    let mut room = [0; ROOM];
    let mut channels = made(&mut room);
    let mut signal = [0; SIGNAL_OCTETS];
    let mut job = [0; PLACE];
    let first = opened(&mut channels);
    channels.dispatch(PHONE, first.cid(), &[9, 0, 0xDE, 0xAD, 0xDE, 0xAD]).unwrap();
    assert_eq!((slot(&channels, first).have, slot(&channels, first).want), (4, 9));
    assert_eq!(channels.room()[..4], [0xDE, 0xAD, 0xDE, 0xAD]);
    // The phone's disconnect request, our response, and the hold released.
    assert_eq!(feed(&mut channels, PHONE, "0621040040005000"), [(Ok(None), String::new())]);
    assert!(channels.room().iter().all(|octet| *octet == 0));
    let due = channels.next_disconnect(&mut signal).unwrap().unwrap();
    assert_eq!((due.index, due.handle, hex(due.octets)), (first, PHONE, "080005000721040040005000".into()));
    channels.dec_ref(Hold::of(first)).unwrap();
    // The next phone's job, in two frames.
    let second = open(&mut channels, OTHER, &request(0x60, 100, 23, 5), &L2capChannelConfig::default());
    assert_eq!(second, first);
    channels.dispatch(OTHER, second.cid(), &[5, 0, b't', b'i']).unwrap();
    channels.dispatch(OTHER, second.cid(), b"cke").unwrap();
    let taken = channels.receive(second, &mut job, &mut signal).unwrap().unwrap();
    assert_eq!((taken.handle, taken.sdu), (OTHER, &b"ticke"[..]));
    assert_eq!(hex(taken.credits), "0800050016010400".to_owned() + "40000200");
    assert!(channels.room().iter().all(|octet| *octet == 0));
}

/// A link goes down in the middle of a job, with another finished: nothing of either is left, and the holds are.
#[test]
fn link_down_leaves_zeros() {
    let mut room = [0; ROOM];
    let mut channels = made(&mut room);
    let index = opened(&mut channels);
    channels.dispatch(PHONE, index.cid(), &[2, 0, 1, 2]).unwrap();
    channels.dispatch(PHONE, index.cid(), &[4, 0, 3]).unwrap();
    assert!(channels.room().iter().any(|octet| *octet != 0));
    channels.disconnected(PHONE).unwrap();
    assert!(channels.room().iter().all(|octet| *octet == 0));
    assert!(is_free(&slot(&channels, index)));
    assert_eq!(slot(&channels, index).hold, 1);
    channels.dec_ref(Hold::of(index)).unwrap();
    assert_eq!(slot(&channels, index).hold, 0);
}

/// Two managers, and a job each way through their frames, at the bench's lengths.
#[test]
fn jobs_both_ways() {
    let (mut ours, mut theirs) = ([0; room_octets(1, 2, 64)], [0; room_octets(1, 2, 64)]);
    let mut printer = ChannelManager::new(1, 2, 64, &mut ours).unwrap();
    let mut phone = ChannelManager::new(1, 2, 64, &mut theirs).unwrap();
    printer.register_spsm(SPSM).unwrap();
    let config = L2capChannelConfig { mps: Some(23), initial_credits: Some(8), ..Default::default() };
    let (mut signal, mut reply) = ([0; SIGNAL_OCTETS], [0; SIGNAL_OCTETS]);
    let request = phone.create(PHONE, SPSM, &config, &mut signal).unwrap();
    assert_eq!((request.index, request.handle), (SLOT, PHONE));
    assert_eq!(phone.opened(SLOT, PHONE, true), Ok(None));
    let got = printer.signal(OTHER, true, LeConnRole::Peripheral, &request.octets[4..], &mut reply);
    assert_eq!(got, Signalled { outcome: Ok(None), reply: &[], rest: &[] });
    let printers = printer.next_pending(OTHER, true).unwrap().unwrap();
    assert_eq!((printers.index(), printers.cid()), (SLOT, Cid(0x40)));
    let response = printer.accept_pending(SLOT, &config, &mut reply).unwrap();
    let got = phone.signal(PHONE, true, LeConnRole::Central, &response.octets[4..], &mut signal);
    assert_eq!(got, Signalled { outcome: Ok(None), reply: &[], rest: &[] });
    let phones = phone.opened(SLOT, PHONE, true).unwrap().unwrap();
    assert_eq!(phones.index(), SLOT);
    assert_eq!(
        [phone.spsm(SLOT), phone.mtu(SLOT), phone.mps(SLOT), phone.peer_mtu(SLOT), phone.peer_mps(SLOT)],
        [Ok(SPSM), Ok(58), Ok(23), Ok(58), Ok(23)]
    );

    let mut out = [0; 256];
    let mut job = [0; 58];
    for (length, count) in [(0, 1), (21, 1), (22, 2), (44, 2), (45, 3), (58, 3)] {
        let sdu: Vec<u8> = (0..length).map(|k| k as u8 ^ 0x5A).collect();
        for forth in [true, false] {
            let (sender, receiver, from, to) =
                if forth { (&mut phone, &mut printer, PHONE, OTHER) } else { (&mut printer, &mut phone, OTHER, PHONE) };
            let frames = sender.send(SLOT, &sdu, &mut out).unwrap();
            assert_eq!((frames.handle, frames.count), (from, count));
            assert_eq!(frames.octets.len(), length + 2 + 4 * usize::from(count));
            assert_eq!(frames.iter().count(), usize::from(count));
            for frame in frames {
                let cid = Cid(u16::from_le_bytes([frame[2], frame[3]]));
                receiver.dispatch(to, cid, &frame[4..]).unwrap();
            }
            assert_eq!(receiver.attention(), Ok(Attention { set: Slots::from_bits(1), count: 1, lowest: Some(SLOT) }));
            let taken = receiver.receive(SLOT, &mut job, &mut reply).unwrap().unwrap();
            assert_eq!((taken.handle, taken.sdu), (to, &sdu[..]));
            // The credits go back to the sender.
            let got = sender.signal(from, true, LeConnRole::Central, &taken.credits[4..], &mut signal);
            assert_eq!(got.outcome, Ok(None));
            assert_eq!(slot(sender, SLOT).peer_credits, 8);
            assert_eq!(receiver.attention(), Ok(Attention { set: Slots::from_bits(0), count: 0, lowest: None }));
            assert_eq!(receiver.receive(SLOT, &mut job, &mut reply), Ok(None));
            assert!(receiver.room().iter().all(|octet| *octet == 0));
        }
    }

    // The phone ends it: request, response, and both slots are free once the printer's hold is back too.
    phone.dec_ref(phones).unwrap();
    assert_eq!(phone.attention(), Ok(Attention { set: Slots::from_bits(1), count: 1, lowest: Some(SLOT) }));
    let due = phone.next_disconnect(&mut signal).unwrap().unwrap();
    assert_eq!(printer.signal(OTHER, true, LeConnRole::Central, &due.octets[4..], &mut reply).outcome, Ok(None));
    let due = printer.next_disconnect(&mut reply).unwrap().unwrap();
    assert_eq!(phone.signal(PHONE, true, LeConnRole::Central, &due.octets[4..], &mut signal).outcome, Ok(None));
    assert!(is_free(&slot(&phone, SLOT)) && is_free(&slot(&printer, SLOT)));
    assert_eq!((phone.table().held().bits(), printer.table().held().bits()), (0, 1));
    printer.dec_ref(printers).unwrap();
    assert!(printer.table().held().is_empty());
    assert_eq!(phone.next_disconnect(&mut signal), Ok(None));
}

/// A job is taken once, into a buffer that holds it; a job of no octets is a job.
#[test]
fn a_job_is_taken_once() {
    let mut room = [0; ROOM];
    let mut channels = made(&mut room);
    let index = opened(&mut channels);
    let mut signal = [0; SIGNAL_OCTETS];
    channels.dispatch(PHONE, index.cid(), &[3, 0, 1, 2, 3]).unwrap();
    channels.dispatch(PHONE, index.cid(), &[0, 0]).unwrap();
    let mut job = [9; 4];
    assert_eq!(channels.receive(index, &mut job, &mut signal).unwrap().unwrap().sdu, [1, 2, 3]);
    let taken = channels.receive(index, &mut job, &mut signal).unwrap().unwrap();
    assert_eq!((taken.sdu, taken.credits), (&[][..], &[][..]));
    assert_eq!(channels.receive(index, &mut job, &mut signal), Ok(None));
    assert_eq!(job, [1, 2, 3, 9]);
}

/// Every signal of a PDU is handled, each with its own reply.
#[test]
fn a_pdu_of_three_signals() {
    let mut room = [0; ROOM];
    let mut channels = made(&mut room);
    let pdu = request(0x50, 100, 23, 5) + "14090a0081005100640017000500" + "ff0a0000";
    let all = feed(&mut channels, PHONE, &pdu);
    assert_eq!(all.len(), 3);
    assert_eq!(all[0], (Ok(None), String::new()));
    assert_eq!(all[1], (Ok(None), "0e00050015090a0000000000000000000200".into()));
    assert_eq!(all[2], (Err(Refusal::NotSupported), "06000500010a02000000".into()));
    assert_eq!(feed(&mut channels, PHONE, ""), [(Ok(None), String::new())]);
}

/// A peer's wish for other parameters, and both of our own signals about them.
#[test]
fn connection_parameters() {
    let mut room = [0; ROOM];
    let mut channels = made(&mut room);
    let wish = ConnParamUpdateReq { interval_min: 6, interval_max: 3200, latency: 0, timeout: 3200 };
    assert_eq!(feed(&mut channels, PHONE, "120508000600800c0000800c"), [(Ok(Some(wish)), String::new())]);
    let mut reply = [0; SIGNAL_OCTETS];
    let pdu = octets("120508000600800c0000800c");
    let other = channels.signal(PHONE, true, LeConnRole::Peripheral, &pdu, &mut reply);
    assert_eq!((other.outcome, hex(other.reply)), (Ok(None), "06000500010502000000".into()));
    let sent = channels.send_conn_param_update_req(PHONE, &wish, &mut reply).unwrap();
    assert_eq!((sent.handle, hex(sent.octets)), (PHONE, "0c000500120108000600800c0000800c".into()));
    let sent = channels.send_conn_param_update_res(PHONE, 0, &mut reply).unwrap();
    assert_eq!(hex(sent.octets), "06000500130202000000");
    assert_eq!(channels.table().identifier(), 3);
}

/// Pendings refused one by one, by name, and dropped.
#[test]
fn pendings_go_three_ways() {
    let mut room = [0; ROOM];
    let mut channels = made(&mut room);
    let mut signal = [0; SIGNAL_OCTETS];
    feed(&mut channels, PHONE, &request(0x50, 100, 23, 5));
    feed(&mut channels, PHONE, &request(0x51, 100, 23, 5));
    let hold = channels.next_pending(PHONE, true).unwrap().unwrap();
    assert_eq!(hold.index(), SLOT);
    let out = channels.reject_pending(hold, LeCreditConnResultCode::InsufficientEncryption, &mut signal).unwrap();
    assert_eq!((out.handle, hex(out.octets)), (PHONE, "0e00050015070a0000000000000000000800".into()));
    let out = channels.reject_all_pending(PHONE, &mut signal).unwrap().unwrap();
    assert_eq!((out.index, out.handle, hex(out.octets)), (ChannelIndex(1), PHONE, "0e00050015070a0000000000000000000400".into()));
    assert_eq!(channels.reject_all_pending(PHONE, &mut signal), Ok(None));
    assert_eq!(channels.next_pending(PHONE, true), Ok(None));
    feed(&mut channels, PHONE, &request(0x50, 100, 23, 5));
    let hold = channels.next_pending(PHONE, true).unwrap().unwrap();
    assert_eq!(channels.drop_pending(hold), Ok(None));
    assert!(is_free(&slot(&channels, SLOT)));
    assert_eq!(slot(&channels, SLOT).hold, 0);
}

/// Attempts of our own that are given up, and channels that end by hold, slot and CID.
#[test]
fn ends() {
    let mut room = [0; ROOM];
    let mut channels = made(&mut room);
    let mut signal = [0; SIGNAL_OCTETS];
    let out = channels.create(OTHER, 0x25, &L2capChannelConfig::default(), &mut signal).unwrap();
    assert_eq!((out.index, hex(out.octets)), (SLOT, "0e00050014010a00250040003a003c000200".into()));
    channels.give_up(SLOT).unwrap();
    assert!(is_free(&slot(&channels, SLOT)));
    for way in 0..3 {
        let index = opened(&mut channels);
        let more = channels.inc_ref(index).unwrap();
        channels.dec_ref(more).unwrap();
        assert_eq!(slot(&channels, index).state, ChannelState::Connected);
        match way {
            0 => channels.dec_ref(Hold::of(index)).unwrap(),
            1 => channels.disconnect(index).unwrap(),
            _ => channels.disconnect_by_cid(index.cid()).unwrap(),
        }
        assert_eq!(slot(&channels, index).state, ChannelState::Disconnecting(false));
        let due = channels.next_disconnect(&mut signal).unwrap().unwrap();
        assert_eq!((due.index, hex(&due.octets[6..])), (index, "040050004000".into()));
        assert_eq!(slot(&channels, index).state, ChannelState::Disconnecting(true));
        channels.disconnected(PHONE).unwrap();
        if way > 0 {
            channels.dec_ref(Hold::of(index)).unwrap();
        }
    }
}

/// What is asked for is what the slot gets and the peer is told; a threshold grants once the peer holds fewer credits.
#[test]
fn what_is_asked_for() {
    let asked =
        L2capChannelConfig { mtu: Some(40), mps: Some(30), flow_policy: CreditFlowPolicy::MinThreshold(2), initial_credits: Some(3) };
    let mut room = [0; ROOM];
    let mut channels = made(&mut room);
    let mut signal = [0; SIGNAL_OCTETS];
    let mut reply = [0; SIGNAL_OCTETS];
    let pdu = octets(&request(0x50, 100, 23, 5));
    let nobody = channels.signal(PHONE, false, LeConnRole::Central, &pdu, &mut reply);
    assert_eq!((nobody.outcome, hex(nobody.reply)), (Ok(None), "0e00050015070a0000000000000000000400".into()));
    let index = open(&mut channels, PHONE, &request(0x50, 100, 23, 5), &asked);
    let out = channels.create(OTHER, 0x25, &asked, &mut signal).unwrap();
    assert_eq!((out.index, hex(out.octets)), (ChannelIndex(1), "0e00050014010a002500410028001e000300".into()));
    for index in [index, ChannelIndex(1)] {
        let got = slot(&channels, index);
        assert_eq!((got.mtu, got.mps, got.flow_policy, got.credits), (40, 30, CreditFlowPolicy::MinThreshold(2), 3));
    }
    let got = slot(&channels, index);
    assert_eq!((got.peer_cid, got.peer_mtu, got.peer_mps, got.peer_credits, got.hold), (0x50, 100, 23, 5, 1));
    assert_eq!(
        [channels.mtu(index), channels.mps(index), channels.peer_mtu(index), channels.peer_mps(index)],
        [Ok(40), Ok(30), Ok(100), Ok(23)]
    );
    let mut job = [0; PLACE];
    for credits in ["", "080005001602040040000200"] {
        channels.dispatch(PHONE, index.cid(), &[1, 0, 9]).unwrap();
        assert_eq!(hex(channels.receive(index, &mut job, &mut signal).unwrap().unwrap().credits), credits);
    }
}

/// When MTUs and MPSs are 0: all of a closed slot; ours before an accept, and where none came; the peer's of an attempt that never opened.
#[test]
fn numbers_that_are_not_there_yet() {
    let asked = |channels: &ChannelManager<'_>| {
        [channels.mtu(SLOT), channels.mps(SLOT), channels.peer_mtu(SLOT), channels.peer_mps(SLOT)].map(Result::unwrap)
    };
    let mut room = [0; ROOM];
    let mut channels = made(&mut room);
    assert_eq!(asked(&channels), [0, 0, 0, 0]);
    feed(&mut channels, PHONE, &request(0x50, 100, 23, 5));
    assert_eq!(asked(&channels), [0, 0, 100, 23]);
    feed(&mut channels, PHONE, "0621040040005000");
    assert_eq!((slot(&channels, SLOT).state, asked(&channels)), (ChannelState::PeerDisconnecting(0x21), [0, 0, 100, 23]));
    channels.disconnected(PHONE).unwrap();
    assert_eq!(asked(&channels), [0, 0, 0, 0]);
    channels.create(PHONE, SPSM, &L2capChannelConfig::default(), &mut [0; SIGNAL_OCTETS]).unwrap();
    assert_eq!(asked(&channels), [58, 60, 0, 0]);
    feed(&mut channels, PHONE, "15010a0000000000000000000400");
    assert_eq!(asked(&channels), [58, 60, 0, 0]);
    // One that the peer accepted under 23 never opened, and has them.
    channels.disconnected(PHONE).unwrap();
    channels.create(PHONE, SPSM, &L2capChannelConfig::default(), &mut [0; SIGNAL_OCTETS]).unwrap();
    feed(&mut channels, PHONE, "15020a0050006400160005000000");
    assert_eq!((slot(&channels, SLOT).state, asked(&channels)), (ChannelState::Disconnecting(false), [58, 60, 100, 22]));
}

/// A manager's parts are kept and taken up again.
#[test]
fn parts() {
    let mut room = [0; ROOM];
    let mut channels = made(&mut room);
    let index = opened(&mut channels);
    channels.dispatch(PHONE, index.cid(), &[4, 0, 1, 2]).unwrap();
    let (table, room) = channels.into_parts();
    let kept = Table::from_octets(*table.octets());
    let mut channels = ChannelManager::from_parts(kept, room);
    channels.dispatch(PHONE, index.cid(), &[3, 4]).unwrap();
    let (mut job, mut signal) = ([0; PLACE], [0; SIGNAL_OCTETS]);
    assert_eq!(channels.receive(index, &mut job, &mut signal).unwrap().unwrap().sdu, [1, 2, 3, 4]);
    assert_eq!((channels.table().channels(), channels.table().queue(), channels.table().packet()), (2, 2, 64));
    channels.make(2, 2, 64).unwrap();
    assert!((0..2).all(|k| is_free(&slot(&channels, ChannelIndex(k)))));
    assert_eq!(channels.table().slot(ChannelIndex(2)), None);
}

/// Numbers and names are each other's.
#[test]
fn numbers() {
    assert_eq!(ChannelIndex(1).cid(), Cid(0x41));
    assert_eq!([0x3F, 0x40, 0x4F, 0x50].map(|n| Cid(n).index()), [None, Some(ChannelIndex(0)), Some(ChannelIndex(15)), None]);
    for number in 0..64 {
        if let Some(code) = LeCreditConnResultCode::from_number(number) {
            assert_eq!((code.number(), code as u16, u16::from(code), number.try_into()), (number, number, number, Ok(code)));
        } else {
            assert!(number == 1 || number == 3 || number > 11);
            assert_eq!(LeCreditConnResultCode::try_from(number), Err(Refusal::Decode));
        }
    }
    assert_eq!(LeCreditConnResultCode::NoResources as u16, 4);
    assert_eq!((ConnHandle::from(7), u16::from(ConnHandle(7))), (ConnHandle(7), 7));
    assert_eq!((Cid::from(0x41), u16::from(Cid(0x41))), (Cid(0x41), 0x41));
    assert_eq!((ChannelIndex::from(3), u8::from(ChannelIndex(3))), (ChannelIndex(3), 3));
    let error: Box<dyn std::error::Error> = Refusal::QueueFull.into();
    assert_eq!(error.to_string(), "21 QueueFull");
    assert_eq!(Refusal::ConnectError(LeCreditConnResultCode::NoResources).to_string(), "17 ConnectError, result 4");
}
