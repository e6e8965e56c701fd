//! Core's least MTU and MPS, 23 octets, to which a peer is held, and our own MPS, to which its frames are: requests, responses and frames at the edge, and every octet
//! that they leave in table and room.

mod common;

use common::calls::BUFFER;
use common::*;
use l2cap_channels::*;

const SIZES: [u16; 7] = [0, 1, 10, 22, 23, 24, 65535];

/// Every pair of an MTU and an MPS at the edge, and whether one of them is below the least.
fn pairs() -> impl Iterator<Item = (u16, u16, bool)> {
    SIZES.into_iter().flat_map(|mtu| SIZES.into_iter().map(move |mps| (mtu, mps, mtu.min(mps) < SIZE_LEAST)))
}

/// A peer's response to the request with this identifier, with its CID 0x50 and five credits.
fn response(identifier: u8, mtu: u16, mps: u16, result: u16) -> String {
    let mut pdu = vec![0x15, identifier, 10, 0];
    for number in [0x50, mtu, mps, 5, result] {
        pdu.extend(number.to_le_bytes());
    }
    hex(&pdu)
}

/// A table with an attempt of ours in slot 0, and its identifier.
fn attempt(room: &mut [u8]) -> (ChannelManager<'_>, u8) {
    let mut channels = made(room);
    let identifier = channels.table().identifier();
    channels.create(PHONE, SPSM, &L2capChannelConfig::default(), &mut BUFFER.clone()).expect("an attempt");
    (channels, identifier)
}

/// The octets with the state of slot 0 and its peer's numbers changed.
fn changed(mut octets: [u8; TABLE_OCTETS], state: [u8; 2], peer: [u16; 4]) -> [u8; TABLE_OCTETS] {
    [octets[cell(0, 0)], octets[cell(0, 1)]] = state;
    for (number, column) in peer.into_iter().zip([18, 20, 22, 24]) {
        put(&mut octets, 0, column, number);
    }
    octets
}

#[test]
fn a_request_waits_or_is_told() {
    for (mtu, mps, below) in pairs() {
        let mut room = [0; ROOM];
        let mut channels = made(&mut room);
        let before = state(&channels);
        let told = if below { "0e00050015070a0000000000000000000b00" } else { "" };
        assert_eq!(feed(&mut channels, PHONE, &request(0x50, mtu, mps, 5)), [(Ok(None), told.to_owned())], "MTU {mtu}, MPS {mps}");
        if below {
            assert!(before == state(&channels), "MTU {mtu}, MPS {mps}");
            assert_eq!(channels.next_pending(PHONE, true), Ok(None));
        } else {
            let mut wanted = changed(*before.0.octets(), [2, 7], [0x50, mps, mtu, 5]);
            put(&mut wanted, 0, 2, PHONE.0);
            put(&mut wanted, 0, 4, SPSM);
            assert!(channels.table().octets() == &wanted && channels.room() == before.1, "MTU {mtu}, MPS {mps}");
        }
    }
}

#[test]
fn a_response_opens_or_ends() {
    for (mtu, mps, below) in pairs() {
        let mut room = [0; ROOM];
        let (mut channels, identifier) = attempt(&mut room);
        let before = state(&channels);
        let outcome = if below { Err(Refusal::InvalidValue) } else { Ok(None) };
        assert_eq!(feed(&mut channels, PHONE, &response(identifier, mtu, mps, 0)), [(outcome, String::new())], "MTU {mtu}, MPS {mps}");
        let wanted = changed(*before.0.octets(), if below { [6, 0] } else { [3, 0] }, [0x50, mps, mtu, 5]);
        assert!(channels.table().octets() == &wanted && channels.room() == before.1, "MTU {mtu}, MPS {mps}");
        if !below {
            assert_eq!(channels.opened(SLOT, PHONE, true).unwrap().map(Hold::into_index), Some(SLOT));
            continue;
        }
        // Nobody can send on it or holds it. Our request names the peer's CID, and the peer's response frees the slot.
        assert_eq!(channels.send(SLOT, &[], &mut [0; 64]).err(), Some(Refusal::ChannelClosed));
        unchanged(&mut channels, Refusal::NotFound, |channels| channels.give_up(SLOT));
        assert_eq!(channels.attention().unwrap().lowest, Some(SLOT));
        let mut signal = [0; SIGNAL_OCTETS];
        let due = channels.next_disconnect(&mut signal).unwrap().unwrap();
        assert_eq!((due.index, due.handle, hex(due.octets)), (SLOT, PHONE, "080005000602040050004000".into()));
        assert_eq!(feed(&mut channels, PHONE, "0702040050004000"), [(Ok(None), String::new())]);
        assert!(is_free(&slot(&channels, SLOT)) && slot(&channels, SLOT).hold == 0);
    }
}

/// Asked before the next disconnect, `opened` closes the slot, and our request is never written: whatever the peer sends on its channel is dropped.
#[test]
fn opened_comes_after_next_disconnect() {
    let mut room = [0; ROOM];
    let (mut channels, identifier) = attempt(&mut room);
    feed(&mut channels, PHONE, &response(identifier, 100, 22, 0));
    assert_eq!(channels.opened(SLOT, PHONE, true), Err(Refusal::Disconnected));
    assert!(is_free(&slot(&channels, SLOT)));
    assert_eq!(channels.next_disconnect(&mut BUFFER.clone()), Ok(None));
    assert_eq!(channels.dispatch(PHONE, SLOT.cid(), &[1, 0, 9]), Ok(()));
    assert!(is_free(&slot(&channels, SLOT)));
    // In the other order the peer is told, and the slot needn't wait for its response.
    channels.create(PHONE, SPSM, &L2capChannelConfig::default(), &mut BUFFER.clone()).unwrap();
    feed(&mut channels, PHONE, &response(identifier + 1, 100, 22, 0));
    assert!(channels.next_disconnect(&mut BUFFER.clone()).unwrap().is_some());
    assert_eq!(channels.opened(SLOT, PHONE, true), Err(Refusal::Disconnected));
    assert!(is_free(&slot(&channels, SLOT)));
}

/// A response that can't be read, one that answers nothing and one that refuses are what they were, whatever its numbers.
#[test]
fn other_refusals_of_a_response_come_first() {
    for (mtu, mps, _) in pairs() {
        let mut room = [0; ROOM];
        let (mut channels, identifier) = attempt(&mut room);
        let before = state(&channels);
        assert_eq!(feed(&mut channels, PHONE, &response(identifier, mtu, mps, 3))[0].0, Err(Refusal::Decode));
        assert!(before == state(&channels));
        let no_resources = LeCreditConnResultCode::NoResources;
        assert_eq!(feed(&mut channels, PHONE, &response(identifier, mtu, mps, 4))[0].0, Err(Refusal::ConnectError(no_resources)));
        let left = slot(&channels, SLOT);
        assert_eq!((left.state, left.peer_cid, left.peer_mtu), (ChannelState::ConnectFailed(no_resources), 0, 0));
        channels.create(PHONE, SPSM, &L2capChannelConfig::default(), &mut BUFFER.clone()).unwrap();
        for link in [OTHER, PHONE] {
            // Its own link's attempts alone are given up.
            assert_eq!(feed(&mut channels, link, &response(identifier + 9, mtu, mps, 0))[0].0, Err(Refusal::NotFound));
            assert_eq!(is_free(&slot(&channels, ChannelIndex(1))), link == PHONE);
        }
    }
}

/// An attempt that somebody holds stays held. It has no half job and none that waits; where octets say so, a response leaves them and the room alone.
#[test]
fn a_response_leaves_holds_and_the_room() {
    for (mtu, mps, below) in pairs() {
        let mut room = [0; ROOM];
        let (mut channels, identifier) = attempt(&mut room);
        channels.inc_ref(SLOT).unwrap().into_index();
        let mut octets = *channels.table().octets();
        for (column, number) in [(26, 3), (28, 9), (31, 2)] {
            put(&mut octets, 0, column, number);
        }
        octets[cell(0, 30)] = 1;
        let mut room = [0x77; ROOM];
        let mut channels = ChannelManager::from_parts(Table::from_octets(octets), &mut room);
        feed(&mut channels, PHONE, &response(identifier, mtu, mps, 0));
        assert!(channels.table().octets() == &changed(octets, if below { [6, 0] } else { [3, 0] }, [0x50, mps, mtu, 5]));
        assert!(channels.room().iter().all(|octet| *octet == 0x77));
        assert_eq!(slot(&channels, SLOT).hold, 1);
    }
}

/// Frames of each length beside our MPS: a job's first, and a later one. What a frame above it leaves is what each 9 leaves.
#[test]
fn frames_are_held_to_our_mps() {
    for mps in [0_u16, 1, 2, 3, 22, 23, 24, 40] {
        for (len, later) in [mps.saturating_sub(1), mps, mps + 1].into_iter().flat_map(|len| [(len, false), (len, true)]) {
            let mut room = [0; ROOM];
            let mut channels = made(&mut room);
            let config = L2capChannelConfig { mps: Some(mps), initial_credits: Some(9), ..Default::default() };
            let index = open(&mut channels, PHONE, &request(0x50, 100, 23, 5), &config);
            assert_eq!(channels.mps(index), Ok(mps));
            // A job of 4 octets waits, and where the frame is a later one, 1 of 58 octets is here. By hand: an MPS of 0 lets no frame in.
            let (table, room) = channels.into_parts();
            let mut octets = *table.octets();
            octets[cell(0, 30)] = 1;
            put(&mut octets, 0, 31, 4);
            room[PLACE..PLACE + 4].fill(0xAA);
            if later {
                put(&mut octets, 0, 26, 1);
                put(&mut octets, 0, 28, 58);
                room[0] = 0xBB;
            }
            let before = room.to_vec();
            let mut channels = ChannelManager::from_parts(Table::from_octets(octets), room);
            let mut payload = vec![0xCC; len.into()];
            payload.iter_mut().zip(len.saturating_sub(2).to_le_bytes()).for_each(|(octet, of_length)| *octet = of_length);

            let (mut wanted, mut places) = (octets, before);
            put(&mut wanted, 0, 13, 8);
            put(&mut wanted, 0, 15, 1);
            put_tally(&mut wanted, 0, RECEIVED, 1);
            let refused = if len > mps {
                Err(Refusal::InvalidValue)
            } else if !later && len < 2 {
                Err(Refusal::ShortFrame)
            } else {
                Ok(())
            };
            match refused {
                Err(_) => {
                    wanted = changed(wanted, [6, 0], [0x50, 23, 100, 5]);
                    put_tally(&mut wanted, 0, RECEIVED, 0);
                    put(&mut wanted, 0, 26, 0);
                    put(&mut wanted, 0, 28, 0);
                    places[0] = 0;
                }
                Ok(()) if later => {
                    put(&mut wanted, 0, 26, 1 + len);
                    places[1..1 + payload.len()].copy_from_slice(&payload);
                }
                Ok(()) => {
                    wanted[cell(0, 30)] = 2;
                    put(&mut wanted, 0, 33, len - 2);
                    places[2 * PLACE..2 * PLACE + payload.len() - 2].copy_from_slice(&payload[2..]);
                }
            }
            let start = Table::from_octets(octets);
            let what = format!("{len} octets, MPS {mps}, later {later}");
            assert_eq!(channels.dispatch(PHONE, index.cid(), &payload), refused, "{what}");
            assert!(channels.table().octets() == &wanted, "{what}");
            assert!(channels.room() == places, "{what}");

            // In a run it is the frame's own answer, and the run goes on: a frame of no channel behind it is refused by 7.
            let mut run_room = [0; ROOM];
            run_room[PLACE..PLACE + 4].fill(0xAA);
            run_room[0] = if later { 0xBB } else { 0 };
            let mut channels = ChannelManager::from_parts(start, &mut run_room);
            let (mut run, mut answers) = ([0; 128], [[0; ANSWER_OCTETS]; 2]);
            let mut run = FrameRun::new(&mut run);
            run.push(PHONE, index.cid(), &payload).unwrap();
            run.push(PHONE, Cid(0x3F), &payload).unwrap();
            let came: Vec<_> = channels.dispatch_run(&mut run, &mut answers).unwrap().collect();
            assert_eq!(came, [refused, Err(Refusal::InvalidChannelId)], "{what}");
            assert!(channels.table().octets() == &wanted && channels.room() == places, "{what}");
        }
    }
}

/// A whole job of 22 octets in a frame of 24.
fn long() -> Vec<u8> {
    [&[22, 0][..], &[b'j'; 22]].concat()
}

/// What comes before: no slot, another's channel, no credit. What comes behind: a full queue. Of a channel that isn't open a frame is dropped, however long.
#[test]
fn what_a_long_frame_is_refused_by() {
    let long = long();
    for (credits, waiting, refusal) in [(0, 0, Refusal::OutOfMemory), (9, 2, Refusal::InvalidValue)] {
        let mut room = [0; ROOM];
        let mut channels = made(&mut room);
        let config = L2capChannelConfig { mps: Some(23), initial_credits: Some(credits), ..Default::default() };
        let index = open(&mut channels, PHONE, &request(0x50, 100, 23, 5), &config);
        for _ in 0..waiting {
            channels.dispatch(PHONE, index.cid(), &[0, 0]).unwrap();
        }
        unchanged(&mut channels, Refusal::InvalidChannelId, |channels| channels.dispatch(PHONE, Cid(0x42), &long));
        unchanged(&mut channels, Refusal::NotFound, |channels| channels.dispatch(OTHER, index.cid(), &long));
        assert_eq!(channels.dispatch(PHONE, index.cid(), &long), Err(refusal));
        let left = slot(&channels, index);
        assert_eq!((left.state == ChannelState::Connected, left.waiting), (refusal == Refusal::OutOfMemory, waiting));
    }
    let mut room = [0; ROOM];
    let mut channels = made(&mut room);
    let before = state(&channels);
    assert_eq!(channels.dispatch(PHONE, SLOT.cid(), &[0; 2000]), Ok(()));
    assert!(before == state(&channels));
}

/// The channel ends, and with it the job of ours that was being handed over.
#[test]
fn a_long_frame_closes_our_job() {
    let mut room = [0; ROOM];
    let mut channels = made(&mut room);
    let config = L2capChannelConfig { mps: Some(23), ..Default::default() };
    let index = open(&mut channels, PHONE, &request(0x50, 100, 23, 5), &config);
    let mut buffer = [0; 27];
    let mut job = channels.start_job(index, 40, &mut buffer).unwrap();
    assert_eq!(channels.dispatch(PHONE, index.cid(), &long()), Err(Refusal::InvalidValue));
    let left = slot(&channels, index);
    assert_eq!((left.state, left.job, left.peer_credits), (ChannelState::Disconnecting(false), None, 3));
    unchanged(&mut channels, Refusal::ChannelClosed, |channels| job.give(channels, &[1]).map(|_| ()));
}

/// What we offer ourselves is written as it is asked for, and a manager of this crate turns it down.
#[test]
fn our_own_offers() {
    for (mtu, mps) in [(22, 23), (23, 22), (0, 0), (23, 23)] {
        let config = L2capChannelConfig { mtu: Some(mtu), mps: Some(mps), initial_credits: Some(9), ..Default::default() };
        let below = mtu.min(mps) < SIZE_LEAST;
        assert_eq!(config.checked(2, 64).err(), below.then_some(ConfigError::TooSmall));
        let (mut ours, mut theirs) = ([0; ROOM], [0; ROOM]);
        let (mut us, mut peer) = (made(&mut ours), made(&mut theirs));
        let (mut ask, mut agree) = ([0; SIGNAL_OCTETS], [0; SIGNAL_OCTETS]);

        // We ask.
        let asked = us.create(PHONE, SPSM, &config, &mut ask).unwrap();
        let told = peer.signal(PHONE, true, LeConnRole::Central, &asked.octets[4..], &mut agree);
        assert_eq!((told.outcome, told.reply.is_empty()), (Ok(None), !below));
        if below {
            let unacceptable = Refusal::ConnectError(LeCreditConnResultCode::UnacceptableParameters);
            assert_eq!(us.signal(PHONE, true, LeConnRole::Central, &told.reply[4..], &mut [0; SIGNAL_OCTETS]).outcome, Err(unacceptable));
            assert_eq!(us.opened(SLOT, PHONE, true), Err(unacceptable));
        }
        us.disconnected(PHONE).unwrap();
        peer.disconnected(PHONE).unwrap();

        // The peer asks, and we accept: it disconnects.
        let asked = peer.create(PHONE, SPSM, &L2capChannelConfig::default(), &mut ask).unwrap();
        assert_eq!(us.signal(PHONE, true, LeConnRole::Central, &asked.octets[4..], &mut agree).outcome, Ok(None));
        let hold = us.next_pending(PHONE, true).unwrap().unwrap();
        let accepted = us.accept_pending(hold.index(), &config, &mut agree).unwrap();
        let outcome = peer.signal(PHONE, true, LeConnRole::Central, &accepted.octets[4..], &mut [0; SIGNAL_OCTETS]).outcome;
        assert_eq!(outcome, if below { Err(Refusal::InvalidValue) } else { Ok(None) });
        if below {
            let due = peer.next_disconnect(&mut ask).unwrap().unwrap();
            assert_eq!(us.signal(PHONE, true, LeConnRole::Central, &due.octets[4..], &mut [0; SIGNAL_OCTETS]).outcome, Ok(None));
            let due = us.next_disconnect(&mut agree).unwrap().unwrap();
            assert_eq!(peer.signal(PHONE, true, LeConnRole::Central, &due.octets[4..], &mut [0; SIGNAL_OCTETS]).outcome, Ok(None));
            assert!(is_free(&slot(&us, SLOT)) && is_free(&slot(&peer, SLOT)));
        }
        hold.into_index();
    }
}

/// Numbers that look drawn, the same in every run.
struct Chance(u64);

impl Chance {
    fn of<T: Copy>(&mut self, from: &[T]) -> T {
        self.0 = self.0.wrapping_mul(6364136223846793005).wrapping_add(1442695040888963407);
        from[(self.0 >> 33) as usize % from.len()]
    }
}

/// Requests and responses of any numbers, accepted, opened and closed by chance: a slot that is pending or open has a peer with 23 and 23 at least, so that a job of
/// no octets is never refused by 20.
#[test]
fn no_run_leaves_a_channel_that_can_not_send() {
    let mut chance = Chance(23);
    let (mut pending, mut open, mut closing) = (0, 0, 0);
    for _ in 0..2_000 {
        let mut room = [0; ROOM];
        let mut channels = made(&mut room);
        for _ in 0..30 {
            let (mtu, mps) = (chance.of(&SIZES), chance.of(&SIZES));
            let last = channels.table().identifier().wrapping_sub(1);
            let index = ChannelIndex(chance.of(&[0, 1]));
            let usual = L2capChannelConfig::default();
            // Whatever each is refused by.
            let _ = match chance.of(&[0, 0, 1, 1, 2, 3, 3, 4, 5]) {
                0 => feed(&mut channels, PHONE, &request(chance.of(&[0x50, 0x51]), mtu, mps, 5))[0].0.err(),
                1 => feed(&mut channels, PHONE, &response(last, mtu, mps, chance.of(&[0, 0, 0, 4])))[0].0.err(),
                2 => channels.create(PHONE, SPSM, &usual, &mut BUFFER.clone()).err(),
                3 => {
                    let taken_up = channels.next_pending(PHONE, true).map(|hold| hold.map(Hold::into_index));
                    taken_up.and_then(|_| channels.accept_pending(index, &usual, &mut BUFFER.clone()).map(|_| ())).err()
                }
                4 => channels.next_disconnect(&mut BUFFER.clone()).err(),
                _ => channels.opened(index, PHONE, true).map(|hold| hold.map(Hold::into_index)).err(),
            };
            for index in [SLOT, ChannelIndex(1)] {
                let its = slot(&channels, index);
                match its.state {
                    ChannelState::PeerConnecting(_) => pending += 1,
                    ChannelState::Connected => open += 1,
                    ChannelState::Disconnecting(false) => closing += 1,
                    _ => continue,
                }
                let small = its.peer_mtu.min(its.peer_mps) < SIZE_LEAST;
                assert_eq!(small, its.state == ChannelState::Disconnecting(false), "{its:?}");
                assert_ne!(channels.send(index, &[], &mut []).err(), Some(Refusal::BadMps));
            }
        }
    }
    assert!(pending > 1000 && open > 1000 && closing > 1000, "{pending} pending, {open} open, {closing} closing");
}
