//! The tallies of a slot: what each counts, when they are zeros again, and that they wrap. After every call they are compared with the rule's, and the look at the table with
//! what the entries say.

mod common;

use common::calls::{busy, one_frame, BUFFER};
use common::*;
use l2cap_channels::*;

const NONE: Tallies = Tallies { sent: 0, received: 0, blocked_sends: 0, blocked_receives: 0 };
/// Numbers of which every octet shows.
const MARKS: Tallies = Tallies {
    sent: 0x0102_0304_0506_0708,
    received: 0x1112_1314_1516_1718,
    blocked_sends: 0x2122_2324_2526_2728,
    blocked_receives: 0x3132_3334_3536_3738,
};
const SECOND: ChannelIndex = ChannelIndex(1);

/// What the entries say of a slot, which is what the table shows, and changes nothing.
fn tallies(channels: &ChannelManager<'_>, index: ChannelIndex) -> Tallies {
    let before = state(channels);
    let said = channels.tallies(index).expect("tallies");
    assert_eq!(said, slot(channels, index).tallies);
    assert!(before == state(channels), "a question changed table or room");
    said
}

/// The usual channel in slot 0, one of another phone in slot 1, and tallies with a mark in both.
fn marked(room: &mut [u8]) -> ChannelManager<'_> {
    let mut channels = made(room);
    assert_eq!(opened(&mut channels), SLOT);
    assert_eq!(open(&mut channels, OTHER, &request(0x50, 100, 23, 5), &L2capChannelConfig::default()), SECOND);
    assert_eq!((tallies(&channels, SLOT), tallies(&channels, SECOND)), (NONE, NONE));
    with_tallies(with_tallies(channels, SLOT, MARKS), SECOND, MARKS)
}

#[test]
fn sends_are_counted_in_frames() {
    let mut room = [0; ROOM];
    let mut channels = made(&mut room);
    let (index, mut out) = (opened(&mut channels), [0x77; 128]);
    channels.send(index, &[1; 3], &mut out).unwrap();
    assert_eq!(tallies(&channels, index), Tallies { sent: 1, ..NONE });
    channels.send(index, &[1; 22], &mut out).unwrap();
    assert_eq!(tallies(&channels, index), Tallies { sent: 3, ..NONE });
    // Two credits are left, and 60 octets are three frames: blocked once, not three times.
    let mut out = [0x77; 128];
    blocked(&mut channels, index, Refusal::Busy, |channels| channels.send(index, &[1; 60], &mut out).map(|_| ()));
    blocked(&mut channels, index, Refusal::Busy, |channels| channels.start_job(index, 60, &mut out).map(|_| ()));
    assert_eq!((tallies(&channels, index), out), (Tallies { sent: 3, blocked_sends: 2, ..NONE }, [0x77; 128]));
    for (refusal, size, length) in [(Refusal::NoRoom, 7, 2), (Refusal::InsufficientSpace, 128, 101)] {
        unchanged(&mut channels, refusal, |channels| channels.send(index, &vec![1; length], &mut out[..size]).map(|_| ()));
        unchanged(&mut channels, refusal, |channels| channels.start_job(index, length, &mut out[..size]).map(|_| ()));
    }
    unchanged(&mut channels, Refusal::ChannelClosed, |channels| channels.send(SECOND, &[1; 60], &mut out).map(|_| ()));
}

#[test]
fn a_job_in_portions_is_counted_at_its_start() {
    let mut room = [0; ROOM];
    let mut channels = made(&mut room);
    let (index, mut buffer) = (opened(&mut channels), [0; 27]);
    let job = channels.start_job(index, 30, &mut buffer).unwrap();
    assert_eq!(tallies(&channels, index), Tallies { sent: 2, ..NONE });
    unchanged(&mut channels, Refusal::JobOpen, |channels| channels.send(index, &[1; 100], &mut []).map(|_| ()));
    // Cancelled before its first frame: the credits come back, and the tally stays.
    job.cancel(&mut channels).unwrap();
    assert_eq!((slot(&channels, index).peer_credits, tallies(&channels, index)), (5, Tallies { sent: 2, ..NONE }));
    let mut job = channels.start_job(index, 30, &mut buffer).unwrap();
    for octet in 0..30 {
        let mut frames = 0;
        job.give_all(&mut channels, &[octet], |_, _| frames += 1).unwrap();
        assert_eq!(tallies(&channels, index), Tallies { sent: 4, ..NONE }, "octet {octet}, {frames} frames");
    }
    assert!(job.is_done());
    // The last credit, for one frame of a job; cancelled behind a frame the channel ends, and its tallies with it.
    let mut channels = with_tallies(channels, index, MARKS);
    feed(&mut channels, PHONE, "1608040050000500");
    let mut job = channels.start_job(index, 30, &mut buffer).unwrap();
    assert!(job.give(&mut channels, &[0; 30]).unwrap().frame.is_some());
    assert_eq!(tallies(&channels, index), Tallies { sent: MARKS.sent + 2, ..MARKS });
    job.cancel(&mut channels).unwrap();
    assert_eq!(tallies(&channels, index), NONE);
}

#[test]
fn frames_are_counted_with_their_credits() {
    let (table, mut room) = busy();
    let mut channels = ChannelManager::from_parts(table, &mut room);
    // A whole job and half of another came, and both credits are used.
    assert_eq!(tallies(&channels, SLOT), Tallies { received: 2, ..NONE });
    blocked(&mut channels, SLOT, Refusal::OutOfMemory, |channels| channels.dispatch(PHONE, SLOT.cid(), &[4]));
    assert_eq!(tallies(&channels, SLOT), Tallies { received: 2, blocked_receives: 1, ..NONE });
    unchanged(&mut channels, Refusal::NotFound, |channels| channels.dispatch(OTHER, SLOT.cid(), &[4]));
    unchanged(&mut channels, Refusal::InvalidChannelId, |channels| channels.dispatch(PHONE, Cid(0x42), &[4]));
    let before = state(&channels);
    channels.dispatch(PHONE, SECOND.cid(), &[4]).unwrap();
    assert!(before == state(&channels), "a frame of no open channel was counted");

    // A job that is dropped since two wait has used its credit.
    let mut room = [0; ROOM];
    let mut channels = made(&mut room);
    open(&mut channels, PHONE, &request(0x50, 100, 23, 5), &L2capChannelConfig { initial_credits: Some(9), ..Default::default() });
    for came in 1..=2 {
        channels.dispatch(PHONE, SLOT.cid(), &[0, 0]).unwrap();
        assert_eq!(tallies(&channels, SLOT), Tallies { received: came, ..NONE });
    }
    assert_eq!(channels.dispatch(PHONE, SLOT.cid(), &[0, 0]), Err(Refusal::QueueFull));
    assert_eq!(tallies(&channels, SLOT), Tallies { received: 3, ..NONE });
    // A take, credits and an identifier used count nothing.
    channels.receive(SLOT, &mut [], &mut BUFFER.clone()).unwrap().expect("a job");
    feed(&mut channels, PHONE, "1608040050000500");
    assert_eq!(tallies(&channels, SLOT), Tallies { received: 3, ..NONE });
    let mut octets = [0; 8];
    let mut run = one_frame(&mut octets, PHONE);
    assert!(channels.dispatch_run(&mut run, &mut [[0; ANSWER_OCTETS]]).unwrap().all(|came| came.is_ok()));
    assert_eq!(tallies(&channels, SLOT), Tallies { received: 4, ..NONE });
}

/// What ends an open channel from our side; `made` is what comes before.
#[test]
fn our_side_ends_a_channel_and_its_tallies() {
    type Ending = fn(&mut ChannelManager<'_>) -> Result<(), Refusal>;
    let invalid = Err(Refusal::InvalidValue);
    let endings: [(&str, Ending, Result<(), Refusal>); 8] = [
        ("disconnect", |channels| channels.disconnect(SLOT), Ok(())),
        ("by CID", |channels| channels.disconnect_by_cid(SLOT.cid()), Ok(())),
        ("the last hold", |channels| ended(channels.dec_ref(Hold::of(SLOT))), Ok(())),
        ("above our MPS", |channels| channels.dispatch(PHONE, SLOT.cid(), &[0; 61]), invalid),
        ("above our MTU", |channels| channels.dispatch(PHONE, SLOT.cid(), &[59, 0]), invalid),
        ("an overrun", |channels| channels.dispatch(PHONE, SLOT.cid(), &[1, 0, 1, 2]), invalid),
        ("a short frame", |channels| channels.dispatch(PHONE, SLOT.cid(), &[1]), Err(Refusal::ShortFrame)),
        ("an overflow", |channels| feed(channels, PHONE, "160804005000ffff")[0].0.map(|_| ()), invalid),
    ];
    for (name, ending, answer) in endings {
        let mut room = [0; ROOM];
        let mut channels = marked(&mut room);
        assert_eq!(ending(&mut channels), answer, "{name}");
        assert_eq!(slot(&channels, SLOT).state, ChannelState::Disconnecting(false), "{name}");
        assert_eq!((tallies(&channels, SLOT), tallies(&channels, SECOND)), (NONE, MARKS), "{name}");
    }
    // A hold that isn't the last ends nothing, and nothing ends twice.
    let mut room = [0; ROOM];
    let mut channels = marked(&mut room);
    let hold = channels.inc_ref(SLOT).unwrap();
    channels.dec_ref(hold).unwrap();
    assert_eq!(tallies(&channels, SLOT), MARKS);
    channels.disconnect(SLOT).unwrap();
    let mut channels = with_tallies(channels, SLOT, MARKS);
    channels.disconnect(SLOT).unwrap();
    channels.disconnect_by_cid(SLOT.cid()).unwrap();
    ended(channels.dec_ref(Hold::of(SLOT))).unwrap();
    assert_eq!(tallies(&channels, SLOT), MARKS);
}

/// The peer's disconnect leaves them, and whatever frees the slot behind it doesn't. The next owner begins at zeros.
#[test]
fn the_peer_ends_a_channel_and_its_tallies_stand() {
    type Freeing = fn(&mut ChannelManager<'_>);
    let frees: [(&str, Freeing); 3] = [
        ("next disconnect", |channels| assert_eq!(channels.next_disconnect(&mut BUFFER.clone()).unwrap().unwrap().index, SLOT)),
        ("opened", |channels| assert_eq!(channels.opened(SLOT, PHONE, true).map(|_| ()), Err(Refusal::Disconnected))),
        ("link down", |channels| channels.disconnected(PHONE).unwrap()),
    ];
    for (name, free) in frees {
        let mut room = [0; ROOM];
        let mut channels = marked(&mut room);
        feed(&mut channels, PHONE, "0608040040005000");
        assert_eq!((tallies(&channels, SLOT), tallies(&channels, SECOND)), (MARKS, MARKS), "{name}");
        channels.disconnect(SLOT).unwrap();
        assert_eq!(tallies(&channels, SLOT), MARKS, "{name}");
        free(&mut channels);
        assert_eq!((tallies(&channels, SLOT), tallies(&channels, SECOND)), (NONE, MARKS), "{name}");
        ended(channels.dec_ref(Hold::of(SLOT))).unwrap();
        let third = ConnHandle(3);
        assert_eq!(open(&mut channels, third, &request(0x60, 100, 23, 5), &L2capChannelConfig::default()), SLOT);
        assert_eq!(tallies(&channels, SLOT), NONE, "{name}: the next owner");
        channels.dispatch(third, SLOT.cid(), &[0, 0]).unwrap();
        assert_eq!((tallies(&channels, SLOT), tallies(&channels, SECOND)), (Tallies { received: 1, ..NONE }, MARKS));
    }
}

#[test]
fn each_wraps_by_itself_and_has_64_bits() {
    for start in [u64::MAX, u64::from(u32::MAX), u64::from(u16::MAX)] {
        let all = Tallies { sent: start, received: start, blocked_sends: start, blocked_receives: start };
        let more = |more: u64| start.wrapping_add(more);
        let (mut room, mut out) = ([0; ROOM], [0; 128]);
        let mut channels = made(&mut room);
        open(&mut channels, PHONE, &request(0x50, 100, 23, 3), &L2capChannelConfig { initial_credits: Some(1), ..Default::default() });
        open(&mut channels, OTHER, &request(0x50, 100, 23, 3), &L2capChannelConfig::default());
        let mut channels = with_tallies(with_tallies(channels, SLOT, all), SECOND, all);
        channels.dispatch(PHONE, SLOT.cid(), &[0, 0]).unwrap();
        assert_eq!(tallies(&channels, SLOT), Tallies { received: more(1), ..all });
        blocked(&mut channels, SLOT, Refusal::OutOfMemory, |channels| channels.dispatch(PHONE, SLOT.cid(), &[0, 0]));
        blocked(&mut channels, SLOT, Refusal::Busy, |channels| channels.send(SLOT, &[0; 100], &mut out).map(|_| ()));
        channels.send(SLOT, &[0; 60], &mut out).unwrap();
        let counted = Tallies { sent: more(3), received: more(1), blocked_sends: more(1), blocked_receives: more(1) };
        assert_eq!((tallies(&channels, SLOT), tallies(&channels, SECOND)), (counted, all));
    }
}

/// Any octets are tallies: they make no table bad, and are shown as they stand.
#[test]
fn any_octets_are_tallies() {
    let (table, room) = busy();
    for (column, octet) in (SENT..BLOCKED_RECEIVES + 8).flat_map(|column| (0..=255).map(move |octet| (column, octet))) {
        let (mut octets, mut room) = (*table.octets(), room.clone());
        octets[cell(0, column)] = octet;
        octets[cell(15, column)] = !octet;
        let channels = ChannelManager::from_parts(Table::from_octets(octets), &mut room);
        assert!(channels.attention().is_ok());
        let shown = tallies(&channels, SLOT);
        let [sent, blocked_sends, received, blocked_receives] = [SENT, BLOCKED_SENDS, RECEIVED, BLOCKED_RECEIVES]
            .map(|from| u64::from_le_bytes(core::array::from_fn(|k| octets[cell(0, from + k)])));
        assert_eq!(shown, Tallies { sent, received, blocked_sends, blocked_receives });
    }
}

struct Chance(u64);

impl Chance {
    fn of<T: Copy>(&mut self, from: &[T]) -> T {
        self.0 = self.0.wrapping_mul(6364136223846793005).wrapping_add(1442695040888963407);
        from[(self.0 >> 33) as usize % from.len()]
    }
}

/// What a call by chance adds to a slot's tallies, by its answer. `out` has room for every frame, or for none.
fn any_call(chance: &mut Chance, channels: &mut ChannelManager<'_>, buffers: &mut [[u8; 128]; 2]) -> (ChannelIndex, Tallies) {
    let link = chance.of(&[PHONE, PHONE, OTHER]);
    let index = chance.of(&[SLOT, SLOT, SECOND]);
    let open = slot(channels, index).state == ChannelState::Connected;
    let (mut signal, mut out) = (BUFFER, [0; 256]);
    let mut added = NONE;
    match chance.of(&[0, 0, 0, 1, 1, 2, 2, 3, 4, 5, 5, 6, 7, 8, 9, 10, 11, 12]) {
        0 => {
            let payload: &[u8] = chance.of(&[&[0, 0], &[2, 0, 1, 2], &[2, 0, 1], &[2, 0, 1, 2], &[7], &[1, 0, 1, 2], &[]]);
            match channels.dispatch(link, index.cid(), payload) {
                Ok(()) | Err(Refusal::QueueFull) if open => added.received = 1,
                Err(Refusal::OutOfMemory) => added.blocked_receives = 1,
                _ => {}
            }
        }
        1 => {
            let (length, most) = (chance.of(&[0, 21, 22, 60, 101]), chance.of(&[5, 256, 256]));
            match channels.send(index, &vec![1; length], &mut out[..most]) {
                Ok(frames) => added.sent = frames.count.into(),
                Err(Refusal::Busy) => added.blocked_sends = 1,
                Err(_) => {}
            }
        }
        2 => {
            let (length, most) = (chance.of(&[0, 21, 22, 60, 101]), chance.of(&[5, 128, 128]));
            match channels.start_job(index, length, &mut buffers[usize::from(index.0)][..most]) {
                Ok(job) => added.sent = job.frames().into(),
                Err(Refusal::Busy) => added.blocked_sends = 1,
                Err(_) => {}
            }
        }
        3 => drop(channels.give_portion(index, &[1; 60][..chance.of(&[0, 1, 22])], &mut buffers[usize::from(index.0)])),
        4 => drop(channels.cancel_job(index)),
        5 => {
            // One signal a call: two of one PDU could end a channel by us and then by the peer.
            let pdus = ["1608040050000200", "0608040040005000", "0608040041005000", "160804005000ffff", "0709040050004000"];
            feed(channels, link, chance.of(&pdus));
        }
        6 => drop(feed(channels, link, &request(0x50, 100, 23, chance.of(&[1, 5])))),
        7 | 8 => {
            if let Ok(Some(hold)) = channels.next_pending(link, true) {
                let pending = hold.into_index();
                let credits = Some(chance.of(&[1, 3, 9]));
                let _ =
                    channels.accept_pending(pending, &L2capChannelConfig { initial_credits: credits, ..Default::default() }, &mut signal);
            }
        }
        9 => drop(channels.next_disconnect(&mut signal)),
        10 => drop(channels.receive(index, &mut out, &mut signal)),
        11 => channels.disconnect(index).expect("a slot of the table"),
        _ => match chance.of(&[0, 1, 2, 3]) {
            0 => drop(channels.disconnected(link)),
            1 => drop(channels.opened(index, link, chance.of(&[true, false])).map(|hold| hold.map(Hold::into_index).is_some())),
            _ => drop(ended(channels.dec_ref(Hold::of(index)))),
        },
    }
    (index, added)
}

/// Many calls by chance. The rule: what a call adds, and zeros where an open channel is disconnecting now or a slot has no channel.
#[test]
fn runs_by_chance_follow_the_rule() {
    let (mut chance, mut buffers) = (Chance(23), [[0; 128]; 2]);
    let mut most = NONE;
    let (mut resets, mut stood) = (0, 0);
    for _ in 0..4_000 {
        let mut room = [0; ROOM];
        let mut channels = made(&mut room);
        open(&mut channels, PHONE, &request(0x50, 100, 23, 5), &L2capChannelConfig { initial_credits: Some(3), ..Default::default() });
        let mut wanted = [NONE; 2];
        for _ in 0..30 {
            let before = [SLOT, SECOND].map(|index| slot(&channels, index).state);
            let (at, added) = any_call(&mut chance, &mut channels, &mut buffers);
            for (index, before) in [SLOT, SECOND].into_iter().zip(before) {
                let tally = &mut wanted[usize::from(index.0)];
                if index == at {
                    tally.sent += added.sent;
                    tally.received += added.received;
                    tally.blocked_sends += added.blocked_sends;
                    tally.blocked_receives += added.blocked_receives;
                }
                let after = slot(&channels, index).state;
                let by_us = before == ChannelState::Connected && matches!(after, ChannelState::Disconnecting(_));
                if by_us || after == ChannelState::Disconnected {
                    resets += u32::from(*tally != NONE);
                    *tally = NONE;
                }
                stood += u32::from(matches!(after, ChannelState::PeerDisconnecting(_)) && *tally != NONE);
                assert_eq!(tallies(&channels, index), *tally, "slot {}: {before:?}, then {after:?}", index.0);
                let max = |a: u64, b: u64| a.max(b);
                most = Tallies {
                    sent: max(most.sent, tally.sent),
                    received: max(most.received, tally.received),
                    blocked_sends: max(most.blocked_sends, tally.blocked_sends),
                    blocked_receives: max(most.blocked_receives, tally.blocked_receives),
                };
            }
        }
    }
    // Every tally was counted in, and every kind of end was met.
    assert!([most.sent, most.received, most.blocked_sends, most.blocked_receives].iter().all(|tally| *tally >= 3), "{most:?}");
    assert!(resets > 1000 && stood > 1000, "{resets} resets, {stood} times they stood");
}
