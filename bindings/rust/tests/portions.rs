//! Jobs handed over in portions: the frames of one send, wherever the portions are cut; what closes a job; buffers; values that outlive their job.

mod common;

use common::calls::HIGH;
use common::*;
use l2cap_channels::*;

const SECOND: ChannelIndex = ChannelIndex(1);

/// Octets that are each their own.
fn sdu(len: usize) -> Vec<u8> {
    (0..len).map(|k| (k % 251 + 1) as u8).collect()
}

/// A table with two open channels: the phone's of 5 credits, and the other's of so many.
fn two(room: &mut [u8], mtu: u16, mps: u16, credits: u16) -> ChannelManager<'_> {
    let mut channels = made(room);
    assert_eq!(opened(&mut channels), SLOT);
    assert_eq!(open(&mut channels, OTHER, &request(0x60, mtu, mps, credits), &L2capChannelConfig::default()), SECOND);
    channels
}

/// The frames of a job that is handed over in portions of these lengths, again and again; an octet behind the buffer must stay.
fn in_portions(channels: &mut ChannelManager<'_>, index: ChannelIndex, sdu: &[u8], cuts: &[usize]) -> Vec<u8> {
    let mps = slot(channels, index).peer_mps;
    let size = job_buffer_octets(mps, sdu.len());
    let mut buffer = vec![0x77; size + 1];
    let (lent, behind) = buffer.split_at_mut(size);
    let mut job = channels.start_job(index, sdu.len(), lent).expect("started");
    assert_eq!((job.index(), job.left(), job.frames(), job.is_done()), (index, sdu.len(), frames(sdu.len() as u16, mps).unwrap(), false));
    let (mut out, mut at, mut turns) = (Vec::new(), 0, cuts.iter().cycle());
    while !job.is_done() {
        let end = sdu.len().min(at + turns.next().unwrap());
        let to_come = job.frames();
        let given = job.give(channels, &sdu[at..end]).expect("given");
        assert_eq!(given.handle, slot(channels, index).handle);
        at += given.taken;
        out.extend(given.frame.unwrap_or_default());
        let (full, done) = (given.frame.is_some(), given.done);
        assert_eq!((job.left(), job.is_done()), (sdu.len() - at, done));
        assert_eq!(job.frames(), to_come - u16::from(full));
    }
    assert_eq!((at, &*behind), (sdu.len(), &[0x77][..]));
    out
}

/// Every length up to four frames, in portions of every length, and of mixed ones: frames and table are those of one send.
#[test]
fn the_same_frames() {
    for len in 0..=80 {
        let mut room = [0; ROOM];
        let mut channels = two(&mut room, 100, 23, 5);
        let start = channels.table().clone();
        let (sdu, mut out) = (sdu(len), [0; 256]);
        let sent = channels.send(SLOT, &sdu, &mut out).unwrap().octets;
        let after = channels.table().clone();
        let mixed = [vec![0, 1, 2, 0, 30], vec![21], vec![21, 23], vec![22, 1, 5], vec![100]];
        for cuts in (1..=24).map(|most| vec![most]).chain(mixed) {
            let mut room = [0; ROOM];
            let mut channels = ChannelManager::from_parts(start.clone(), &mut room);
            assert_eq!(in_portions(&mut channels, SLOT, &sdu, &cuts), sent, "{len} octets in {cuts:?}");
            assert!(*channels.table() == after, "{len} octets in {cuts:?}");
        }
    }
}

/// Frames above what a script's buffer of 4,096 octets holds, and the longest job.
#[test]
fn long_frames() {
    for (mps, len) in [(5_000, 12_000), (65_535, 65_533), (65_535, 6_000), (23, 65_533)] {
        let mut room = [0; ROOM];
        let mut channels = two(&mut room, 65_535, mps, 65_535);
        let start = channels.table().clone();
        let (sdu, mut out) = (sdu(len), vec![0; 76_935]);
        let sent = channels.send(SECOND, &sdu, &mut out).unwrap().octets;
        let after = channels.table().clone();
        for most in [997, 4_096, 70_000] {
            let mut room = [0; ROOM];
            let mut channels = ChannelManager::from_parts(start.clone(), &mut room);
            assert!(in_portions(&mut channels, SECOND, &sdu, &[most]) == sent, "{len} octets in frames of {mps}");
            assert!(*channels.table() == after);
        }
    }
}

/// A length that no slice has is above every MTU.
#[test]
fn stated_lengths() {
    let mut room = [0; ROOM];
    let mut channels = two(&mut room, 65_535, 23, 65_535);
    let mut buffer = [0x77; 27];
    for (len, refusal) in [
        (65_534, Refusal::TooLong),
        (65_535, Refusal::TooLong),
        (65_536, Refusal::InsufficientSpace),
        (usize::MAX, Refusal::InsufficientSpace),
    ] {
        unchanged(&mut channels, refusal, |channels| channels.start_job(SECOND, len, &mut buffer).map(|_| ()));
    }
    assert_eq!(buffer, [0x77; 27]);
    let job = channels.start_job(SECOND, 65_533, &mut buffer).unwrap();
    assert_eq!((job.left(), job.frames()), (65_533, 2_850));
}

/// A refused start leaves its buffer, and a cancel too, whatever stands there; a start writes six octets.
#[test]
fn buffers() {
    let mut room = [0; ROOM];
    let mut channels = with_peer_mps(two(&mut room, 100, 23, 5), SECOND, 22);
    let mut buffer = [0x77; 64];
    for (index, len, most) in [(SLOT, 5, 10), (SLOT, 21, 26), (SLOT, 101, 64), (SLOT, 100, 26), (SECOND, 1, 64), (ChannelIndex(2), 1, 64)] {
        let before = state(&channels);
        assert!(channels.start_job(index, len, &mut buffer[..most]).is_err());
        assert!(before == state(&channels) && buffer == [0x77; 64]);
    }
    let mut job = channels.start_job(SLOT, 5, &mut buffer).unwrap();
    assert_eq!(job.give(&mut channels, &[1, 2]), Ok(Given { handle: PHONE, taken: 2, frame: None, done: false }));
    job.cancel(&mut channels).unwrap();
    assert_eq!(buffer[..9], [7, 0, 0x50, 0, 5, 0, 1, 2, 0x77]);
    assert!(buffer[9..].iter().all(|octet| *octet == 0x77));
    // Behind a frame, what the frame before left stays.
    let mut job = channels.start_job(SLOT, 30, &mut buffer).unwrap();
    let first = job.give(&mut channels, &sdu(30)).unwrap();
    assert_eq!((first.taken, first.frame.map(<[u8]>::len)), (21, Some(27)));
    let second = job.give(&mut channels, &[0xAA; 9]).unwrap();
    assert_eq!((second.frame, second.done), (Some(&[9, 0, 0x50, 0, 0xAA, 0xAA, 0xAA, 0xAA, 0xAA, 0xAA, 0xAA, 0xAA, 0xAA][..]), true));
    assert_eq!(buffer[13..27], sdu(30)[7..21]);
    assert!(buffer[27..].iter().all(|octet| *octet == 0x77));
}

/// What a job is refused by, and that it goes on after it.
#[test]
fn refusals_of_a_job() {
    let mut room = [0; ROOM];
    let mut channels = two(&mut room, 100, 23, 5);
    let (mut buffer, mut another, mut out) = ([0; 64], [0x77; 64], [0x77; 64]);
    unchanged(&mut channels, Refusal::NotFound, |channels| channels.give_portion(SLOT, &[], &mut another).map(|_| ()));
    unchanged(&mut channels, Refusal::NotFound, |channels| channels.cancel_job(SLOT));
    let mut job = channels.start_job(SLOT, 25, &mut buffer).unwrap();
    unchanged(&mut channels, Refusal::JobOpen, |channels| channels.send(SLOT, &[1], &mut out).map(|_| ()));
    unchanged(&mut channels, Refusal::JobOpen, |channels| channels.start_job(SLOT, 1, &mut another).map(|_| ()));
    // In a run it is that job's own answer.
    let (mut run, mut answers) = ([0; 64], [[0; ANSWER_OCTETS]; 2]);
    let mut run = JobRun::new(&mut run);
    run.push(SLOT, &[1]).unwrap();
    run.push(SECOND, &[2]).unwrap();
    let sent: Vec<_> =
        channels.send_run(&mut run, &mut out, &mut answers).unwrap().map(|frames| frames.map(|frames| frames.count)).collect();
    assert_eq!(sent, [Err(Refusal::JobOpen), Ok(1)]);
    // The whole portion counts, though the call would have stopped at a frame.
    unchanged(&mut channels, Refusal::WrongLength, |channels| job.give(channels, &[1; 26]).map(|_| ()));
    unchanged(&mut channels, Refusal::WrongLength, |channels| job.give_all(channels, &[1; 26], |_, _| panic!("no frame")));
    unchanged(&mut channels, Refusal::NoRoom, |channels| channels.give_portion(SLOT, &[1; 26], &mut another[..26]).map(|_| ()));
    for _ in 0..3 {
        assert_eq!(job.give(&mut channels, &[]), Ok(Given { handle: PHONE, taken: 0, frame: None, done: false }));
    }
    let mut lengths = Vec::new();
    job.give_all(&mut channels, &sdu(25), |link, frame| lengths.push((link, frame.len()))).unwrap();
    assert_eq!(lengths, [(PHONE, 27), (PHONE, 8)]);
    assert!(job.is_done() && another == [0x77; 64]);
    // It is done: what comes is no part of it, also where the slot has another job open by now.
    assert_eq!(job.give(&mut channels, &[]).err(), Some(Refusal::NotFound));
    let mut next = channels.start_job(SLOT, 3, &mut another).unwrap();
    unchanged(&mut channels, Refusal::NotFound, |channels| job.give(channels, &[9]).map(|_| ()));
    unchanged(&mut channels, Refusal::NotFound, |channels| job.cancel(channels));
    assert_eq!(next.give(&mut channels, &[1, 2, 3]).unwrap().frame, Some(&[5, 0, 0x50, 0, 3, 0, 1, 2, 3][..]));
}

/// A job of no octets is one empty portion, and until then it is open.
#[test]
fn a_job_of_no_octets() {
    let mut room = [0; ROOM];
    let mut channels = two(&mut room, 100, 23, 5);
    let mut buffer = [0x77; 6];
    let mut job = channels.start_job(SLOT, 0, &mut buffer).unwrap();
    assert_eq!((job.left(), job.frames(), job.is_done()), (0, 1, false));
    assert_eq!(channels.send(SLOT, &[], &mut [0; 64]).err(), Some(Refusal::JobOpen));
    assert_eq!(job.give(&mut channels, &[1]).err(), Some(Refusal::WrongLength));
    let mut came: Vec<u8> = Vec::new();
    job.give_all(&mut channels, &[], |_, frame| came.extend(frame)).unwrap();
    assert_eq!(came, [2, 0, 0x50, 0, 0, 0]);
    assert!(job.is_done() && slot(&channels, SLOT).job.is_none());
}

/// Before the first frame a cancel gives every credit back, and the table is as before the start, but for the frames that this counted as sent; later the channel disconnects and none come back.
#[test]
fn cancels() {
    let mut room = [0; ROOM];
    let mut channels = two(&mut room, 100, 23, 5);
    let before = channels.table().clone();
    let mut buffer = [0; 27];
    for (given, sent) in [(0, 3), (1, 6), (20, 9)] {
        let mut job = channels.start_job(SLOT, 60, &mut buffer).unwrap();
        assert_eq!(slot(&channels, SLOT).peer_credits, 2);
        assert_eq!(job.give(&mut channels, &sdu(60)[..given]).unwrap().taken, given);
        job.cancel(&mut channels).unwrap();
        let mut wanted = *before.octets();
        put_tally(&mut wanted, 0, SENT, sent);
        assert!(channels.table().octets() == &wanted);
    }
    channels.dispatch(PHONE, SLOT.cid(), &[9, 0, 1, 2]).unwrap();
    let mut job = channels.start_job(SLOT, 60, &mut buffer).unwrap();
    assert!(job.give(&mut channels, &sdu(21)).unwrap().frame.is_some());
    job.cancel(&mut channels).unwrap();
    let left = slot(&channels, SLOT);
    assert_eq!((left.state, left.peer_credits, left.job, left.have), (ChannelState::Disconnecting(false), 2, None, 0));
    assert!(channels.room().iter().all(|octet| *octet == 0));
    unchanged(&mut channels, Refusal::ChannelClosed, |channels| channels.cancel_job(SLOT));
    let mut signal = [0; SIGNAL_OCTETS];
    assert_eq!(channels.next_disconnect(&mut signal).unwrap().unwrap().octets, [8, 0, 5, 0, 6, 1, 4, 0, 0x50, 0, 0x40, 0]);
}

/// A cancel is lent the room, which must be the table's.
#[test]
fn a_cancels_room() {
    let mut room = [0; ROOM];
    let mut channels = two(&mut room, 100, 23, 5);
    let mut buffer = [0; 27];
    let job = channels.start_job(SLOT, 60, &mut buffer).unwrap();
    let (table, _) = channels.into_parts();
    let mut short = [0x77; ROOM - 1];
    let mut channels = ChannelManager::from_parts(table, &mut short);
    unchanged(&mut channels, Refusal::BadRoom, |channels| channels.cancel_job(SLOT));
    unchanged(&mut channels, Refusal::BadRoom, |channels| channels.cancel_job(ChannelIndex(9)));
    unchanged(&mut channels, Refusal::BadRoom, |channels| job.cancel(channels));
}

/// Every way out of Connected closes the job, and returns none of its credits; the value that is left is of no use.
#[test]
fn leaving_closes_the_job() {
    type Leaves = fn(&mut ChannelManager<'_>);
    let ways: [(&str, Leaves); 9] = [
        ("a disconnect", |channels| channels.disconnect(SLOT).unwrap()),
        ("a disconnect by CID", |channels| channels.disconnect_by_cid(SLOT.cid()).unwrap()),
        ("the last hold", |channels| channels.dec_ref(Hold::of(SLOT)).unwrap()),
        ("a short frame", |channels| assert_eq!(channels.dispatch(PHONE, SLOT.cid(), &[]), Err(Refusal::ShortFrame))),
        ("a frame past its job", |channels| assert_eq!(channels.dispatch(PHONE, SLOT.cid(), &[0, 0, 1]), Err(Refusal::InvalidValue))),
        ("too many credits", |channels| {
            assert_eq!(feed(channels, PHONE, "160904005000ffff"), [(Err(Refusal::InvalidValue), String::new())])
        }),
        ("the peer's request", |channels| assert_eq!(feed(channels, PHONE, "0621040040005000"), [(Ok(None), String::new())])),
        ("the link", |channels| channels.disconnected(PHONE).unwrap()),
        ("the opened query", |channels| assert_eq!(channels.opened(SLOT, PHONE, false), Err(Refusal::Disconnected))),
    ];
    for (what, leave) in ways {
        let mut room = [0; ROOM];
        let mut channels = two(&mut room, 100, 23, 5);
        let (mut buffer, mut another) = ([0; 27], [0; 27]);
        let mut job = channels.start_job(SLOT, 40, &mut buffer).unwrap();
        let mut other = channels.start_job(SECOND, 40, &mut another).unwrap();
        assert_eq!(job.give(&mut channels, &sdu(5)).unwrap().taken, 5);
        leave(&mut channels);
        let left = slot(&channels, SLOT);
        assert!(left.state != ChannelState::Connected && left.job.is_none(), "{what}");
        assert!([0, 3].contains(&left.peer_credits), "{what}");
        unchanged(&mut channels, Refusal::ChannelClosed, |channels| job.give(channels, &[1]).map(|_| ()));
        unchanged(&mut channels, Refusal::ChannelClosed, |channels| job.cancel(channels));
        // The other slot's job goes on.
        assert_eq!(other.give(&mut channels, &sdu(40)).unwrap().frame.map(<[u8]>::len), Some(27), "{what}");
    }
}

/// The slot's next owner has a job open: the value of the last owner's doesn't touch it.
#[test]
fn a_value_that_outlived_its_channel() {
    let mut room = [0; ROOM];
    let mut channels = made(&mut room);
    opened(&mut channels);
    let (mut buffer, mut another) = ([0; 27], [0; 27]);
    let mut job = channels.start_job(SLOT, 40, &mut buffer).unwrap();
    channels.disconnected(PHONE).unwrap();
    channels.dec_ref(Hold::of(SLOT)).unwrap();
    assert_eq!(open(&mut channels, OTHER, &request(0x50, 100, 23, 5), &L2capChannelConfig::default()), SLOT);
    let mut next = channels.start_job(SLOT, 40, &mut another).unwrap();
    unchanged(&mut channels, Refusal::NotFound, |channels| job.give(channels, &[1; 30]).map(|_| ()));
    unchanged(&mut channels, Refusal::NotFound, |channels| job.cancel(channels));
    assert_eq!(next.give(&mut channels, &sdu(40)).unwrap().handle, OTHER);
}

/// A value that is dropped calls nothing: the job stays open. Who has its buffer goes on by its slot; or it is cancelled so.
#[test]
fn a_value_that_is_dropped() {
    let mut room = [0; ROOM];
    let mut channels = two(&mut room, 100, 23, 5);
    let mut buffer = [0; 27];
    let _ = channels.start_job(SLOT, 3, &mut buffer).unwrap().give(&mut channels, &[1]).unwrap();
    assert_eq!(channels.send(SLOT, &[1], &mut [0; 64]).err(), Some(Refusal::JobOpen));
    let given = channels.give_portion(SLOT, &[2, 3], &mut buffer).unwrap();
    assert_eq!((given.frame, given.done), (Some(&[5, 0, 0x50, 0, 3, 0, 1, 2, 3][..]), true));
    let _ = channels.start_job(SLOT, 3, &mut buffer).unwrap();
    channels.cancel_job(SLOT).unwrap();
    assert_eq!(slot(&channels, SLOT).peer_credits, 4);
}

/// Credits set aside count in the sum of a credit signal, and fall with each frame.
#[test]
fn credits_set_aside_count() {
    for (given, credits, refused) in [(0, 1, true), (0, 0, false), (22, 1, false), (22, 2, true)] {
        let mut room = [0; ROOM];
        let mut channels = two(&mut room, 100, 23, 65_535);
        let mut buffer = [0; 27];
        let mut job = channels.start_job(SECOND, 22, &mut buffer).unwrap();
        let _ = job.give(&mut channels, &sdu(given)).unwrap();
        let pdu = format!("160904006000{credits:02x}00");
        assert_eq!(feed(&mut channels, OTHER, &pdu)[0].0, if refused { Err(Refusal::InvalidValue) } else { Ok(None) });
        let left = slot(&channels, SECOND);
        assert_eq!(left.peer_credits, if refused { 65_533 } else { 65_533 + credits });
        assert_eq!(left.job.is_none(), refused);
    }
}

/// An open job's numbers, and that it doesn't call. Other calls of its slot leave it alone.
#[test]
fn other_calls_go_on() {
    let mut room = [0; ROOM];
    let mut channels = two(&mut room, 100, 23, 5);
    let (mut buffer, mut taken, mut signal) = ([0; 27], [0; PLACE], [0; SIGNAL_OCTETS]);
    let mut job = channels.start_job(SLOT, 30, &mut buffer).unwrap();
    assert_eq!(job.give(&mut channels, &sdu(30)).unwrap().taken, 21);
    assert_eq!(job.give(&mut channels, &sdu(30)[21..25]).unwrap().taken, 4);
    assert_eq!(slot(&channels, SLOT).job, Some(JobNumbers { length: 30, taken: 25, filled: 4, aside: 1 }));
    assert_eq!(channels.attention().unwrap().count, 0);
    channels.dispatch(PHONE, SLOT.cid(), &[1, 0, 9]).unwrap();
    assert_eq!(channels.receive(SLOT, &mut taken, &mut signal).unwrap().unwrap().sdu, [9]);
    assert_eq!(feed(&mut channels, PHONE, "1609040050000500"), [(Ok(None), String::new())]);
    channels.inc_ref(SLOT).unwrap().into_index();
    assert_eq!(channels.dispatch(HIGH, SLOT.cid(), &[]), Err(Refusal::BadHandle));
    assert_eq!(job.give(&mut channels, &sdu(30)[25..]).unwrap().frame.unwrap()[4..], sdu(30)[21..]);
    assert_eq!(slot(&channels, SLOT).peer_credits, 8);
}

/// Two open jobs that share a buffer: who sees to that is the caller. Each frame has what stands in the buffer, and the tables are as ever.
#[test]
fn a_shared_buffer() {
    let mut room = [0; ROOM];
    let mut channels = two(&mut room, 100, 23, 5);
    let mut buffer = [0; 27];
    let _ = channels.start_job(SLOT, 5, &mut buffer).unwrap();
    let _ = channels.start_job(SECOND, 4, &mut buffer).unwrap();
    let given = channels.give_portion(SLOT, &[1, 2, 3, 4, 5], &mut buffer).unwrap();
    assert_eq!((given.handle, given.frame), (PHONE, Some(&[6, 0, 0x60, 0, 4, 0, 1, 2, 3, 4, 5][..])));
    let given = channels.give_portion(SECOND, &[6, 7], &mut buffer).unwrap();
    assert_eq!((given.taken, given.frame), (2, None));
    assert_eq!(buffer[..11], [6, 0, 0x60, 0, 4, 0, 6, 7, 3, 4, 5]);
}

/// A kept table goes on with the buffer as it was.
#[test]
fn a_job_that_was_kept() {
    let mut room = [0; ROOM];
    let mut channels = two(&mut room, 100, 23, 5);
    let mut buffer = [0; 27];
    let mut job = channels.start_job(SLOT, 4, &mut buffer).unwrap();
    assert_eq!(job.give(&mut channels, &[1, 2]).unwrap().taken, 2);
    let (table, room) = channels.into_parts();
    let mut channels = ChannelManager::from_parts(Table::from_octets(*table.octets()), room);
    assert_eq!(job.give(&mut channels, &[3, 4]).unwrap().frame, Some(&[6, 0, 0x50, 0, 4, 0, 1, 2, 3, 4][..]));
}
