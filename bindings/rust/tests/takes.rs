//! Jobs taken: whole, or refused by 12 with all as it was.

mod common;

use common::calls::BUFFER;
use common::*;
use l2cap_channels::*;

const PAINT: u8 = 0x77;

/// Jobs of these lengths, each of an octet of its own, wait in the usual channel: the first of 0xA0.
fn waiting<'r>(room: &'r mut [u8], mtu: u16, lengths: &[usize]) -> ChannelManager<'r> {
    let mut channels = made(room);
    open(
        &mut channels,
        PHONE,
        &request(0x50, 100, 23, 5),
        &L2capChannelConfig { mtu: Some(mtu), initial_credits: Some(9), ..Default::default() },
    );
    for (octet, length) in (0xA0..).zip(lengths) {
        bring(&mut channels, *length, octet).expect("a job");
    }
    channels
}

fn bring(channels: &mut ChannelManager<'_>, length: usize, octet: u8) -> Result<(), Refusal> {
    channels.dispatch(PHONE, SLOT.cid(), &[&(length as u16).to_le_bytes()[..], &vec![octet; length]].concat())
}

/// A take into so many octets: refused by this, and table, room and both buffers are as they were.
fn refused(channels: &mut ChannelManager<'_>, size: usize, refusal: Refusal) {
    let (mut job, mut signal) = (vec![PAINT; size], BUFFER);
    unchanged(channels, refusal, |channels| channels.receive(SLOT, &mut job, &mut signal).map(|_| ()));
    assert!(job.iter().all(|octet| *octet == PAINT), "{size} octets were lent, and written to");
    assert_eq!(signal, BUFFER);
}

/// A take into so many octets gives the whole job, of this octet, and writes none behind it. What it grants, in hex.
fn taken(channels: &mut ChannelManager<'_>, size: usize, length: usize, octet: u8) -> String {
    let (mut job, mut signal) = (vec![PAINT; size], BUFFER);
    let taken = channels.receive(SLOT, &mut job, &mut signal).expect("taken").expect("a job");
    assert_eq!((taken.handle, taken.sdu), (PHONE, &vec![octet; length][..]));
    let credits = hex(taken.credits);
    assert!(job[length..].iter().all(|octet| *octet == PAINT));
    assert!(signal[credits.len() / 2..] == BUFFER[credits.len() / 2..]);
    credits
}

/// Jobs of every length into buffers of every length.
#[test]
fn a_job_is_taken_whole_or_not_at_all() {
    let mut room = [0; ROOM];
    for length in 0..=PLACE {
        let (table, room) = {
            let channels = waiting(&mut room, 58, &[length, 3]);
            state(&channels)
        };
        for size in 0..=PLACE + 6 {
            let mut room = room.clone();
            let mut channels = ChannelManager::from_parts(table.clone(), &mut room);
            if size < length {
                refused(&mut channels, size, Refusal::InsufficientSpace);
            } else {
                assert_eq!(taken(&mut channels, size, length, 0xA0), "080005001601040040000200");
                assert_eq!(slot(&channels, SLOT).lens, [3, 0, 0, 0]);
                assert_eq!(taken(&mut channels, 3, 3, 0xA1), "");
            }
        }
    }
}

/// A buffer of the slot's MTU is never too short, be the channel open or disconnecting, and one octet less is for the longest job.
#[test]
fn the_mtu_always_suffices() {
    for mtu in [0, 1, 22, 23, 40, 57, 58] {
        for closes in [false, true] {
            for length in 0..=usize::from(mtu) {
                let mut room = [0; ROOM];
                let mut channels = waiting(&mut room, mtu, &[length]);
                if closes {
                    channels.disconnect(SLOT).unwrap();
                }
                let size = usize::from(channels.mtu(SLOT).unwrap());
                assert_eq!(size, usize::from(mtu));
                if length == size && length > 0 {
                    refused(&mut channels, size - 1, Refusal::InsufficientSpace);
                }
                assert_eq!(taken(&mut channels, size, length, 0xA0), if closes { "" } else { "080005001601040040000100" });
            }
        }
    }
}

/// After a 12: the job is the oldest still and keeps its place, the slot calls, and no identifier is used.
#[test]
fn a_refused_job_waits_on() {
    let mut room = [0; ROOM];
    let mut channels = waiting(&mut room, 58, &[6, 2]);
    let calls = Ok(Attention { set: Slots::from_bits(1), count: 1, lowest: Some(SLOT) });
    assert_eq!(channels.table().identifier(), 1);
    for round in 0..300 {
        // The second job would fit.
        refused(&mut channels, round % 6, Refusal::InsufficientSpace);
        assert_eq!(channels.attention(), calls);
    }
    assert_eq!(bring(&mut channels, 1, 0xFF), Err(Refusal::QueueFull));
    refused(&mut channels, 5, Refusal::InsufficientSpace);
    // The grant has the first identifier, and what comes behind it the second.
    assert_eq!(taken(&mut channels, 6, 6, 0xA0), "080005001601040040000300");
    let wish = ConnParamUpdateReq { interval_min: 6, interval_max: 12, latency: 0, timeout: 100 };
    assert_eq!(hex(channels.send_conn_param_update_req(PHONE, &wish, &mut BUFFER.clone()).unwrap().octets)[8..12], *"1202");
    refused(&mut channels, 1, Refusal::InsufficientSpace);
    assert_eq!(taken(&mut channels, 2, 2, 0xA1), "");
    assert_eq!(channels.attention(), Ok(Attention { set: Slots::from_bits(0), count: 0, lowest: None }));
}

/// No job waits: none, whatever the buffer.
#[test]
fn no_job_needs_no_buffer() {
    let mut room = [0; ROOM];
    let mut channels = waiting(&mut room, 58, &[]);
    for closes in [false, true] {
        if closes {
            channels.disconnect(SLOT).unwrap();
        }
        let before = state(&channels);
        for size in [0, 1, 58] {
            let (mut job, mut signal) = (vec![PAINT; size], BUFFER);
            assert_eq!(channels.receive(SLOT, &mut job, &mut signal), Ok(None));
            assert!(before == state(&channels) && job == vec![PAINT; size] && signal == BUFFER);
        }
    }
}

/// While a channel disconnects, at our wish and at the peer's, the same; nothing is granted.
#[test]
fn also_while_it_disconnects() {
    for ours in [true, false] {
        let mut room = [0; ROOM];
        let mut channels = waiting(&mut room, 58, &[3, 1]);
        if ours {
            channels.disconnect(SLOT).unwrap();
        } else {
            feed(&mut channels, PHONE, "0608040040005000");
        }
        refused(&mut channels, 2, Refusal::InsufficientSpace);
        refused(&mut channels, 0, Refusal::InsufficientSpace);
        assert_eq!(taken(&mut channels, 3, 3, 0xA0), "");
        refused(&mut channels, 0, Refusal::InsufficientSpace);
        // A job that wasn't taken goes with our response, and waits on behind our request.
        channels.next_disconnect(&mut BUFFER.clone()).unwrap().unwrap();
        if ours {
            assert_eq!(taken(&mut channels, 1, 1, 0xA1), "");
        } else {
            refused(&mut channels, 0, Refusal::ChannelClosed);
            assert!(channels.room().iter().all(|octet| *octet == 0));
        }
    }
}

/// 1, 2, 3, 6 and 11 come before 12.
#[test]
fn the_others_come_first() {
    let mut room = [0; ROOM];
    let mut channels = waiting(&mut room, 58, &[3]);
    let mut signal = BUFFER;
    unchanged(&mut channels, Refusal::NoRoom, |channels| channels.receive(SLOT, &mut [0; 2], &mut signal[..17]).map(|_| ()));
    unchanged(&mut channels, Refusal::BadSlot, |channels| channels.receive(ChannelIndex(2), &mut [], &mut signal).map(|_| ()));
    unchanged(&mut channels, Refusal::ChannelClosed, |channels| channels.receive(ChannelIndex(1), &mut [], &mut signal).map(|_| ()));
    let (table, room) = state(&channels);
    let mut short = room[1..].to_vec();
    refused(&mut ChannelManager::from_parts(table.clone(), &mut short), 2, Refusal::BadRoom);
    // A job waits in an open or disconnecting slot alone; where octets say otherwise, 11 is given all the same. The states behind 6 are none.
    for state in 0..8 {
        let mut octets = *table.octets();
        (octets[cell(0, 0)], octets[cell(0, 1)]) = (state, if state == 4 { 2 } else { 0 });
        let due = match state {
            0 | 1 | 2 | 4 => Refusal::ChannelClosed,
            3 | 5 | 6 => Refusal::InsufficientSpace,
            _ => Refusal::BadTable,
        };
        refused(&mut ChannelManager::from_parts(Table::from_octets(octets), &mut room.clone()), 2, due);
    }
    // A slot that is freed has no job, and an MTU of 0.
    channels.disconnected(PHONE).unwrap();
    assert_eq!(channels.mtu(SLOT), Ok(0));
    refused(&mut channels, 0, Refusal::ChannelClosed);
}
