//! Octets that no call wrote, given as a table.

mod common;

use common::*;
use l2cap_channels::*;

/// A table with an open channel, a waiting job and half of another.
fn busy() -> ([u8; TABLE_OCTETS], Vec<u8>) {
    let mut room = [0; ROOM];
    let mut channels = made(&mut room);
    let index = opened(&mut channels);
    channels.dispatch(PHONE, index.cid(), &[2, 0, 1, 2]).unwrap();
    channels.dispatch(PHONE, index.cid(), &[4, 0, 3]).unwrap();
    (*channels.table().octets(), channels.room().to_vec())
}

/// Whether every kind of call refuses these octets by 1, and leaves them and the room as they were.
fn refused(octets: &[u8; TABLE_OCTETS], room: &[u8]) -> bool {
    let mut its_room = room.to_vec();
    let mut channels = ChannelManager::from_parts(Table::from_octets(*octets), &mut its_room);
    let mut signal = [0x77; SIGNAL_OCTETS];
    let mut job = [0x77; PLACE];
    if channels.attention() != Err(Refusal::BadTable) {
        return false;
    }
    assert_eq!(channels.mtu(SLOT), Err(Refusal::BadTable));
    assert_eq!(channels.register_spsm(7), Err(Refusal::BadTable));
    assert_eq!(channels.dispatch(PHONE, SLOT.cid(), &[1]), Err(Refusal::BadTable));
    assert_eq!(channels.receive(SLOT, &mut job, &mut signal), Err(Refusal::BadTable));
    assert_eq!(channels.disconnected(PHONE), Err(Refusal::BadTable));
    assert_eq!(channels.inc_ref(SLOT), Err(Refusal::BadTable));
    let pdu = octets_of_request();
    let one = channels.signal(PHONE, true, LeConnRole::Central, &pdu, &mut signal);
    assert_eq!((one.outcome, one.reply), (Err(Refusal::BadTable), &[][..]));
    assert!(channels.table().octets() == octets && channels.room() == room);
    assert_eq!((signal, job), ([0x77; SIGNAL_OCTETS], [0x77; PLACE]));
    true
}

fn octets_of_request() -> Vec<u8> {
    octets(&request(0x51, 100, 23, 5))
}

#[test]
fn a_made_table_is_none_of_them() {
    let (octets, room) = busy();
    assert!(!refused(&octets, &room));
}

#[test]
fn zeros_and_ones_are_no_table() {
    assert!(refused(&[0; TABLE_OCTETS], &[]));
    assert!(refused(&[0xFF; TABLE_OCTETS], &[0; ROOM]));
}

/// The head: another layout's number, sizes outside the limits, and the ten octets that are zero.
#[test]
fn forged_heads() {
    let (octets, room) = busy();
    let mut forged = vec![(0, 0), (0, 2), (0, 4), (1, 0), (1, 17), (2, 0), (2, 5), (3, 28), (4, 5)];
    forged.extend((6..16).map(|place| (place, 1)));
    for (place, value) in forged {
        let mut octets = octets;
        octets[place] = value;
        assert!(refused(&octets, &room), "octet {place} as {value}");
    }
}

/// Rows: a second spelling of a state or a policy, and numbers beyond a place or 65,535.
#[test]
fn forged_rows() {
    let (octets, room) = busy();
    let forged: [(&str, &[(usize, u8)]); 12] = [
        ("a state of no kind", &[(0, 7)]),
        ("a value where Connected has none", &[(1, 1)]),
        ("a result code of no kind", &[(0, 4), (1, 3)]),
        ("an announcement of no kind", &[(0, 6), (1, 2)]),
        ("a policy of no kind", &[(10, 2)]),
        ("a local MTU beyond the place", &[(8, 59)]),
        ("the same by its high octet", &[(9, 1)]),
        ("credits and received above 65,535", &[(13, 0xFF), (14, 0xFF), (15, 1)]),
        ("an assembly beyond its place", &[(26, 59)]),
        ("a wanted length beyond the place", &[(29, 1)]),
        ("more jobs than can wait", &[(30, 3)]),
        ("a job beyond its place", &[(31, 59)]),
    ];
    for (what, cells) in forged {
        let mut octets = octets;
        for (column, value) in cells {
            octets[cell(0, *column)] = *value;
        }
        assert!(refused(&octets, &room), "{what}");
    }
    // At the edge they are a table.
    for (column, value) in [(8, 58), (28, 58), (30, 2), (31, 58)] {
        let mut octets = octets;
        octets[cell(0, column)] = value;
        assert!(!refused(&octets, &room), "column {column} as {value}");
    }
}

/// An open job's counts beyond its length or its frame, and credits above 65,535 with those set aside. Where none are set aside no job is open, and its other numbers say nothing.
#[test]
fn forged_jobs() {
    let (octets, room) = busy();
    // Of the phone's MPS, 23, and its credits, 5: length, taken, filled, aside, credits.
    let with = |[length, taken, filled, aside, credits]: [u16; 5]| {
        let mut octets = octets;
        for (column, number) in [(39, length), (41, taken), (43, filled), (45, aside), (24, credits)] {
            put(&mut octets, 0, column, number);
        }
        octets
    };
    for (what, numbers) in [
        ("more octets taken than stated", [5, 6, 2, 1, 5]),
        ("the same above 255", [511, 512, 2, 1, 5]),
        ("more in the frame than the peer's MPS", [300, 290, 24, 1, 5]),
        ("the same above 255", [600, 600, 279, 1, 5]),
        ("more in the frame than were taken", [30, 10, 13, 1, 5]),
        ("the same with nothing taken", [30, 0, 3, 1, 5]),
        ("credits above 65,535", [30, 0, 2, 1, 65_535]),
        ("the same by many set aside", [30, 0, 2, 65_531, 5]),
    ] {
        assert!(refused(&with(numbers), &room), "{what}");
        let mut buffer = [0x77; 64];
        let mut its_room = room.clone();
        let mut channels = ChannelManager::from_parts(Table::from_octets(with(numbers)), &mut its_room);
        assert_eq!(channels.start_job(SLOT, 1, &mut buffer).err(), Some(Refusal::BadTable), "{what}");
        assert_eq!(channels.give_portion(SLOT, &[1], &mut buffer), Err(Refusal::BadTable), "{what}");
        assert_eq!(channels.cancel_job(SLOT), Err(Refusal::BadTable), "{what}");
        assert!(buffer == [0x77; 64] && channels.table().octets() == &with(numbers));
    }
    for numbers in [
        [5, 5, 7, 1, 5],
        [65_535, 65_535, 23, 1, 5],
        [30, 10, 12, 1, 65_534],
        [30, 0, 2, 65_530, 5],
        [0, 0, 2, 1, 5],
        [5, 9, 60, 0, 65_535],
    ] {
        assert!(!refused(&with(numbers), &room), "{numbers:?}");
    }
}

/// A portion and a cancel on tables that no call wrote: each ends, writes within the buffer, and changes the slot's open job alone, or its state.
#[test]
fn portions_of_forged_jobs() {
    let (octets, room) = busy();
    let some = [0, 1, 2, 3, 20, 21, 22, 23, 24, 255, 256, 65_534, 65_535];
    let mut given = 0;
    for (length, taken, filled) in some.iter().flat_map(|a| some.iter().flat_map(move |b| (0..=23).map(move |c| (*a, *b, c)))) {
        for aside in [1_u16, 2, 65_530] {
            let mut octets = octets;
            for (column, number) in [(39, length), (41, taken), (43, filled), (45, aside)] {
                put(&mut octets, 0, column, number);
            }
            let mut its_room = room.clone();
            let mut channels = ChannelManager::from_parts(Table::from_octets(octets), &mut its_room);
            let size = job_buffer_octets(23, length.into());
            let mut buffer = vec![0x77; size + 1];
            let left = usize::from(length.saturating_sub(taken));
            match channels.give_portion(SLOT, &vec![1; left.min(60)], &mut buffer[..size]) {
                Ok(came) => {
                    given += 1;
                    assert!(came.taken <= left && came.frame.is_none_or(|frame| frame.len() <= 27));
                    assert!(came.taken > 0 || came.frame.is_some() || left == 0);
                }
                Err(refusal) => assert_eq!((refusal, taken > length || filled > taken.saturating_add(2)), (Refusal::BadTable, true)),
            }
            assert_eq!(buffer[size], 0x77);
            let now = channels.table().octets();
            assert!((0..TABLE_OCTETS).all(|place| now[place] == octets[place] || (place % 16 == 0 && place >= cell(0, 39))));
            assert!(channels.room() == room && channels.attention() != Err(Refusal::BadRoom));
        }
    }
    assert!(given > 1000);
}

/// A failed attempt with a result of no name is no slot to look at; one with a name is.
#[test]
fn a_forged_result_is_not_shown() {
    let (octets, room) = busy();
    for result in 0..=255 {
        let mut octets = octets;
        octets[cell(0, 0)] = 4;
        octets[cell(0, 1)] = result;
        let shown = Table::from_octets(octets).slot(SLOT).map(|slot| slot.state);
        let named = LeCreditConnResultCode::from_number(result.into()).map(ChannelState::ConnectFailed);
        assert_eq!(shown, named, "result {result}");
        assert_eq!(refused(&octets, &room), named.is_none(), "result {result}");
    }
}

/// Every octet, changed: the table is refused whole, or it is another table, whose calls all end.
#[test]
fn every_octet_changed() {
    let (octets, room) = busy();
    let mut tables = 0;
    for place in 0..TABLE_OCTETS {
        for change in [0x01, 0x80, 0xFF] {
            let mut octets = octets;
            octets[place] ^= change;
            if !refused(&octets, &room) {
                tables += 1;
                let mut room = room.clone();
                let mut channels = ChannelManager::from_parts(Table::from_octets(octets), &mut room);
                let _ = channels.disconnected(PHONE);
                assert!(channels.attention() != Err(Refusal::BadTable));
            }
        }
    }
    assert!(tables > 0);
}

/// A busy table with every number of its slot at its edge: one more is refused.
fn full() -> [u8; TABLE_OCTETS] {
    let (mut octets, _) = busy();
    for (column, value) in [(8, 58), (13, 0xFF), (14, 0xFE), (15, 0), (16, 1), (26, 58), (28, 58), (30, 2), (31, 58), (33, 58)] {
        octets[cell(0, column)] = value;
    }
    // One more carries to the last octet of a tally, or wraps; its neighbours are full.
    put_tallies(&mut octets, 0, Tallies { sent: u64::MAX, received: u64::MAX >> 8, blocked_sends: u64::MAX, blocked_receives: u64::MAX });
    octets
}

/// More in a tally of slot 0, wrapping.
fn add(octets: &mut [u8; TABLE_OCTETS], column: usize, more: u64) {
    let tally = u64::from_le_bytes(core::array::from_fn(|place| octets[cell(0, column + place)]));
    put_tally(octets, 0, column, tally.wrapping_add(more));
}

/// A send tests the octets in a pass of its own. Whatever one octet becomes, it refuses by 1 what a question refuses, and leaves it; else it changes the peer's credits of its slot and a tally alone.
#[test]
fn a_send_refuses_the_same() {
    let (busy, mut room) = busy();
    let full = full();
    let (mut refused, mut sent) = (0, 0);
    for (place, change) in (0..TABLE_OCTETS).flat_map(|place| (0..=255).map(move |change| (place, change))) {
        for mut octets in [busy, full] {
            octets[place] ^= change;
            let mut channels = ChannelManager::from_parts(Table::from_octets(octets), &mut room);
            let bad = channels.attention() == Err(Refusal::BadTable);
            let mut out = [0x77; 64];
            let answer = channels.send(SLOT, &[1, 2, 3], &mut out).map(|frames| frames.count);
            assert_eq!(answer == Err(Refusal::BadTable), bad, "octet {place} with {change:#x}");
            if let Ok(count) = answer {
                add(&mut octets, SENT, count.into());
                let credits = [octets[cell(0, 24)], octets[cell(0, 25)]];
                [octets[cell(0, 24)], octets[cell(0, 25)]] = (u16::from_le_bytes(credits) - count).to_le_bytes();
                sent += 1;
            } else {
                assert_eq!(out, [0x77; 64]);
                refused += 1;
                if answer == Err(Refusal::Busy) {
                    add(&mut octets, BLOCKED_SENDS, 1);
                }
            }
            assert!(channels.table().octets() == &octets, "octet {place} with {change:#x}");
        }
    }
    assert!(refused > 0 && sent > 0);
}

/// A frame in tests the octets in the same pass, and of its slot it changes state, account, assembly, queue and the tally that it counts in alone, and closes the open job of a channel that ends, and its tallies.
#[test]
fn a_frame_refuses_the_same() {
    let (busy, room) = busy();
    let full = full();
    let (mut refused, mut changed) = (0, 0);
    for (place, change) in (0..TABLE_OCTETS).flat_map(|place| (0..=255).map(move |change| (place, change))) {
        for mut octets in [busy, full] {
            octets[place] ^= change;
            let mut its_room = room.clone();
            let mut channels = ChannelManager::from_parts(Table::from_octets(octets), &mut its_room);
            let bad = channels.attention() == Err(Refusal::BadTable);
            let answer = channels.dispatch(PHONE, SLOT.cid(), &[5]);
            assert_eq!(answer == Err(Refusal::BadTable), bad, "octet {place} with {change:#x}");
            refused += u32::from(bad);
            changed += u32::from(channels.table().octets() != &octets);
            let open = octets[cell(0, 0)] == 3;
            match answer {
                Ok(()) if open => add(&mut octets, RECEIVED, 1),
                Err(Refusal::QueueFull) => add(&mut octets, RECEIVED, 1),
                Err(Refusal::OutOfMemory) => add(&mut octets, BLOCKED_RECEIVES, 1),
                Err(Refusal::InvalidValue | Refusal::ShortFrame) => put_tallies(&mut octets, 0, Tallies::default()),
                _ => {}
            }
            for column in (0..=1).chain(10..=16).chain(26..=46).filter(|_| !bad) {
                octets[cell(0, column)] = channels.table().octets()[cell(0, column)];
            }
            assert!(channels.table().octets() == &octets, "octet {place} with {change:#x}");
            assert!(!bad || channels.room() == room);
        }
    }
    assert!(refused > 0 && changed > 0);
}
