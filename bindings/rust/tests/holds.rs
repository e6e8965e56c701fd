//! Holds: sixteen phones that come and go, and a value for each hold that the table counts.

mod common;

use common::*;
use l2cap_channels::*;

const ALL: u16 = 16;
const ALL_ROOM: usize = room_octets(ALL, 1, 64);

fn sixteen(room: &mut [u8]) -> ChannelManager<'_> {
    let mut channels = ChannelManager::new(ALL, 1, 64, room).unwrap();
    channels.register_spsm(SPSM).unwrap();
    channels
}

/// Sixteen phones, each on its own link, connect; then each leaves, by its own request or because its link goes down. The holds that are left.
fn come_and_go(channels: &mut ChannelManager<'_>) -> Vec<Hold> {
    let config = L2capChannelConfig::default();
    let slots: Vec<ChannelIndex> = (0..ALL).map(|link| open(channels, ConnHandle(link), &request(0x50, 100, 23, 5), &config)).collect();
    for (link, index) in (0..ALL).zip(&slots) {
        let mut signal = [0; SIGNAL_OCTETS];
        if link % 2 == 0 {
            let pdu = format!("06210400{:02x}005000", index.cid().0);
            assert_eq!(feed(channels, ConnHandle(link), &pdu), [(Ok(None), String::new())]);
            assert_eq!(channels.next_disconnect(&mut signal).unwrap().unwrap().index, *index);
        } else {
            channels.disconnected(ConnHandle(link)).unwrap();
        }
    }
    slots.into_iter().map(Hold::of).collect()
}

/// What a phone's connect request is answered with at once: nothing where it gets a slot.
fn ask(channels: &mut ChannelManager<'_>) -> String {
    let mut answers = feed(channels, ConnHandle(100), &request(0x50, 100, 23, 5));
    let (outcome, reply) = answers.remove(0);
    assert_eq!((outcome, answers.len()), (Ok(None), 0));
    reply
}

#[test]
fn a_seventeenth_phone_gets_a_slot() {
    let mut room = [0; ALL_ROOM];
    let mut channels = sixteen(&mut room);
    for _ in 0..2 {
        for hold in come_and_go(&mut channels) {
            channels.dec_ref(hold).unwrap();
        }
        assert_eq!(channels.table().held().bits(), 0);
    }
    assert_eq!(ask(&mut channels), "");
    assert_eq!(slot(&channels, SLOT).state, ChannelState::PeerConnecting(7));
}

#[test]
fn it_gets_none_where_holds_are_kept() {
    let mut room = [0; ALL_ROOM];
    let mut channels = sixteen(&mut room);
    let kept: Vec<ChannelIndex> = come_and_go(&mut channels).into_iter().map(Hold::into_index).collect();
    assert_eq!(channels.table().held().bits(), 0xFFFF);
    assert_eq!(ask(&mut channels), "0e00050015070a0000000000000000000400");
    channels.dec_ref(Hold::of(kept[9])).unwrap();
    assert_eq!(channels.table().held().bits(), 0xFDFF);
    assert_eq!(ask(&mut channels), "");
    assert_eq!(slot(&channels, kept[9]).state, ChannelState::PeerConnecting(7));
}

/// A phone on one link takes all slots and never answers our requests. Once its time is over `opened` closes each slot; one that is held is free when its hold
/// is back.
#[test]
fn a_phone_that_never_answers() {
    let mut room = [0; ALL_ROOM];
    let mut channels = sixteen(&mut room);
    let config = L2capChannelConfig::default();
    let mut signal = [0; SIGNAL_OCTETS];
    let slots: Vec<ChannelIndex> = (0..ALL).map(|k| open(&mut channels, PHONE, &request(0x50 + k, 100, 23, 5), &config)).collect();
    for index in &slots {
        match index.0 % 2 {
            0 => channels.dec_ref(Hold::of(*index)).unwrap(),
            _ => channels.disconnect(*index).unwrap(),
        }
        assert_eq!(channels.next_disconnect(&mut signal).unwrap().unwrap().index, *index);
        // The request is written once.
        assert_eq!(channels.next_disconnect(&mut signal), Ok(None));
    }
    assert_eq!((channels.table().held().bits(), ask(&mut channels).len()), (0, 36));
    for index in &slots {
        assert_eq!(channels.opened(*index, PHONE, true), Err(Refusal::Disconnected));
        assert!(is_free(&slot(&channels, *index)));
    }
    assert_eq!(channels.table().held().bits(), 0xAAAA);
    for index in channels.table().held() {
        channels.dec_ref(Hold::of(index)).unwrap();
    }
    assert!(channels.table().held().is_empty());
    assert_eq!(ask(&mut channels), "");
}

/// The set has slots that are closed and held: an open one isn't in it, nor a free one, nor one behind the table's end.
#[test]
fn held() {
    let mut room = [0; ROOM];
    let mut channels = made(&mut room);
    assert_eq!(channels.table().held().bits(), 0);
    let index = opened(&mut channels);
    assert_eq!((slot(&channels, index).hold, channels.table().held().bits()), (1, 0));
    channels.disconnected(PHONE).unwrap();
    assert_eq!(channels.table().held().bits(), 0b01);
    let more = channels.inc_ref(ChannelIndex(1)).unwrap();
    assert_eq!(channels.table().held().bits(), 0b11);
    channels.dec_ref(Hold::of(index)).unwrap();
    assert_eq!(channels.table().held().bits(), 0b10);
    channels.dec_ref(more).unwrap();
    let mut octets = *channels.table().octets();
    octets[48 + 16 * 17 + 2] = 1;
    assert_eq!(Table::from_octets(octets).held().bits(), 0);
}

/// Tables with slot 0 in a state of each kind, on the phone's link, and nobody's hold on it.
fn states() -> Vec<(Table, Vec<u8>)> {
    let free = |_: &mut ChannelManager<'_>| {};
    let pending = |channels: &mut ChannelManager<'_>| {
        feed(channels, PHONE, &request(0x50, 100, 23, 5));
    };
    let asked = |channels: &mut ChannelManager<'_>| {
        channels.create(PHONE, SPSM, &L2capChannelConfig::default(), &mut [0; SIGNAL_OCTETS]).unwrap();
    };
    let failed = |channels: &mut ChannelManager<'_>| {
        asked(channels);
        feed(channels, PHONE, "15010a0000000000000000000400");
    };
    let open = |channels: &mut ChannelManager<'_>| {
        asked(channels);
        feed(channels, PHONE, "15010a0050006400170005000000");
    };
    let closed = |channels: &mut ChannelManager<'_>| {
        pending(channels);
        feed(channels, PHONE, "0621040040005000");
    };
    let closing = |channels: &mut ChannelManager<'_>| {
        open(channels);
        channels.disconnect(SLOT).unwrap();
    };
    let told = |channels: &mut ChannelManager<'_>| {
        closing(channels);
        channels.next_disconnect(&mut [0; SIGNAL_OCTETS]).unwrap().unwrap();
    };
    let ways: [&dyn Fn(&mut ChannelManager<'_>); 8] = [&free, &pending, &asked, &failed, &open, &closed, &closing, &told];
    let all: Vec<(Table, Vec<u8>)> = ways
        .iter()
        .map(|way| {
            let mut room = [0; ROOM];
            let mut channels = made(&mut room);
            way(&mut channels);
            assert_eq!(slot(&channels, SLOT).hold, 0);
            state(&channels)
        })
        .collect();
    let kinds: Vec<ChannelState> = all.iter().map(|(table, _)| table.slot(SLOT).unwrap().state).collect();
    let wanted = [
        ChannelState::Disconnected,
        ChannelState::PeerConnecting(7),
        ChannelState::Connecting(1),
        ChannelState::ConnectFailed(LeCreditConnResultCode::NoResources),
        ChannelState::Connected,
        ChannelState::PeerDisconnecting(0x21),
        ChannelState::Disconnecting(false),
        ChannelState::Disconnecting(true),
    ];
    assert_eq!(kinds, wanted);
    all
}

/// How many values of holds a call made, less those that it took; it was given one where it takes one.
fn made_by(name: &str, channels: &mut ChannelManager<'_>, signal: &mut [u8]) -> i32 {
    let gone = |hold: Hold| {
        hold.into_index();
    };
    let given = |hold: Option<Hold>| hold.map(gone).is_some();
    let back = |still: StillHeld| {
        assert_eq!(still.hold.index(), SLOT);
        gone(still.hold);
    };
    match name {
        "next_pending" => channels.next_pending(PHONE, true).is_ok_and(given) as i32,
        "opened" => channels.opened(SLOT, PHONE, true).is_ok_and(given) as i32,
        "inc_ref" => channels.inc_ref(SLOT).map(gone).is_ok() as i32,
        "dec_ref" => -(channels.dec_ref(Hold::of(SLOT)).map_err(back).is_ok() as i32),
        "reject_pending" => {
            let result = LeCreditConnResultCode::NoResources;
            -(channels.reject_pending(Hold::of(SLOT), result, signal).map_err(back).is_ok() as i32)
        }
        "drop_pending" => match channels.drop_pending(Hold::of(SLOT)) {
            Ok(None) => -1,
            Ok(Some(hold)) => {
                gone(hold);
                0
            }
            Err(still) => {
                back(still);
                0
            }
        },
        other => panic!("no call has the name {other}"),
    }
}

/// In every state, at every count from none to full, with a good and a short buffer, a wrong room and a table of no kind: values come and go as the
/// table's count rises and falls.
#[test]
fn a_value_for_each_hold() {
    let mut seen = std::collections::BTreeSet::new();
    for (table, room) in states() {
        for count in [0, 1, 2, 255] {
            for fault in ["none", "signal", "room", "table"] {
                for name in ["next_pending", "opened", "inc_ref", "dec_ref", "reject_pending", "drop_pending"] {
                    let mut octets = *table.octets();
                    octets[48 + 16 * 17] = count;
                    if fault == "table" {
                        octets[0] = 0xFF;
                    }
                    let mut room = room.clone();
                    if fault == "room" {
                        room.pop();
                    }
                    let mut signal = vec![0; if fault == "signal" { SIGNAL_OCTETS - 1 } else { SIGNAL_OCTETS }];
                    let mut channels = ChannelManager::from_parts(Table::from_octets(octets), &mut room);
                    let values = made_by(name, &mut channels, &mut signal);
                    let after = slot(&channels, SLOT).hold;
                    assert_eq!(i32::from(after) - i32::from(count), values, "{name}, fault {fault}, {count} holds, {:?}", table.slot(SLOT));
                    seen.insert((name, values));
                }
            }
        }
    }
    let both_ways = ["next_pending", "opened", "inc_ref"].map(|name| [(name, 0), (name, 1)]).concat();
    let and_back = ["dec_ref", "reject_pending", "drop_pending"].map(|name| [(name, 0), (name, -1)]).concat();
    assert!(both_ways.iter().chain(&and_back).all(|pair| seen.contains(pair)), "{seen:?}");
}

#[test]
fn an_error_says_both() {
    let mut room = [0; ROOM];
    let mut channels = made(&mut room);
    let still = channels.dec_ref(Hold::of(ChannelIndex(1))).unwrap_err();
    let error: &dyn std::error::Error = &still;
    assert_eq!(error.to_string(), "22 Held; the hold on slot 1 came back");
    assert_eq!(error.source().unwrap().to_string(), "22 Held");
    // The table counts no such hold: nothing is lost.
    assert_eq!(Refusal::from(still), Refusal::Held);
}

/// The calls that end a hold, each refused by 1, 6 or 22: the table counts no such hold.
fn uncounted() -> Vec<StillHeld> {
    let (mut room, mut signal) = ([0; ROOM], [0; SIGNAL_OCTETS]);
    let mut all = Vec::new();
    for (octet, index) in [(1, SLOT), (0, ChannelIndex(2)), (0, SLOT)] {
        let mut octets = *made(&mut room).table().octets();
        octets[6] = octet;
        let mut channels = ChannelManager::from_parts(Table::from_octets(octets), &mut room);
        if octet == 0 {
            feed(&mut channels, PHONE, &request(0x50, 100, 23, 5));
        }
        all.push(channels.dec_ref(Hold::of(index)).unwrap_err());
        all.push(channels.reject_pending(Hold::of(index), LeCreditConnResultCode::NoResources, &mut signal).unwrap_err());
        all.push(channels.drop_pending(Hold::of(index)).unwrap_err());
    }
    all
}

/// However such an error goes, nothing is said of a hold that was dropped, in debug builds neither.
#[test]
fn an_uncounted_hold_goes_quietly() {
    let refusals: Vec<u8> = uncounted().into_iter().map(|still| Refusal::from(still).number()).collect();
    assert_eq!(refusals, [1, 1, 1, 6, 6, 6, 22, 22, 22]);
    for still in uncounted() {
        drop(still);
    }
    for still in uncounted() {
        let error: Box<dyn std::error::Error> = still.into();
        assert!(error.to_string().ends_with("came back"));
    }
    for still in uncounted() {
        let told: Result<(), String> = Err(still).map_err(|still| format!("{still:?}"));
        assert!(told.unwrap_err().starts_with("StillHeld { refusal: "));
    }
    for StillHeld { hold, .. } in uncounted() {
        // What was said of it is no part of it.
        let other = Hold::of(hold.index());
        assert_eq!(hold, other);
        other.into_index();
    }
}

#[cfg(debug_assertions)]
mod dropped {
    use super::*;
    use std::panic::{catch_unwind, AssertUnwindSafe};

    fn message(call: impl FnOnce()) -> Option<String> {
        catch_unwind(AssertUnwindSafe(call)).err().and_then(|panic| panic.downcast::<String>().ok()).map(|message| *message)
    }

    #[test]
    fn a_dropped_hold_panics() {
        let mut room = [0; ALL_ROOM];
        let mut channels = sixteen(&mut room);
        let hold = channels.inc_ref(ChannelIndex(3)).unwrap();
        let said = message(|| drop(hold));
        assert_eq!(said.as_deref(), Some("the hold on slot 3 was dropped: dec_ref gives the slot back"));
        assert_eq!(message(|| drop(channels.dec_ref(Hold::of(ChannelIndex(3))))), None);
    }

    /// A panic that comes while a hold is there is the one that is told.
    #[test]
    fn it_hides_no_other_panic() {
        let hold = Hold::of(SLOT);
        let said = message(|| {
            let _kept = hold;
            panic!("{}", "another");
        });
        assert_eq!(said.as_deref(), Some("another"));
    }

    /// One that a wrong manager counted out is again one like any other, once the right one has refused it for another reason.
    #[test]
    fn the_last_word_of_a_manager_counts() {
        let (mut room, mut other) = ([0; ROOM], [0; ROOM]);
        let mut channels = made(&mut room);
        let index = opened(&mut channels);
        let still = made(&mut other).dec_ref(Hold::of(index)).unwrap_err();
        let mut signal = [0; SIGNAL_OCTETS];
        let still = channels.reject_pending(still.hold, LeCreditConnResultCode::NoResources, &mut signal).unwrap_err();
        assert_eq!(still.refusal, Refusal::NotFound);
        assert!(message(|| drop(still)).is_some());
    }

    /// A refusal that is made of a hold which the table still counts.
    #[test]
    fn so_does_one_that_an_error_gave_back() {
        let mut room = [0; ROOM];
        let mut channels = made(&mut room);
        let index = opened(&mut channels);
        let mut signal = [0; SIGNAL_OCTETS];
        let still = channels.reject_pending(Hold::of(index), LeCreditConnResultCode::NoResources, &mut signal).unwrap_err();
        assert_eq!(still.refusal, Refusal::NotFound);
        let said = message(|| assert_eq!(Refusal::from(still), Refusal::NotFound));
        assert_eq!(said.as_deref(), Some("the hold on slot 0 was dropped: dec_ref gives the slot back"));
    }
}

#[cfg(not(debug_assertions))]
#[test]
fn a_hold_costs_an_octet() {
    assert_eq!((size_of::<Hold>(), std::mem::needs_drop::<Hold>()), (1, false));
}
