//! The least credits of a configuration, held to every run of a peer that keeps to its credits and fills its frames.

mod common;

use std::collections::BTreeSet;

use common::*;
use l2cap_channels::CreditFlowPolicy::{Every, MinThreshold};
use l2cap_channels::*;

/// A channel as a search sees it: the table but for the identifier of our next request, which every grant moves on, and the tallies, which every frame does: with them no state would
/// come again, and the search would never end. All jobs are of zeros, and so is the room.
type State = [u8; TABLE_OCTETS];

fn seen(channels: &ChannelManager<'_>) -> State {
    let mut octets = *channels.table().octets();
    octets[5] = 1;
    put_tallies(&mut octets, 0, Tallies::default());
    octets
}

/// The payloads with which a peer can go on: the next of the job that arrives, or the first of a new one. Of each number of frames up to the longest
/// job's, the shortest job and the longest.
fn next_payloads(slot: &Slot) -> Vec<Vec<u8>> {
    if slot.want > 0 {
        return vec![vec![0; slot.mps.min(slot.want - slot.have).into()]];
    }
    let most = frames(slot.mtu, slot.mps).unwrap();
    let shortest = |count: u16| if count == 1 { 0 } else { (count - 1) * slot.mps - 1 };
    let longest = |count: u16| slot.mtu.min(count * slot.mps - 2);
    let lengths: BTreeSet<u16> = (1..=most).flat_map(|count| [shortest(count), longest(count)]).collect();
    let first = |length: u16| [&length.to_le_bytes()[..], &vec![0; length.min(slot.mps - 2).into()]].concat();
    lengths.into_iter().map(first).collect()
}

/// Whether some run of the channel sticks: the peer has no credit, and no job waits whose take could grant one. Every order of frames and takes is
/// played, from the open channel on.
fn sticks(config: &L2capChannelConfig, queue: u16, packet: u16) -> bool {
    let mut room = vec![0; room_octets(1, queue, packet)];
    let mut channels = ChannelManager::new(1, queue, packet, &mut room).unwrap();
    channels.register_spsm(SPSM).unwrap();
    open(&mut channels, PHONE, &request(0x50, 100, 23, 5), config);
    let mut reached = BTreeSet::from([seen(&channels)]);
    let mut to_play: Vec<State> = reached.iter().copied().collect();
    let (mut job, mut signal) = (vec![0; packet.into()], [0; SIGNAL_OCTETS]);
    while let Some(state) = to_play.pop() {
        let slot = Table::from_octets(state).slot(SLOT).unwrap();
        assert_eq!(slot.state, ChannelState::Connected);
        if slot.credits == 0 && slot.waiting == 0 {
            return true;
        }
        let mut play = |step: &mut dyn FnMut(&mut ChannelManager<'_>)| {
            let mut channels = ChannelManager::from_parts(Table::from_octets(state), &mut room);
            step(&mut channels);
            if reached.insert(seen(&channels)) {
                to_play.push(seen(&channels));
            }
        };
        if slot.waiting > 0 {
            play(&mut |channels| assert!(channels.receive(SLOT, &mut job, &mut signal).unwrap().is_some()));
        }
        if slot.credits > 0 {
            for payload in next_payloads(&slot) {
                // A job that finds no place to wait is dropped, and its credits are used like any other's.
                play(&mut |channels| assert!(matches!(channels.dispatch(PHONE, SLOT.cid(), &payload), Ok(()) | Err(Refusal::QueueFull))));
            }
        }
    }
    false
}

/// MTU and MPS, for longest jobs of one to four frames, at the edges of these.
const SIZES: [(u16, u16, u16); 6] = [(23, 25, 1), (23, 24, 2), (44, 23, 2), (45, 23, 3), (67, 23, 3), (68, 23, 4)];

#[test]
fn the_least_credits_are_enough_and_no_fewer() {
    for (mtu, mps, longest) in SIZES {
        assert_eq!(frames(mtu, mps), Some(longest));
        let packet = (mtu + 6).max(mps + 4);
        for flow_policy in (0..5).map(Every).chain((0..6).map(MinThreshold)) {
            for queue in 1..=2 {
                let of = |credits| L2capChannelConfig { mtu: Some(mtu), mps: Some(mps), flow_policy, initial_credits: Some(credits) };
                let what = |credits| format!("MTU {mtu}, MPS {mps}, {flow_policy:?}, {queue} waiting, {credits} credits");
                let least = least_credits(mtu, mps, flow_policy);
                // Where no number suffices, some are tried.
                for credits in 0..least.unwrap_or(longest + 8) {
                    let refused = least.map_or(ConfigError::Sticks, ConfigError::FewCredits);
                    assert_eq!(of(credits).checked(queue, packet), Err(refused), "{}", what(credits));
                    assert!(sticks(&of(credits), queue, packet), "{}", what(credits));
                }
                for credits in least.map_or(0..0, |least| least..least + 3) {
                    assert_eq!(of(credits).checked(queue, packet), Ok(of(credits)), "{}", what(credits));
                    assert!(!sticks(&of(credits), queue, packet), "{}", what(credits));
                }
            }
        }
    }
}

/// The defaults, for every queue and packet size.
#[test]
fn the_defaults_suffice() {
    let usual = L2capChannelConfig::default();
    for queue in 1..=4 {
        for packet in 29..=1024 {
            assert_eq!(usual.checked(queue, packet), Ok(usual), "queue {queue}, packet {packet}");
        }
        assert!(!sticks(&usual, queue, 29));
    }
}

/// The case by which firmware meets it first: frames of 23 octets, and the one credit that a queue of one gives.
#[test]
fn a_job_of_two_frames_sticks_at_one_credit() {
    let config = L2capChannelConfig { mps: Some(23), ..Default::default() };
    assert_eq!(config.checked(1, 64), Err(ConfigError::FewCredits(3)));
    let mut room = [0; room_octets(1, 1, 64)];
    let mut channels = ChannelManager::new(1, 1, 64, &mut room).unwrap();
    channels.register_spsm(SPSM).unwrap();
    open(&mut channels, PHONE, &request(0x50, 100, 23, 5), &config);
    channels.dispatch(PHONE, SLOT.cid(), &[&[22, 0][..], &[b'j'; 21]].concat()).unwrap();
    blocked(&mut channels, SLOT, Refusal::OutOfMemory, |channels| channels.dispatch(PHONE, SLOT.cid(), b"b"));
    let (mut job, mut signal) = ([0; PLACE], [0; SIGNAL_OCTETS]);
    assert_eq!(channels.receive(SLOT, &mut job, &mut signal), Ok(None));
    assert_eq!(slot(&channels, SLOT).credits, 0);
}

/// A send cuts as many frames as are counted.
#[test]
fn frames_are_counted_as_they_are_cut() {
    let mut out = [0; 1024];
    for mps in [23, 24, 57, 60, 100, 65535] {
        let mut room = [0; ROOM];
        let mut channels = made(&mut room);
        let index = open(&mut channels, PHONE, &request(0x50, 200, mps, 65535), &L2capChannelConfig::default());
        for length in 0..=200 {
            let sent = channels.send(index, &vec![0; length.into()], &mut out).unwrap();
            assert_eq!(frames(length, mps), Some(sent.count), "{length} octets, MPS {mps}");
        }
    }
}

#[test]
fn edges() {
    assert_eq!([frames(0, 0), frames(65535, 0), frames(0, 1), frames(0, 2), frames(65535, 2)], [None, None, None, Some(1), Some(32769)]);
    assert_eq!(frames(65535, 65535), Some(2));
    let policies = [Every(0), Every(1), Every(32767), Every(32768), Every(65535)];
    let sums = [Some(32769), Some(32769), Some(65535), None, None];
    assert_eq!(policies.map(|policy| least_credits(65535, 2, policy)), sums);
    assert_eq!([0, 1, 65535].map(|t| least_credits(23, 25, MinThreshold(t))), [None, Some(1), Some(1)]);
    assert_eq!([0, 1].map(|mps| least_credits(0, mps, Every(1))), [None, None]);

    let of = |mtu, mps| L2capChannelConfig { mtu, mps, initial_credits: Some(9), ..Default::default() }.checked(1, 64).err();
    assert_eq!([of(Some(58), Some(60)), of(Some(23), Some(23))], [None, None]);
    for large in [of(Some(59), None), of(None, Some(61)), of(Some(59), Some(0)), of(Some(65535), Some(65535))] {
        assert_eq!(large, Some(ConfigError::TooLarge));
    }
    for small in [of(Some(22), None), of(None, Some(22)), of(Some(0), Some(0))] {
        assert_eq!(small, Some(ConfigError::TooSmall));
    }
    // Sizes that no table has, whatever the rest says; the sizes beside them are some table's.
    for (queue, packet) in [(0, 64), (5, 64), (9, 64), (65535, 64), (1, 0), (1, 28), (1, 1025), (1, 2000), (1, 65535)] {
        for config in [L2capChannelConfig::default(), L2capChannelConfig { mtu: Some(22), ..Default::default() }] {
            assert_eq!(config.checked(queue, packet), Err(ConfigError::NoTable), "queue {queue}, packet {packet}");
        }
    }
    for (queue, packet) in [(1, 29), (4, 29), (1, 1024), (4, 1024)] {
        assert!(L2capChannelConfig::default().checked(queue, packet).is_ok());
        assert!(ChannelManager::new(1, queue, packet, &mut vec![0; room_octets(1, queue, packet)]).is_ok());
    }
    let error: Box<dyn std::error::Error> = ConfigError::FewCredits(3).into();
    assert_eq!(error.to_string(), "the peer needs 3 credits for the longest job");
}
