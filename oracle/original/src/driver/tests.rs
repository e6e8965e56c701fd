//! The driver takes some calls of the original apart, and uses one of two where the original has two. Here the parts are held against the
//! original's own whole.

use super::{poll_once, with_driver, Driver};
use crate::channel_manager::eyes::index;
use crate::stand_ins::pool::Pool;
use crate::PacketPool;
use language::{hex, Call, Eyes, Manner, Reply, Tallies};
use std::pin::pin;
use std::task::Poll;

type Table<'d> = Driver<'d, 64>;

fn play(driver: &mut Table<'_>, script: &str) -> Vec<String> {
    script.lines().flat_map(|line| driver.call(&Call::parse(line.trim())).lines()).collect()
}

/// What `V` prints: the driver's own tracks, which a call past it does not feed, are left out.
fn seen(driver: &Table<'_>) -> Vec<String> {
    Reply::from(driver.view()).lines()
}

/// Two tables that were given the same script.
fn twice<R>(script: &str, compare: impl FnOnce(&mut Table<'_>, &mut Table<'_>) -> R) -> R {
    with_driver(6, Manner::default(), |one| {
        with_driver(6, Manner::default(), |other| {
            play(one, script);
            play(other, script);
            compare(one, other)
        })
    })
}

const OPEN: &str = "R 128
    S 1 1 c 14070a0080005000640017000500
    P 1 1
    A 0 - - - -
    S 2 1 c 14080a0080005000640017000500
    C 1 128 - - - -
    S 1 1 c 14090a0080005100640017000500
    P 1 1
    A 3 - - - -
    F 1 64 0a00010203
    D 3
    Q";

/// Signals for link 1 that meet `OPEN` in many ways; the numbers pick and spoil them.
fn some_signal(number: u64) -> Vec<u8> {
    let signals: [&[u8]; 9] = [
        &[0x14, 9, 10, 0, 0x80, 0, 0x52, 0, 0x64, 0, 0x17, 0, 5, 0],
        &[0x14, 10, 10, 0, 0x80, 0, 0x50, 0, 0x64, 0, 0x17, 0, 5, 0],
        &[0x15, 1, 10, 0, 0x60, 0, 0x64, 0, 0x17, 0, 5, 0, 0, 0],
        &[0x15, 1, 10, 0, 0x60, 0, 0x64, 0, 0x17, 0, 5, 0, 4, 0],
        &[0x16, 3, 4, 0, 0x50, 0, 0xf0, 0xff],
        &[0x06, 4, 4, 0, 0x40, 0, 0x50, 0],
        &[0x07, 5, 4, 0, 0x51, 0, 0x43, 0],
        &[0x12, 6, 8, 0, 6, 0, 6, 0, 0, 0, 10, 0],
        &[0x01, 7, 2, 0, 0, 0],
    ];
    let mut signal = signals[(number % 9) as usize].to_vec();
    match number / 9 % 6 {
        0 => signal[0] = 0x17,
        1 => signal[1] = signal[1].wrapping_add(1),
        2 => {
            let end = signal.pop();
            signal[2] -= 1;
            assert!(end.is_some());
        }
        _ => {}
    }
    signal
}

#[test]
fn a_pdu_cut_at_its_headers_is_the_whole_pdu() {
    let mut number: u64 = 1;
    for _ in 0..400 {
        twice(OPEN, |whole, cut| {
            let mut pdu = Vec::new();
            for _ in 0..4 {
                number = number.wrapping_mul(6364136223846793005).wrapping_add(1442695040888963407);
                pdu.extend(some_signal(number >> 33));
            }
            let rows = play(cut, &format!("S 1 1 c {}", hex(&pdu)));
            let conn = whole.link(1, true, true, true);
            whole.channels.signal(conn, &pdu, whole.connections).expect("every header fits");
            assert_eq!(seen(whole), seen(cut), "{}", hex(&pdu));
            let replies: String = rows.iter().filter_map(|row| row.split(' ').nth(1)).filter(|octets| *octets != "-").collect();
            let whole_replies = hex(&whole.reply(conn));
            assert_eq!(if replies.is_empty() { "-".to_string() } else { replies }, whole_replies, "{}", hex(&pdu));
        });
    }
}

#[test]
fn the_steps_of_rejecting_are_the_whole() {
    let pendings = "R 128
        S 1 1 c 14070a0080005000640017000500
        S 2 1 c 14080a0080005000640017000500
        S 1 1 c 14090a0080005100640017000500
        S 1 1 c 140a0a0080005200640017000500
        P 1 1";
    twice(pendings, |whole, steps| {
        let conn = whole.link(1, true, true, true);
        whole.channels.reject_all_pending(conn, whole.connections);
        let rows = play(steps, "J 1\nJ 1\nJ 1");
        assert_eq!(rows[2], "0 -");
        let replies: String = rows[..2].iter().filter_map(|row| row.split(' ').nth(1)).collect();
        assert_eq!(replies, hex(&whole.reply(conn)));
        assert_eq!(seen(whole), seen(steps));
    });
}

#[test]
fn sending_without_waiting_sends_what_waiting_sends() {
    for length in [0, 1, 20, 21, 22, 43, 44, 45, 90, 91, 99, 100] {
        twice(OPEN, |tries, waits| {
            let sdu: Vec<u8> = (0..length).collect();
            let row = play(tries, &format!("K 0 {}", hex(&sdu))).remove(0);
            let mut packet = Pool::<64>::allocate().expect("the pool is never empty");
            let sent = poll_once(pin!(waits.channels.send(index(0), &sdu, packet.as_mut(), waits.host())));
            assert!(matches!(sent, Poll::Ready(Ok(()))), "{length}");
            let frames: Vec<Vec<u8>> = waits.air.take().into_iter().map(|(_, frame)| frame).collect();
            assert_eq!(row, format!("0 {} {}", hex(&frames.concat()), frames.len()));
            assert_eq!(seen(tries), seen(waits));
        });
    }
}

#[test]
fn a_packet_handed_over_is_the_job_copied() {
    twice(&format!("{OPEN}\nF 1 64 04050607080910"), |copies, hands_over| {
        let row = play(copies, "B 0 64").remove(0);
        let taken = poll_once(pin!(hands_over.channels.receive_sdu(index(0), hands_over.host())));
        let Poll::Ready(Ok(job)) = taken else { panic!("a job waits") };
        let signal: Vec<u8> = hands_over.air.take().into_iter().flat_map(|(_, pdu)| pdu).collect();
        assert_eq!(row, format!("0 {} {} {} {}", hex(job.as_ref()), job.len(), job.len(), hex(&signal)));
        assert_eq!(seen(copies), seen(hands_over));
    });
}

/// Differences 44 and 58: with no credits left the one form refuses and the other waits. Both count a blocked send: the one a call, the other a poll.
#[test]
fn without_credits_one_send_refuses_and_the_other_waits() {
    let used_up = format!("{OPEN}\nK 0 {}", "00".repeat(100));
    twice(&used_up, |tries, waits| {
        assert_eq!(play(tries, "K 0 aa"), ["14 -"]);
        let mut packet = Pool::<64>::allocate().expect("the pool is never empty");
        let mut send = pin!(waits.channels.send(index(0), &[0xaa], packet.as_mut(), waits.host()));
        for polls in 1..=3 {
            assert!(poll_once(send.as_mut()).is_pending());
            assert_eq!(waits.channels.tallies(0).blocked_sends, polls);
        }
        assert_eq!(tries.channels.tallies(0).blocked_sends, 1);
        assert_eq!(seen(tries), seen(waits));
    });
}

/// Difference 56: what a send counts is counted before its frames are written. One that has no memory for them gives its credits back, and counts all the same.
#[test]
fn a_send_that_lacks_its_output_has_counted() {
    twice(OPEN, |lacks, sends| {
        play(sends, "K 0 aabbcc");
        let mut short = [0; 8];
        assert!(lacks.channels.try_send(index(0), &[0xaa, 0xbb, 0xcc], &mut short, lacks.host()).is_err());
        assert_eq!(lacks.channels.tallies(0), sends.channels.tallies(0));
        assert_eq!(lacks.channels.tallies(0), Tallies { sent: 1, received: 1, ..Tallies::default() });
        assert_eq!((lacks.channels.record(0).peer_credits, sends.channels.record(0).peer_credits), (5, 4));
    });
}

/// Difference 57: the numbers wrap, each by itself. They have the machine's width.
#[test]
fn the_numbers_wrap() {
    twice(&format!("{OPEN}\nK 0 {}", "00".repeat(78)), |driver, _| {
        driver.channels.put_tallies(0, Tallies::all(usize::MAX as u64));
        assert_eq!(play(driver, "K 0 aa\nK 0 aa\nF 1 64 00\nF 1 64 00"), ["0 030050000100aa 1", "14 -", "0 -", "10 -"]);
        assert_eq!(driver.channels.tallies(0), Tallies::all(0));
    });
}
