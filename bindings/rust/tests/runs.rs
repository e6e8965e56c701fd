//! Runs of frames and of jobs: what they leave is what the calls leave one by one, wherever the run, its answers or the output end, and on tables and rooms that are none.

mod common;

use common::calls::*;
use common::raw::{self, Lent};
use common::*;
use l2cap_channels::*;

/// Numbers that look drawn, the same in every run.
struct Chance(u64);

impl Chance {
    fn of<T: Copy>(&mut self, from: &[T]) -> T {
        self.0 = self.0.wrapping_mul(6364136223846793005).wrapping_add(1442695040888963407);
        from[(self.0 >> 33) as usize % from.len()]
    }
}

/// All that a run is lent, and what it returns.
#[derive(Clone, Debug, PartialEq, Eq)]
struct Memory {
    table: Lent,
    answer: Lent,
    room: Lent,
    out: Lent,
    answers: Lent,
    number: u32,
}

impl Memory {
    fn new(table: &[u8], room: &[u8], out: usize, answers: usize) -> Self {
        Self {
            table: Lent::new(table),
            answer: Lent::painted(ANSWER_OCTETS),
            room: Lent::new(room),
            out: Lent::painted(out),
            answers: Lent::painted(answers),
            number: 0,
        }
    }

    /// The run's own answer.
    fn ends(&mut self, number: u32, count: usize, used: usize, wrote: usize) {
        let four = |number: usize| (number as u32).to_le_bytes();
        self.answer.lend().copy_from_slice(&[&[11, number as u8][..], &four(wrote), &four(count), &four(used), &[0, 0]].concat());
        self.number = number;
    }
}

#[derive(Clone, Copy, Debug, PartialEq, Eq)]
enum Of {
    Frames,
    Jobs,
}

/// The run, by its entry.
fn run(of: Of, octets: &[u8], m: &mut Memory) {
    let (table, answer, answers) = (m.table.lend(), m.answer.lend(), m.answers.lend());
    m.number = match of {
        Of::Frames => raw::dispatch_run(table, answer, m.room.lend(), octets, answers),
        Of::Jobs => raw::send_run(table, answer, m.out.lend(), octets, answers),
    };
}

/// The same by calls one by one. A table or a room that is none shows in the first call: here one for no slot, which changes nothing else.
fn one_by_one(of: Of, octets: &[u8], m: &mut Memory) {
    let mut none = [0; ANSWER_OCTETS];
    let first = match of {
        Of::Frames => raw::dispatch(m.table.lend(), &mut none, m.room.lend(), 1, 0, &[]),
        Of::Jobs => raw::send(m.table.lend(), &mut none, &mut [], 255, &[]),
    };
    if first < 3 {
        return m.ends(first, 0, 0, 0);
    }
    let number = |at: usize| u16::from_le_bytes([octets[at], octets[at + 1]]);
    let head = if of == Of::Frames { FrameRun::HEAD } else { JobRun::HEAD };
    let (mut count, mut used, mut wrote) = (0, 0, 0);
    loop {
        let left = octets.len() - used;
        let end = used + head + if left < head { 0 } else { usize::from(number(used + head - 2)) };
        if left == 0 {
            return m.ends(0, count, used, wrote);
        }
        if octets.len() < end {
            return m.ends(15, count, used, wrote);
        }
        let Some(answer) = m.answers.lend().get_mut(ANSWER_OCTETS * count..ANSWER_OCTETS * (count + 1)) else {
            return m.ends(3, count, used, wrote);
        };
        let body = &octets[used + head..end];
        match of {
            Of::Frames => raw::dispatch(m.table.lend(), answer, m.room.lend(), number(used), number(used + 2), body),
            Of::Jobs => raw::send(m.table.lend(), answer, &mut m.out.lend()[wrote..], octets[used], body),
        };
        wrote += u32::from_le_bytes([answer[2], answer[3], answer[4], answer[5]]) as usize;
        (count, used) = (count + 1, end);
    }
}

/// Both leave the same, which is given.
fn same(of: Of, octets: &[u8], m: &Memory) -> Memory {
    let (mut whole, mut single) = (m.clone(), m.clone());
    run(of, octets, &mut whole);
    one_by_one(of, octets, &mut single);
    assert!(whole == single, "{of:?} {octets:?}\n{whole:?}\n{single:?}");
    whole
}

/// Two slots, open or not, with credits and jobs by chance.
fn any_table(chance: &mut Chance) -> (Table, Vec<u8>) {
    let mut room = [0; ROOM];
    let mut channels = made(&mut room);
    for cid in [0x50, 0x51] {
        if chance.of(&[true, true, true, false]) {
            let wanted = request(cid, chance.of(&[100, 65535]), chance.of(&[23, 60]), chance.of(&[0, 2, 9]));
            // An MPS of 3 is less than some frames have.
            let (mps, initial_credits) = (chance.of(&[None, None, Some(3)]), chance.of(&[None, Some(9)]));
            let config = L2capChannelConfig { mps, initial_credits, ..Default::default() };
            let index = open(&mut channels, chance.of(&[PHONE, OTHER]), &wanted, &config);
            // No call leaves an MPS under 23, which a job is refused by.
            if chance.of(&[true, false, false]) {
                channels = with_peer_mps(channels, index, 22);
            }
            let payload: &[u8] = chance.of(&[&[2, 0, 1, 2], &[4, 0, 3], &[9, 0]]);
            let _ = channels.dispatch(slot(&channels, index).handle, index.cid(), payload);
        }
    }
    state(&channels)
}

/// Up to five frames or jobs, some of them for nobody.
fn any_run(of: Of, chance: &mut Chance) -> Vec<u8> {
    let mut octets = Vec::new();
    for _ in 0..chance.of(&[0, 1, 2, 3, 4, 5]) {
        let body: &[u8] = match of {
            Of::Frames => {
                octets.extend(chance.of(&[1u16, 1, 2, 0x0F00]).to_le_bytes());
                octets.extend(chance.of(&[0x3Fu16, 0x40, 0x40, 0x41, 0x41, 0x42, 0x140]).to_le_bytes());
                chance.of(&[&[], &[1], &[2, 0, 1, 2], &[2, 0, 1, 2], &[2, 0, 1], &[3, 4], &[1, 0, 1, 2], &[59, 0], &[7; 7]])
            }
            Of::Jobs => {
                octets.push(chance.of(&[0, 0, 1, 1, 2]));
                &[7; 300][..chance.of(&[0, 1, 3, 22, 60, 101, 300])]
            }
        };
        octets.extend((body.len() as u16).to_le_bytes());
        octets.extend(body);
    }
    octets
}

/// Runs by chance, cut at every octet, with answers of every length and outputs of several.
fn runs_by_chance(of: Of) {
    let mut chance = Chance(of as u64 + 5);
    let mut numbers = [0; 26];
    for _ in 0..150 {
        let (table, room) = any_table(&mut chance);
        let octets = any_run(of, &mut chance);
        let out = chance.of(&[0, 6, 9, 40, 400]);
        for cut in 0..=octets.len() {
            numbers[same(of, &octets[..cut], &Memory::new(table.octets(), &room, out, 160)).number as usize] += 1;
        }
        for answers in 0..100 {
            numbers[same(of, &octets, &Memory::new(table.octets(), &room, out, answers)).number as usize] += 1;
        }
    }
    assert!([0, 3, 15].iter().all(|number| numbers[*number] > 1000), "{numbers:?}");
}

#[test]
fn frames_are_dispatches_one_by_one() {
    runs_by_chance(Of::Frames);
}

#[test]
fn jobs_are_sends_one_by_one() {
    runs_by_chance(Of::Jobs);
}

/// Octets changed by chance, tables and rooms of other lengths: refused by 1 or 2 with nothing done, or taken as by the single calls.
#[test]
fn bad_tables_and_rooms() {
    let mut chance = Chance(9);
    let all: Vec<usize> = (0..TABLE_OCTETS).collect();
    for of in [Of::Frames, Of::Jobs] {
        let mut numbers = [0; 26];
        for _ in 0..3000 {
            let (table, mut room) = any_table(&mut chance);
            let octets = any_run(of, &mut chance);
            let mut table = table.octets().to_vec();
            table[chance.of(&all)] ^= chance.of(&[1, 2, 4, 8, 16, 32, 64, 128]);
            table.truncate(chance.of(&[0, 800, TABLE_OCTETS - 1, TABLE_OCTETS, TABLE_OCTETS, TABLE_OCTETS, TABLE_OCTETS, TABLE_OCTETS]));
            room.truncate(chance.of(&[0, ROOM - 1, ROOM, ROOM, ROOM, ROOM]));
            let was = Memory::new(&table, &room, 200, 160);
            let mut is = same(of, &octets, &was);
            numbers[is.number as usize] += 1;
            if [1, 2].contains(&is.number) {
                (is.answer, is.number) = (was.answer.clone(), was.number);
                assert!(is == was, "{of:?}: more than the answer was written");
            }
        }
        assert!(numbers[0] > 100 && numbers[1] > 100 && (of == Of::Jobs || numbers[2] > 100), "{numbers:?}");
    }
}

/// The longest frame and the longest job of a run, and one octet more.
#[test]
fn lengths_of_two_octets() {
    let mut octets = vec![0; 65_600];
    let long = vec![1; 65_536];
    let mut run = FrameRun::new(&mut octets);
    assert_eq!(run.push(PHONE, SLOT.cid(), &long), Err(PushError::TooLong));
    assert_eq!(run.push(PHONE, SLOT.cid(), &long[1..]), Ok(()));
    assert_eq!(run.push(PHONE, SLOT.cid(), &long[..60]), Err(PushError::Full));
    let mut room = [0; ROOM];
    let mut channels = made(&mut room);
    opened(&mut channels);
    let mut answers = [[0; ANSWER_OCTETS]; 2];
    assert_eq!(channels.dispatch_run(&mut run, &mut answers).unwrap().collect::<Vec<_>>(), [Err(Refusal::InvalidValue)]);
    let mut run = JobRun::new(&mut octets);
    assert_eq!(run.push(SLOT, &long), Err(PushError::TooLong));
    assert_eq!((run.push(SLOT, &long[1..]), run.len()), (Ok(()), 1));
    let mut sent = channels.send_run(&mut run, &mut [], &mut answers).unwrap();
    assert_eq!((sent.next(), sent.next(), run.is_empty()), (Some(Err(Refusal::ChannelClosed)), None, true));
}

/// A run is made in rounds, as many frames in each as there are answers: they are dispatches one by one, and none is lost.
#[test]
fn a_run_in_rounds() {
    let came: [(ConnHandle, Cid, &[u8]); 7] = [
        (PHONE, Cid(0x40), &[4, 0, 1]),
        (OTHER, Cid(0x40), &[2]),
        (PHONE, Cid(0x40), &[2, 3]),
        (PHONE, Cid(0x40), &[4]),
        (HIGH, Cid(0x40), &[]),
        (PHONE, Cid(0x41), &[]),
        (PHONE, Cid(0x40), &[3, 0, 1]),
    ];
    let mut room = [0; ROOM];
    let mut single = made(&mut room);
    opened(&mut single);
    let start = state(&single);
    let expected = came.map(|(link, cid, payload)| single.dispatch(link, cid, payload));
    let refused = expected.map(|answer| answer.err().map_or(0, Refusal::number));
    assert_eq!(refused, [0, 8, 0, 10, 4, 0, 10]);
    for (places, octets) in (1..=8).flat_map(|places| (10..90).map(move |octets| (places, octets))) {
        let (mut octets, mut answers, mut room) = (vec![0; octets], vec![[0; ANSWER_OCTETS]; places], start.1.clone());
        let mut channels = ChannelManager::from_parts(start.0.clone(), &mut room);
        let (mut run, mut frames) = (FrameRun::new(&mut octets), came.into_iter().peekable());
        let mut came_to = Vec::new();
        while frames.peek().is_some() {
            let added = run.fill(&mut frames).unwrap();
            assert!(added > 0 && added == run.len());
            while !run.is_empty() {
                let left = run.len();
                let dispatched = channels.dispatch_run(&mut run, &mut answers).unwrap();
                assert_eq!((dispatched.len(), run.len()), (left.min(places), left.saturating_sub(places)));
                came_to.extend(dispatched);
            }
        }
        assert_eq!(came_to, expected);
        assert!(state(&channels) == state(&single));
    }
}

/// Each job has its own frames, on its own link, behind those of the jobs before it.
#[test]
fn frames_of_each_job() {
    let mut room = [0; ROOM];
    let mut channels = made(&mut room);
    let usual = L2capChannelConfig::default();
    open(&mut channels, PHONE, &request(0x50, 100, 23, 4), &usual);
    open(&mut channels, OTHER, &request(0x51, 100, 30, 2), &usual);
    let (table, room) = state(&channels);
    let jobs: [(ChannelIndex, &[u8]); 6] = [
        (SLOT, b"first"),
        (ChannelIndex(1), &[2; 50]),
        (SLOT, &[3; 70]),
        (ChannelIndex(2), b"no slot"),
        (SLOT, b""),
        (ChannelIndex(1), b"no credit"),
    ];
    let single = jobs.map(|(index, sdu)| {
        let mut out = [0; 100];
        channels.send(index, sdu, &mut out).map(|frames| (frames.handle, frames.count, frames.octets.to_vec()))
    });
    let mut its_room = room;
    let mut again = ChannelManager::from_parts(table, &mut its_room);
    let (mut octets, mut out, mut answers) = ([0; 256], [0; 300], [[0; ANSWER_OCTETS]; 6]);
    let (mut run, mut jobs) = (JobRun::new(&mut octets), jobs.into_iter().peekable());
    assert_eq!(run.fill(&mut jobs), Ok(6));
    let sent = again.send_run(&mut run, &mut out, &mut answers).unwrap();
    assert_eq!(sent.len(), 6);
    let sent: Vec<_> = sent.map(|job| job.map(|frames| (frames.handle, frames.count, frames.octets.to_vec()))).collect();
    assert_eq!(sent, single);
    assert_eq!(
        sent.iter().map(|job| job.as_ref().map(|frames| frames.1).map_err(|refusal| refusal.number())).collect::<Vec<_>>(),
        [Ok(1), Ok(2), Err(14), Err(6), Ok(1), Err(14)]
    );
    assert!(again.table() == channels.table());
}

/// A run that is refused is still whole; an empty one does nothing, also without a place for an answer.
#[test]
fn a_refused_run_is_whole() {
    let (table, room) = busy();
    let mut answers = [[0; ANSWER_OCTETS]];
    for (table, room, answers, refusal) in [
        (Table::from_octets([0; TABLE_OCTETS]), &room[..], &mut answers[..], Refusal::BadTable),
        (table.clone(), &room[1..], &mut [[0; ANSWER_OCTETS]][..], Refusal::BadRoom),
        (table.clone(), &room, &mut [], Refusal::NoRoom),
    ] {
        let mut its_room = room.to_vec();
        let mut channels = ChannelManager::from_parts(table, &mut its_room);
        let (mut frame, mut job, mut out) = ([0; 8], [0; 3], [0x77; 20]);
        let (mut run, mut jobs) = (one_frame(&mut frame, PHONE), one_job(&mut job, SLOT));
        unchanged(&mut channels, refusal, |channels| channels.dispatch_run(&mut run, answers));
        if refusal != Refusal::BadRoom {
            unchanged(&mut channels, refusal, |channels| channels.send_run(&mut jobs, &mut out, answers));
        }
        assert_eq!((run.len(), jobs.len(), out), (1, 1, [0x77; 20]));
    }
    let mut room = room;
    let mut channels = ChannelManager::from_parts(table, &mut room);
    assert_eq!(channels.dispatch_run(&mut FrameRun::new(&mut []), &mut []).unwrap().len(), 0);
    assert_eq!(channels.send_run(&mut JobRun::new(&mut []), &mut [], &mut []).unwrap().len(), 0);
}

/// What has a place is added, the next one stays in the iterator, and one that has none anywhere is told.
#[test]
fn filling() {
    let mut octets = [0; 20];
    let mut run = FrameRun::new(&mut octets);
    let of = |length: usize| (PHONE, SLOT.cid(), &[0; 20][..length]);
    let mut frames = [of(1), of(2), of(3), of(15)].into_iter().peekable();
    assert_eq!((run.fill(&mut frames), run.len()), (Ok(2), 2));
    assert_eq!((run.fill(&mut frames), run.len()), (Err(PushError::Full), 2));
    run.clear();
    assert_eq!((run.fill(&mut frames), run.len()), (Ok(1), 1));
    run.clear();
    assert_eq!((run.fill(&mut frames), run.is_empty(), frames.peek()), (Err(PushError::Full), true, Some(&of(15))));
    frames.next();
    assert_eq!(run.fill(&mut frames), Ok(0));
    let long = vec![0; 65_536];
    let mut jobs = [(SLOT, &[1][..]), (SLOT, &long[..])].into_iter().peekable();
    let mut run = JobRun::new(&mut octets);
    assert_eq!((run.fill(&mut jobs), run.len(), jobs.len()), (Err(PushError::TooLong), 1, 1));
}
