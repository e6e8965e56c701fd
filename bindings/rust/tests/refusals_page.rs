//! docs/REFUSALS.md: its rows are the refusals, its tables say the same as one another, and a call refuses by what the page lists for it, in that order, and by
//! nothing else. And the names in examples/refusals.script.

mod common;

use common::calls::*;
use common::*;
use l2cap_channels::*;
use std::collections::{BTreeMap, BTreeSet};
use std::path::Path;

const REFUSALS: [Refusal; 25] = [
    Refusal::BadTable,
    Refusal::BadRoom,
    Refusal::NoRoom,
    Refusal::BadHandle,
    Refusal::BadSpsm,
    Refusal::BadSlot,
    Refusal::InvalidChannelId,
    Refusal::NotFound,
    Refusal::InvalidValue,
    Refusal::OutOfMemory,
    Refusal::ChannelClosed,
    Refusal::InsufficientSpace,
    Refusal::NoChannelAvailable,
    Refusal::Busy,
    Refusal::Decode,
    Refusal::NotSupported,
    Refusal::ConnectError(LeCreditConnResultCode::NoResources),
    Refusal::Disconnected,
    Refusal::ShortFrame,
    Refusal::BadMps,
    Refusal::QueueFull,
    Refusal::Held,
    Refusal::TooLong,
    Refusal::JobOpen,
    Refusal::WrongLength,
];

/// What every call tests first.
const FIRST: [u8; 5] = [1, 2, 3, 4, 6];

/// A file of the repository.
fn read(file: &str) -> String {
    std::fs::read_to_string(Path::new(env!("CARGO_MANIFEST_DIR")).join("../..").join(file)).expect(file)
}

fn name_of(refusal: Refusal) -> String {
    format!("{refusal:?}").split('(').next().expect("a name").to_owned()
}

/// The cells of each row of the table under a heading.
fn table(heading: &str) -> Vec<Vec<String>> {
    let page = read("docs/REFUSALS.md");
    let section = page.split("\n## ").find_map(|section| section.strip_prefix(heading)).expect(heading);
    let rows = section.lines().filter(|line| line.starts_with("| ")).skip(1);
    rows.map(|row| row.split('|').map(|cell| cell.trim().to_owned()).skip(1).take(row.matches('|').count() - 1).collect()).collect()
}

fn numbers(cell: &str) -> Vec<u8> {
    cell.split(' ').map(|number| number.parse().expect("numbers with a space between")).collect()
}

/// Each call's name, the letter of its line, and its refusals in order. A run has no line.
fn calls() -> Vec<(String, String, Vec<u8>)> {
    let bare = |cell: &str| cell.trim_matches('`').to_owned();
    table("The calls").iter().map(|row| (bare(&row[0]), row[1].replace('–', ""), numbers(&row[2]))).collect()
}

/// A call's refusals: those that it tests first, and its own.
fn parted(list: &[u8]) -> (&[u8], &[u8]) {
    list.split_at(list.iter().position(|number| !FIRST.contains(number)).unwrap_or(list.len()))
}

#[test]
fn its_rows_are_the_refusals() {
    let rows = table("The refusals");
    assert_eq!(rows.len(), REFUSALS.len());
    for (row, refusal) in rows.iter().zip(REFUSALS) {
        assert_eq!(row[0], refusal.number().to_string());
        assert_eq!(row[1], name_of(refusal));
        assert!(row.len() == 6 && row.iter().all(|cell| !cell.is_empty()), "{refusal}: a cell is missing");
    }
}

#[test]
fn its_tables_agree() {
    let calls = calls();
    for row in table("The refusals") {
        let number = row[0].parse().expect("a number");
        let listed = calls.iter().filter(|(_, _, list)| list.contains(&number));
        let given: Vec<String> = listed.map(|(name, letter, _)| format!("`{name}` {letter}").trim_end().to_owned()).collect();
        let wanted = if given.len() == calls.len() { "every call".to_owned() } else { given.join(", ") };
        assert_eq!(row[4], wanted, "refusal {number}");
    }
    let signals: BTreeSet<u8> = table("The signals").iter().flat_map(|row| numbers(&row[2])).collect();
    let (_, _, list) = calls.iter().find(|(name, _, _)| name == "signal").expect("signal");
    // 15 and 9, of the header check, are some signal's too.
    assert_eq!(signals, parted(list).1.iter().copied().collect());
}

#[test]
fn it_has_every_call() {
    let names: BTreeSet<String> = calls().into_iter().map(|(name, _, _)| name).collect();
    assert_eq!(names, CALLS.iter().chain(&["make"]).map(|name| name.to_string()).collect());
}

/// Everything that a call is given is bad. It refuses by the first number of its list; that is mended, and it refuses by the next.
#[test]
fn the_first_tests_are_in_its_order() {
    for (name, _, list) in calls() {
        if name == "make" {
            assert_eq!(list, [1, 2]);
            assert_eq!(ChannelManager::new(0, 2, 64, &mut []).err(), Some(Refusal::BadTable));
            assert_eq!(ChannelManager::new(2, 2, 64, &mut []).err(), Some(Refusal::BadRoom));
            assert!(ChannelManager::new(2, 2, 64, &mut [0; ROOM]).is_ok());
            continue;
        }
        let (good, whole) = busy();
        let (mut table, mut room, mut signal) = (Table::from_octets([0; TABLE_OCTETS]), Vec::new(), Vec::new());
        let (mut link, mut index) = (HIGH, ChannelIndex(255));
        let (first, _) = parted(&list);
        for number in first.iter().copied().map(Some).chain([None]) {
            let mut its_room = room.clone();
            let mut channels = ChannelManager::from_parts(table.clone(), &mut its_room);
            let refused = call(&name, &mut channels, link, index, &mut signal).map(Refusal::number);
            assert_eq!(refused.filter(|number| FIRST.contains(number)), number, "{name}: {first:?}");
            match number {
                Some(1) => table = good.clone(),
                Some(2) => room = whole.clone(),
                Some(3) => signal = BUFFER.to_vec(),
                Some(4) => link = PHONE,
                Some(_) => index = SLOT,
                None => {}
            }
        }
    }
}

/// Where two refusals of a call are due, it gives the first of them: on the page they stand side by side in this order.
fn before(name: &str, first: Refusal, second: Refusal, refused: Option<Refusal>) {
    assert_eq!(refused, Some(first), "{name}: {first} and {second} are due");
    let (_, _, list) = calls().into_iter().find(|(call, _, _)| call == name).expect(name);
    assert!(list.windows(2).any(|two| two == [first.number(), second.number()]), "{name}: {second} isn't next to {first}");
}

#[test]
fn the_other_tests_are_in_its_order() {
    use Refusal::*;
    let refused = ConnectError(LeCreditConnResultCode::NoResources);
    let usual = L2capChannelConfig::default();
    let large = L2capChannelConfig { mtu: Some(59), ..usual };
    let (mut signal, mut out) = (BUFFER, [0; 64]);

    // Nothing is in the slot, and nobody holds it.
    let mut room = [0; ROOM];
    let mut channels = made(&mut room);
    before("accept_pending", InsufficientSpace, NotFound, channels.accept_pending(SLOT, &large, &mut signal).err());
    before("accept_pending", NotFound, Held, channels.accept_pending(SLOT, &usual, &mut signal).err());
    before(
        "reject_pending",
        NotFound,
        Held,
        ended(channels.reject_pending(Hold::of(SLOT), LeCreditConnResultCode::NoResources, &mut signal)).err(),
    );
    before("opened", Disconnected, NotFound, channels.opened(SLOT, PHONE, true).err());
    before("send", ChannelClosed, JobOpen, channels.send(SLOT, &[1], &mut out).err());
    before("start_job", ChannelClosed, JobOpen, channels.start_job(SLOT, 1, &mut out).err());
    before("give_portion", ChannelClosed, NotFound, channels.give_portion(SLOT, &[1], &mut out).err());
    before("cancel_job", ChannelClosed, NotFound, channels.cancel_job(SLOT).err());
    for (first, second, pdu) in [
        (InvalidValue, NotSupported, "9901000016090500"),
        (Decode, NotFound, "15010a0050006400170005000300"),
        (NotFound, refused, "15010a0050006400170005000400"),
    ] {
        before("signal", first, second, feed(&mut channels, PHONE, pdu)[0].0.err());
    }

    // No slot is free.
    channels.inc_ref(SLOT).expect("held").into_index();
    channels.inc_ref(ChannelIndex(1)).expect("held").into_index();
    before("create", InsufficientSpace, NoChannelAvailable, channels.create(PHONE, SPSM, &large, &mut signal).err());

    // An attempt that failed, on a link that is down, and held.
    let mut room = [0; ROOM];
    let mut channels = made(&mut room);
    for (up, pdu, first, second) in
        [(false, "15010a0000000000000000000400", Disconnected, refused), (true, "15020a0000000000000000000400", refused, Held)]
    {
        channels.create(PHONE, SPSM, &usual, &mut signal).expect("an attempt");
        assert_eq!(feed(&mut channels, PHONE, pdu)[0].0, Err(refused));
        if up {
            channels.inc_ref(SLOT).expect("held").into_index();
        }
        before("opened", first, second, channels.opened(SLOT, PHONE, up).err());
    }

    // An attempt that the peer refuses, with numbers that are too small too.
    let mut room = [0; ROOM];
    let mut channels = made(&mut room);
    channels.create(PHONE, SPSM, &usual, &mut signal).expect("an attempt");
    before("signal", refused, InvalidValue, feed(&mut channels, PHONE, "15010a0050001600160005000400")[0].0.err());

    // An open channel, held, without a credit on either side, and with an MPS of the peer's that is too small: no call leaves one.
    let mut room = [0; ROOM];
    let mut channels = made(&mut room);
    open(&mut channels, PHONE, &request(0x50, 65535, 23, 0), &L2capChannelConfig { mps: Some(23), initial_credits: Some(0), ..usual });
    let mut channels = with_peer_mps(channels, SLOT, 22);
    before("opened", NotFound, Disconnected, channels.opened(SLOT, OTHER, false).err());
    before("dispatch", NotFound, OutOfMemory, channels.dispatch(OTHER, SLOT.cid(), &[]).err());
    before("dispatch", OutOfMemory, InvalidValue, channels.dispatch(PHONE, SLOT.cid(), &[0; 24]).err());
    before("send", InsufficientSpace, TooLong, channels.send(SLOT, &vec![1; 65536], &mut out).err());
    before("send", TooLong, BadMps, channels.send(SLOT, &vec![1; 65534], &mut out).err());
    before("send", BadMps, Busy, channels.send(SLOT, &[1], &mut out).err());
    before("start_job", InsufficientSpace, TooLong, channels.start_job(SLOT, usize::MAX, &mut out).err());
    before("start_job", TooLong, BadMps, channels.start_job(SLOT, 65534, &mut out).err());
    before("start_job", BadMps, Busy, channels.start_job(SLOT, 1, &mut out).err());
    before("give_portion", NotFound, NoRoom, channels.give_portion(SLOT, &[1], &mut []).err());

    // An open channel on which we take frames of no octets.
    let mut room = [0; ROOM];
    let mut channels = made(&mut room);
    open(&mut channels, PHONE, &request(0x50, 100, 23, 5), &L2capChannelConfig { mps: Some(0), ..usual });
    before("dispatch", InvalidValue, ShortFrame, channels.dispatch(PHONE, SLOT.cid(), &[1]).err());

    // An open channel without a credit for us, in which two jobs wait.
    let mut room = [0; ROOM];
    let mut channels = made(&mut room);
    open(&mut channels, PHONE, &request(0x50, 100, 23, 0), &L2capChannelConfig { initial_credits: Some(9), ..usual });
    before("send", Busy, NoRoom, channels.send(SLOT, &[1], &mut []).err());
    before("start_job", Busy, NoRoom, channels.start_job(SLOT, 1, &mut []).err());
    for _ in 0..2 {
        channels.dispatch(PHONE, SLOT.cid(), &[0, 0]).expect("a job");
    }
    before("dispatch", InvalidValue, QueueFull, channels.dispatch(PHONE, SLOT.cid(), &[1, 0, 1, 2]).err());

    // A job waits in a slot that is closed, as no call leaves it, and the buffer is shorter.
    let mut room = [0; ROOM];
    let mut channels = made(&mut room);
    opened(&mut channels);
    channels.dispatch(PHONE, SLOT.cid(), &[1, 0, 1]).expect("a job");
    let mut octets = *channels.table().octets();
    octets[cell(0, 0)] = 0;
    let mut channels = ChannelManager::from_parts(Table::from_octets(octets), &mut room);
    before("receive", ChannelClosed, InsufficientSpace, channels.receive(SLOT, &mut [], &mut signal).err());

    // An open channel with an open job.
    let mut room = [0; ROOM];
    let mut channels = made(&mut room);
    opened(&mut channels);
    let _ = channels.start_job(SLOT, 3, &mut out).expect("a job");
    before("send", JobOpen, InsufficientSpace, channels.send(SLOT, &[1; 101], &mut out).err());
    before("start_job", JobOpen, InsufficientSpace, channels.start_job(SLOT, 101, &mut out).err());
    before("give_portion", NoRoom, WrongLength, channels.give_portion(SLOT, &[1; 4], &mut out[..8]).err());
}

/// Where a request is turned down, its response has the first result that the page lists for it: for each two beside one another a request that both are due for.
#[test]
fn results_of_a_connect_request_are_in_its_order() {
    let row = table("The signals").into_iter().find(|row| row[0] == "0x14").expect("connect requests");
    let (_, list) = row[3].split_once(": result ").expect("the results");
    let listed: Vec<u16> = list.split(", ").map(|result| numbers(result.split(' ').next().expect("a number"))[0].into()).collect();
    // Two requests of this phone wait: no slot is free, and its CID 0x50 is in use.
    let mut room = [0; ROOM];
    let mut channels = made(&mut room);
    feed(&mut channels, PHONE, &request(0x50, 100, 23, 5));
    feed(&mut channels, PHONE, &request(0x51, 100, 23, 5));
    let before = state(&channels);
    // Everything is wrong: the SPSM, nobody listens, the sizes, the CID, the slots. One after the other is mended.
    let (mut listens, mut pdu) = (false, [0x14, 7, 10, 0, 0x81, 0, 0x50, 0, 22, 0, 22, 0, 5, 0]);
    let mut told = Vec::new();
    for step in 0..5 {
        match step {
            1 => pdu[4] = 0x80,
            2 => listens = true,
            3 => (pdu[8], pdu[10]) = (23, 23),
            4 => pdu[6] = 0x52,
            _ => {}
        }
        let mut reply = [0; SIGNAL_OCTETS];
        let one = channels.signal(PHONE, listens, LeConnRole::Central, &pdu, &mut reply);
        assert_eq!((one.outcome, one.reply.len()), (Ok(None), 18));
        told.push(u16::from_le_bytes([one.reply[16], one.reply[17]]));
        assert!(before == state(&channels), "a request that is turned down leaves nothing");
    }
    assert_eq!(told, listed);
    assert_eq!(told, [2, 4, 11, 10, 4]);
}

/// A script's comment that begins with a number names that refusal, and the next line's row has it.
#[test]
fn the_script_of_refusals_names_them() {
    let script = read("examples/refusals.script");
    let rows = read("examples/refusals.rows");
    // One row a line; of a view, the first alone.
    let mut rows = rows.lines().skip(1).filter(|row| !row.starts_with('='));
    let (mut said, mut named) = (None, BTreeSet::new());
    for line in script.lines().filter(|line| !line.is_empty()) {
        if let Some(comment) = line.strip_prefix("# ") {
            let mut words = comment.split([' ', ':', ',']);
            said = words.next().and_then(|word| word.parse::<usize>().ok());
            if let Some(number) = said {
                assert!(words.next().is_some_and(|name| name == name_of(REFUSALS[number - 1])), "{comment}");
            }
        } else {
            let row = rows.next().expect("a row a line");
            if let Some(number) = said.take() {
                assert_eq!(row.split(' ').next(), Some(number.to_string().as_str()), "{line}");
                named.insert(number);
            }
        }
    }
    // 2 and 20 can't be reached, and 23 needs a long line.
    assert_eq!(named, (1..=25).filter(|number| ![2, 20, 23].contains(number)).collect());
}

/// Numbers that look drawn, the same in every run.
struct Chance(u64);

impl Chance {
    fn of<T: Copy>(&mut self, from: &[T]) -> T {
        self.0 = self.0.wrapping_mul(6364136223846793005).wrapping_add(1442695040888963407);
        from[(self.0 >> 33) as usize % from.len()]
    }
}

/// A signal, and what the page calls it: its code where its header is good.
fn any_signal(chance: &mut Chance, table: &Table) -> (Vec<u8>, String) {
    let code = chance.of(&[0x01, 0x06, 0x07, 0x12, 0x13, 0x14, 0x15, 0x16, 0x14, 0x15, 0x16, 0x02]);
    let fields: [u16; 5] = match code {
        0x06 | 0x07 => [chance.of(&[0x3F, 0x40, 0x41]), chance.of(&[0x40, 0x41]), 0, 0, 0],
        0x14 => [SPSM, chance.of(&[0x50, 0x51]), chance.of(&[100, 65535]), chance.of(&[22, 23, 65535]), chance.of(&[0, 5, 65535])],
        0x15 => [chance.of(&[0x50, 0x51]), 65535, chance.of(&[22, 23, 65535]), chance.of(&[0, 5, 65535]), chance.of(&[0, 0, 3, 4])],
        0x16 => [chance.of(&[0x50, 0x51]), chance.of(&[1, 65535]), 0, 0, 0],
        _ => [6, 6, 0, 10, 0],
    };
    let body: Vec<u8> = fields.iter().flat_map(|field| field.to_le_bytes()).collect();
    let length = match code {
        0x01 | 0x13 => 2,
        0x06 | 0x07 | 0x16 => 4,
        0x12 => 8,
        _ => 10,
    };
    // The last identifiers that we gave, for a response.
    let identifier = table.identifier().wrapping_sub(chance.of(&[1, 1, 2, 3]));
    let length = length - chance.of(&[0, 0, 0, 0, 1]);
    let mut pdu = [&[code, identifier, length as u8, 0], &body[..length]].concat();
    let name = match chance.of(&[0, 0, 0, 0, 0, 1, 2]) {
        0 if code == 0x02 => "another".to_owned(),
        0 => format!("{code:#04x}"),
        cut => {
            pdu.truncate(if cut == 1 { 3 } else { 4 });
            "a bad header".to_owned()
        }
    };
    (pdu, name)
}

/// A call by chance, on slots and links that pass the first tests: what it refuses by.
fn any_call(name: &str, chance: &mut Chance, channels: &mut ChannelManager<'_>, out: &mut [u8]) -> Option<Refusal> {
    let (link, up) = (chance.of(&[PHONE, PHONE, OTHER]), chance.of(&[true, true, false]));
    let index = chance.of(&[SLOT, SLOT, ChannelIndex(1)]);
    let config = L2capChannelConfig {
        mtu: chance.of(&[None, None, Some(59)]),
        mps: chance.of(&[None, None, Some(3), Some(61)]),
        initial_credits: chance.of(&[None, Some(1), Some(9)]),
        ..Default::default()
    };
    let mut signal = BUFFER;
    match name {
        "register_spsm" => channels.register_spsm(chance.of(&[0, SPSM, 256])).err(),
        "next_pending" => channels.next_pending(link, up).map(|hold| hold.map(Hold::into_index)).err(),
        "accept_pending" => channels.accept_pending(index, &config, &mut signal).err(),
        "create" => channels.create(link, SPSM, &config, &mut signal).err(),
        "opened" => channels.opened(index, link, up).map(|hold| hold.map(Hold::into_index)).err(),
        "inc_ref" => (0..chance.of(&[1, 1, 1, 255])).find_map(|_| channels.inc_ref(index).map(Hold::into_index).err()),
        "dec_ref" => (0..chance.of(&[1, 1, 255, 255])).find_map(|_| ended(channels.dec_ref(Hold::of(index))).err()),
        "dispatch" => {
            let payload: &[u8] = chance.of(&[&[], &[1], &[2, 0, 1, 2], &[2, 0, 1, 2], &[2, 0, 1], &[1, 0, 1, 2], &[59, 0]]);
            channels.dispatch(link, Cid(chance.of(&[0x3F, 0x40, 0x40, 0x40, 0x41, 0x42])), payload).err()
        }
        "send" => {
            let length = chance.of(&[0, 22, 101, 65533, 65534]);
            let most = chance.of(&[5, out.len()]);
            channels.send(index, &vec![1; length], &mut out[..most]).err()
        }
        "start_job" => {
            let length = chance.of(&[0, 22, 22, 30, 101, 65533, 65534]);
            let most = chance.of(&[5, out.len()]);
            channels.start_job(index, length, &mut out[..most]).map(|_| ()).err()
        }
        "give_portion" => {
            let most = chance.of(&[5, out.len(), out.len(), out.len()]);
            channels.give_portion(index, &[1; 60][..chance.of(&[0, 1, 22, 60])], &mut out[..most]).err()
        }
        "receive" => channels.receive(index, &mut [0; 2][..chance.of(&[0, 1, 2])], &mut signal).err(),
        // a run that has no place for an answer
        "dispatch_run" if chance.of(&[true, false]) => channels.dispatch_run(&mut one_frame(&mut [0; 8], link), &mut []).err(),
        "send_run" if chance.of(&[true, false]) => channels.send_run(&mut one_job(&mut [0; 8], index), out, &mut []).err(),
        other => call(other, channels, link, index, &mut signal),
    }
}

/// Many short runs of calls by chance give every refusal that the page lists behind a call's first tests, and no other. 20 is given where the octets of a table were
/// changed, as the page says, and nowhere else.
#[test]
fn runs_by_chance_give_what_it_lists() {
    let mut seen: BTreeMap<String, BTreeSet<u8>> = BTreeMap::new();
    let (mut out, mut chance) = (vec![0; 76_935], Chance(17));
    let bad_mps = Some(Refusal::BadMps);
    // Most calls end a channel or ask. Those with the most to refuse come more often.
    let often = [&["signal"; 20][..], &["next_pending"; 4], &["opened"; 10], &["dispatch"; 40], &["send"; 10], &["start_job"; 15]];
    let names = [&CALLS[..], &often.concat(), &["give_portion"; 15]].concat();
    for _ in 0..8_000 {
        let mut room = [0; ROOM];
        let mut channels = made(&mut room);
        let mut forged = false;
        if chance.of(&[true, false]) {
            let wanted = request(0x50, chance.of(&[100, 65535]), chance.of(&[23, 65535]), chance.of(&[1, 65535]));
            open(&mut channels, PHONE, &wanted, &L2capChannelConfig { initial_credits: chance.of(&[None, Some(9)]), ..Default::default() });
            forged = chance.of(&[true, false, false]);
            if forged {
                channels = with_peer_mps(channels, SLOT, 22);
            }
        } else {
            channels.create(PHONE, SPSM, &L2capChannelConfig::default(), &mut BUFFER.clone()).expect("an attempt");
        }
        for _ in 0..20 {
            let name = chance.of(&names);
            let refused = if name == "signal" {
                let (pdu, kind) = any_signal(&mut chance, channels.table());
                let (link, mut reply) = (chance.of(&[PHONE, PHONE, OTHER]), BUFFER);
                let refused = channels.signal(link, true, LeConnRole::Central, &pdu, &mut reply).outcome.err();
                seen.entry(kind).or_default().extend(refused.map(Refusal::number));
                refused
            } else {
                any_call(name, &mut chance, &mut channels, &mut out)
            };
            assert!(forged || refused != bad_mps, "{name}: no call leaves an MPS under 23");
            seen.entry(name.to_owned()).or_default().extend(refused.map(Refusal::number));
        }
    }
    let mut listed = BTreeMap::from([("a bad header".to_owned(), BTreeSet::from([15, 9]))]);
    for (name, _, list) in calls().into_iter().filter(|(name, _, _)| name != "make") {
        listed.insert(name, parted(&list).1.iter().copied().collect());
    }
    for row in table("The signals") {
        listed.insert(row[0].clone(), numbers(&row[2]).into_iter().collect());
    }
    // In Rust results and runs are types: a reject with a number that is none can't be said, nor half a frame.
    for name in ["reject_pending", "dispatch_run", "send_run"] {
        assert!(listed.get_mut(name).expect(name).remove(&15));
    }
    assert_eq!(seen, listed);
}
