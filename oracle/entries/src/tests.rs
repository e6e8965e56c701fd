//! The comparison's own tests: that it looks at every octet, and that its parts fit together.

use crate::layout::{read, spell};
use crate::lent::Lent;
use crate::memory::{Asked, Memory};
use crate::port::Entries;
use crate::row::row;
use crate::{archive, faults};
use language::{Call, Manner};
use oracle::play::quiet;
use oracle::port::Port;
use oracle::run::{script, Extent};
use oracle::script::Script;

/// The same with a job in portions, of which a frame is out and the next one begun.
const PORTIONED: [&str; 4] =
    ["N 0 30 27", "p 0 27 0102030405060708090a0b0c0d0e0f101112131415161718191a1b1c1d1e", "p 0 27 16171819", "p 0 27 1a"];

/// An open channel with a job that waits and half of another, then a call that writes to every buffer.
const BUSY: [&str; 8] =
    ["T 3 2 64", "R 128", "S 1 1 c 14070a0080005000640017000500", "P 1 1", "A 0 - - m2 3", "F 1 64 0300aabbcc", "F 1 64 09000102", "B 0 5"];

fn judged(lines: &[&str]) -> Script {
    quiet();
    let calls: Vec<Call> = lines.iter().map(|line| Call::parse(line)).collect();
    Script::of(&calls).expect("a script that the original plays")
}

#[test]
fn the_sample_of_document_01() {
    let script = "T 2 1 64\nR 128\nS 1 1 c 14070a0080004000170017000500\nS 1 1 c 14080a0081004100170017000500\n";
    let rows = Entries::new(None).rows(script).unwrap();
    assert_eq!(rows, ["0 -", "0 -", "0 -", "0 0e00050015080a0000000000000000000200"]);
}

#[test]
fn what_is_no_call_has_no_row() {
    let rows = Entries::new(None).rows("# a scene\r\n\nT 2 1 64\r\n#\nR 128\n x").unwrap();
    assert_eq!(rows, ["0 -", "0 -", "? -"]);
}

#[test]
fn octets_spell_the_table_that_is_read_from_them() {
    quiet();
    for number in 0..40 {
        for step in script(&Extent::default(), number).steps {
            step.after.iter().for_each(|sight| assert_eq!(read(&spell(&sight.view)), sight.view));
        }
    }
}

#[test]
fn no_octet_is_out_of_sight() {
    in_sight(&BUSY, "0 aabbcc 3 3 080005001601040040000200");
}

/// So after a take that is refused for its buffer, which leaves every octet as it was.
#[test]
fn no_octet_is_out_of_sight_of_a_short_take() {
    in_sight(&[&BUSY[..7], &["B 0 2"]].concat(), "12 -");
}

/// Changes every octet that the last call was lent: each must be noticed.
fn in_sight(lines: &[&str], told: &str) {
    let script = judged(lines);
    let mut memory = Memory::new();
    script.steps.iter().for_each(|step| memory.enter(Asked { call: &step.call, pdu: pdu(&step.call), question: 0 }));
    let last = script.steps.last().unwrap();
    let same = |memory: &Memory| {
        let told = row(memory, Asked { call: &last.call, pdu: &[], question: 0 }, 1).to_string();
        Some(&told) == last.port[0].as_ref() && memory.differs(&last.after[0]).is_none()
    };
    assert!(same(&memory));
    assert_eq!(last.port[0].as_deref(), Some(told));
    let lent: [fn(&mut Memory) -> &mut Lent; 5] = [
        |memory| &mut memory.table,
        |memory| &mut memory.room,
        |memory| &mut memory.answer,
        |memory| &mut memory.signal,
        |memory| &mut memory.job,
    ];
    for of in lent {
        for at in 0..of(&mut memory).whole().len() {
            of(&mut memory).whole()[at] ^= 0x10;
            assert!(!same(&memory), "octet {at}");
            of(&mut memory).whole()[at] ^= 0x10;
        }
    }
    memory.number = 1;
    assert!(!same(&memory));
}

/// Of every slot's buffer what was written and what wasn't, and the octets behind.
#[test]
fn no_octet_of_a_buffer_is_out_of_sight() {
    let script = judged(&[&BUSY[..], &PORTIONED].concat());
    let mut memory = Memory::new();
    script.steps.iter().for_each(|step| memory.enter(Asked { call: &step.call, pdu: pdu(&step.call), question: 0 }));
    let after = &script.steps.last().unwrap().after[0];
    assert!(memory.differs(after).is_none());
    for slot in 0..after.view.slots.len() {
        for at in 0..memory.buffers[slot].whole().len() {
            memory.buffers[slot].whole()[at] ^= 0x10;
            assert!(memory.differs(after).is_some(), "slot {slot}, octet {at}");
            memory.buffers[slot].whole()[at] ^= 0x10;
        }
    }
}

/// The scripts of document 02's readings whose rows aren't the original's: a second job, credits set aside, and a late cancel.
#[test]
fn the_rows_of_document_02() {
    let open = "T 2 2 64\nR 128\nS 1 1 c 14070a0080005000640017000500\nP 1 1\nA 0 - - - -\n";
    let rich = open.replace("17000500", "1700ffff");
    let o22: String = (1..=22).map(|octet| format!("{octet:02x}")).collect();
    let last = |script: String| Entries::new(None).rows(&script).unwrap().pop().unwrap();
    assert_eq!(last(format!("{open}N 0 5 11\nK 0 aa\n")), "24 -");
    assert_eq!(last(format!("{open}N 0 25 27\np 0 27 {o22}aabbccdd\n")), "25 -");
    assert_eq!(last(format!("{rich}N 0 22 27\nS 1 1 c 1609040050000100\n")), "9 -");
    assert_eq!(last(format!("{rich}N 0 22 27\np 0 27 {o22}\nS 1 1 c 1609040050000100\n")), "0 -");
    let rows = Entries::new(None).rows(&format!("{open}N 0 30 27\np 0 27 {o22}\nx 0\nV\n")).unwrap();
    assert_eq!(rows[9], "= 0 disconnecting 1 64 128 60 58 e1 2 0 80 23 100 3 1 0 0 0");
}

/// The same of its sizes: what a response below 23 leaves, and that our disconnect request then names the peer's CID; and a frame longer than our MPS, whose first test this is.
#[test]
fn the_sizes_of_document_02() {
    let base = "T 2 2 64\nR 128\n";
    let play = |script: String| Entries::new(None).rows(&script).unwrap();
    let last = |script: String| play(script).pop().unwrap();
    let request = |sizes: &str| last(format!("{base}S 1 1 c 14070a0080005000{sizes}0500\n"));
    let refused = "0 0e00050015070a0000000000000000000b00";
    for (sizes, row) in [("16001700", refused), ("17001600", refused), ("00000000", refused), ("17001700", "0 -")] {
        assert_eq!(request(sizes), row, "{sizes}");
    }
    let mine = format!("{base}C 1 128 - - - -\n");
    assert_eq!(last(format!("{mine}S 1 1 c 15010a0050001600160005000400\n")), "17 - 4");
    assert_eq!(last(format!("{mine}S 1 1 c 15020a0050001600160005000000\n")), "8 -");
    let rows = play(format!("{mine}S 1 1 c 15010a0050006400160005000000\nU 0\nV\nQ\nS 1 1 c 0702040050004000\nV\n"));
    assert_eq!(rows[3..6], ["9 -", "0 - 128 58 60 100 22", "0 - 2 2 64 2"]);
    assert_eq!(rows[6], "= 0 disconnecting 1 64 128 60 58 e1 2 0 80 22 100 5 0 0 0 0");
    assert_eq!(rows[8], "0 080005000602040050004000 1 0");
    assert_eq!(rows[11], "= 0 disconnected 0 64 0 0 0 e1 0 0 0 0 0 0 0 0 0 0");
    let open = |mps: &str| format!("{base}S 1 1 c 14070a0080005000640017000500\nP 1 1\nA 0 - {mps} - 10\n");
    let octets = |count: usize| "aa".repeat(count);
    assert_eq!(last(format!("{}F 1 64 1500{}\n", open("23"), octets(21))), "0 -");
    assert_eq!(last(format!("{}F 1 64 1600{}\n", open("23"), octets(22))), "9 -");
    assert_eq!(last(format!("{}F 1 64 3000aa\nF 1 64 {}\n", open("23"), octets(23))), "0 -");
    assert_eq!(last(format!("{}F 1 64 3000aa\nF 1 64 {}\n", open("23"), octets(24))), "9 -");
    assert_eq!(last(format!("{}F 1 64 05\n", open("0"))), "9 -");
    assert_eq!(last(format!("{}F 1 64 05\n", open("1"))), "19 -");
}

/// The same of its takes: a shorter buffer is refused behind 11 and where a job waits, while disconnecting too, and all stays for the next take.
#[test]
fn the_takes_of_document_02() {
    let open = "T 2 2 64\nR 128\nS 1 1 c 14070a0080005000640017000500\nP 1 1\nA 0 - - - -\n";
    let play = |script: String| Entries::new(None).rows(&script).unwrap();
    let last = |script: String| play(script).pop().unwrap();
    assert_eq!(last(format!("{open}B 0 0\n")), "0 -");
    assert_eq!(last(format!("{open}B 1 0\n")), "11 -");
    assert_eq!(last(format!("{open}F 1 64 0000\nB 0 0\n")), "0 - 0 0 080005001601040040000100");
    assert_eq!(last(format!("{open}F 1 64 0300010203\nD 0\nB 0 2\n")), "12 -");
    assert_eq!(last(format!("{open}F 1 64 0300010203\nD 0\nB 0 2\nB 0 3\n")), "0 010203 3 3 -");
    let rows = play(format!("{open}F 1 64 0300010203\nF 1 64 0100aa\nV\nB 0 2\nV\nI\nB 0 3\nB 0 0\nB 0 1\n"));
    assert_eq!(rows[10], "12 -");
    assert_eq!(rows[7..10], rows[11..14], "nothing has changed");
    assert_eq!(rows[14..], ["0 - 1 1 0", "0 010203 3 3 080005001601040040000200", "12 -", "0 aa 1 1 -"]);
}

/// The same of its tallies: the scripts of the readings, and what the original has otherwise (55, 56).
#[test]
fn the_tallies_of_document_02() {
    let open = "T 2 2 64\nR 128\nS 1 1 c 14070a0080005000640017000500\nP 1 1\nA 0 - - - -\n";
    let last = |script: String| Entries::new(None).rows(&script).unwrap().pop().unwrap();
    assert_eq!(last(format!("{open}F 1 64 0300010203\nK 0 aa\nt 0\n")), "0 - 1 1 0 0");
    assert_eq!(last(format!("{open}F 1 64 0300010203\nK 0 aa\nD 0\nt 0\n")), "0 - 0 0 0 0");
    assert_eq!(last(format!("{open}F 1 64 0300010203\nS 1 1 c 0621040040005000\nt 0\n")), "0 - 0 1 0 0");
    assert_eq!(last(format!("{open}F 1 64 0300010203\nS 1 1 c 0621040040005000\nQ\nt 0\n")), "0 - 0 0 0 0");
    assert_eq!(last(format!("{}F 1 64 0000\nF 1 64 0000\nt 0\n", open.replace("T 2 2", "T 1 1").replace("- -\n", "- 2\n"))), "0 - 0 2 0 0");
    assert_eq!(last(format!("{open}N 0 30 27\nx 0\nt 0\n")), "0 - 2 0 0 0");
    assert_eq!(last(format!("{open}K 0 {}\nN 0 30 27\nK 0 aa\nt 0\n", "00".repeat(100))), "0 - 5 0 2 0");
    assert_eq!(last(format!("{open}t 2\n")), "6 -");
    assert_eq!(last(format!("{open}t 256\n")), "6 -");
}

/// Difference 56: a send whose output is too short takes no credits, and counts nothing.
#[test]
fn a_send_that_lacks_its_output_counts_nothing() {
    let script = judged(&[&BUSY[..5], &["F 1 64 0300aabbcc", "K 0 -"]].concat());
    let mut memory = Memory::new();
    script.steps.iter().for_each(|step| memory.enter(Asked { call: &step.call, pdu: pdu(&step.call), question: 0 }));
    let before = *memory.table();
    assert_eq!(memory.view().slots[0].tallies.numbers(), [1, 1, 0, 0]);
    let send = |memory: &mut Memory, out: &mut [u8]| archive::send(memory.table.lend(), memory.answer.lend(), out, 0, &[0xaa, 0xbb, 0xcc]);
    assert_eq!(send(&mut memory, &mut [0; 8]), 3);
    assert_eq!(*memory.table(), before);
    assert_eq!(send(&mut memory, &mut [0; 9]), 0);
    assert_eq!(memory.view().slots[0].tallies.numbers(), [2, 1, 0, 0]);
}

/// Difference 57: from 2^64 - 1 each tally goes on to 0, on both sides, and changes no other.
#[test]
fn tallies_wrap_on_both_sides() {
    quiet();
    let calls: Vec<Call> = [&BUSY[..4], &["A 0 - - - 1", "K 0 -", "t 0", "F 1 64 0000", "t 0", "F 1 64 0000", "t 0"]]
        .concat()
        .iter()
        .map(|line| Call::parse(line))
        .collect();
    let counted = Script::in_manner(&calls, Manner { counted: u64::MAX, ..Manner::default() }).unwrap();
    assert!(Entries::new(None).differences(std::slice::from_ref(&counted)).unwrap().is_empty());
    let most = u64::MAX;
    assert_eq!(counted.steps[10].port, [Some(format!("0 - 0 0 {most} 0"))]);
    assert_eq!(counted.steps[8].port, [Some(format!("0 - 0 0 {most} {most}"))]);
    let stops = faults::wrapping().next().unwrap();
    assert!(!Entries::new(Some(stops)).differences(std::slice::from_ref(&counted)).unwrap().is_empty());
}

fn pdu(call: &Call) -> &[u8] {
    match call {
        Call::Signal { pdu, .. } => pdu,
        _ => &[],
    }
}

#[test]
fn a_script_without_a_fault_has_no_difference_and_one_with_the_lost_line_has() {
    let ends = ["D 0", "Q", "S 1 1 c 0701040050004000", "L 0", "S 2 1 c 14080a0080005100640017000500", "P 2 1", "A 0 - - - -"];
    let script = judged(&[&BUSY[..], &ends].concat());
    assert!(Entries::new(None).differences(std::slice::from_ref(&script)).unwrap().is_empty());
    let lost = faults::all().next().unwrap();
    let found = Entries::new(Some(lost)).differences(std::slice::from_ref(&script)).unwrap();
    assert_eq!(found[0].1.step, script.steps.len() - 1, "where the slot opens again");
}

#[test]
fn the_faults_are_forty_or_more_and_each_its_own() {
    let mut titles: Vec<&str> = faults::all().chain(faults::wrapping()).map(|fault| fault.title).collect();
    assert!(titles.len() >= 40);
    titles.sort_unstable();
    assert!(titles.windows(2).all(|two| two[0] != two[1]));
}
