//! What is proved of runs is carried to each public function by a lemma of `rules_code`, and to each entry by a line of `edge_runs`. Their premises are the functions'
//! contracts, written again: here the texts are held together, so that a contract that changes takes its lemma along. (The prover has no name for another
//! crate's contract.)

use std::fs::read_to_string;
use std::path::Path;

/// The files whose public functions are calls of a run. (`call_make` stands at a run's start: `Makes` in CodeRun.antt.)
const SOURCES: [&str; 25] = [
    "call_register_spsm/src/lib.rt",
    "call_queries/src/lib.rt",
    "call_send_parameters/src/lib.rt",
    "call_attention/src/lib.rt",
    "call_next_pending/src/lib.rt",
    "call_drop/src/lib.rt",
    "call_reject_all/src/lib.rt",
    "call_accept/src/lib.rt",
    "call_reject/src/coded.rt",
    "call_reject/src/lib.rt",
    "call_create/src/lib.rt",
    "call_opened/src/lib.rt",
    "call_give_up/src/lib.rt",
    "call_hold/src/lib.rt",
    "call_hold/src/release.rt",
    "call_disconnect/src/lib.rt",
    "call_link_down/src/lib.rt",
    "call_next_disconnect/src/lib.rt",
    "call_signal/src/lib.rt",
    "call_dispatch/src/lib.rt",
    "call_send/src/lib.rt",
    "call_start_job/src/lib.rt",
    "call_give_portion/src/lib.rt",
    "call_cancel_job/src/lib.rt",
    "call_receive/src/lib.rt",
];

/// What a contract calls something, and what the lemma calls it in a state s of a run, with the windows w and v. (In a contract `result` is what the function returns,
/// so that a result code is named `res` or `outcome` there.)
const IN_A_RUN: [(&str, &str); 20] = [
    ("result", "r"),
    ("res", "result"),
    ("outcome", "result"),
    ("t", "s.table"),
    ("room.old", "s.room"),
    ("room.new", "room'"),
    ("signal.old", "(lent w s.memory)"),
    ("signal.new", "signal'"),
    ("out.old", "(lent w s.memory)"),
    ("out.new", "signal'"),
    ("buffer.old", "(lent w s.memory)"),
    ("buffer.new", "signal'"),
    ("octets.now", "octets"),
    ("job.old", "(lent v s.memory)"),
    ("job.new", "job'"),
    ("sdu.now", "sdu"),
    ("payload.now", "payload"),
    ("pdu.now", "pdu"),
    ("slot.0", "slot"),
    ("cid.0", "cid"),
];

/// The same of an entry and its line.
const AT_AN_ENTRY: [(&str, &str); 16] = [
    ("res", "result"),
    ("table.old", "table"),
    ("table.now", "table"),
    ("answer.old", "answer"),
    ("room.old", "room"),
    ("signal.old", "(lent w memory)"),
    ("out.old", "(lent w memory)"),
    ("buffer.old", "(lent w memory)"),
    ("octets.now", "octets"),
    ("job.old", "(lent v memory)"),
    ("pdu.now", "pdu"),
    ("payload.now", "payload"),
    ("sdu.now", "sdu"),
    ("mtu", "ourMtu"),
    ("mps", "ourMps"),
    ("spsm", "number"),
];

/// A file of a crate, its words one space apart.
fn read(path: &str) -> String {
    let path = Path::new(env!("CARGO_MANIFEST_DIR")).join("../crates").join(path);
    let text = read_to_string(&path).unwrap_or_else(|error| panic!("{}: {error}", path.display()));
    text.split_whitespace().collect::<Vec<_>>().join(" ")
}

/// The functions of a source that begin so, each with its contract.
fn contracts<'a>(source: &'a str, begin: &str) -> Vec<(&'a str, &'a str)> {
    let functions = source.split(begin).skip(1);
    functions
        .map(|text| {
            let name = text.split('(').next().unwrap_or_default();
            let contract = text.split_once("ensures { ").and_then(|(_, rest)| rest.split_once(" }"));
            (name, contract.unwrap_or_else(|| panic!("{name} has no contract")).0)
        })
        .collect()
}

/// A contract with other words for what it names.
fn renamed(contract: &str, words: &[(&str, &str)]) -> String {
    let mut text = String::new();
    for word in contract.split_inclusive([' ', '(', ')']) {
        let end = word.len() - usize::from(word.ends_with([' ', '(', ')']));
        let found = words.iter().find(|(from, _)| *from == &word[..end]);
        text.push_str(found.map_or(&word[..end], |(_, to)| to));
        text.push_str(&word[end..]);
    }
    text
}

/// The premise of a function's lemma.
fn premise(contract: &str) -> String {
    renamed(contract, &IN_A_RUN)
}

/// What an entry's line says that it leaves: the right side of its contract.
fn line(contract: &str) -> String {
    let (_, leaves) = contract.split_once(" ≡ ").expect("an equation");
    format!(" = {} ", renamed(leaves, &AT_AN_ENTRY))
}

/// The left side of an entry's contract: the number, and every slice that it is lent, at its end. A table that it may only read stands as it did.
fn end(source: &str, entry: &str) -> String {
    let (_, behind) = source.split_once(&format!(" fn {entry}(")).expect("an entry");
    let (parameters, _) = behind.split_once(") -> ").expect("parameters");
    let lent = |names: &[&str]| {
        let name = names.iter().find(|name| parameters.contains(&format!("{name}: &mut [u8]")));
        name.map_or("[]".to_string(), |name| format!("{name}.new"))
    };
    let table = if parameters.contains("table: &[u8]") { "table.now".to_string() } else { lent(&["table"]) };
    format!("edge result {table} {} {} {} {}", lent(&["answer"]), lent(&["room"]), lent(&["signal", "out", "buffer"]), lent(&["job"]))
}

#[test]
fn each_contract_is_the_premise_of_its_lemma() {
    let lemmas = read("rules_code/proofs/Functions.antt");
    let mut held = 0;
    for name in SOURCES {
        let source = read(name);
        for (function, contract) in contracts(&source, " pub fn ") {
            let premise = premise(contract);
            assert!(lemmas.contains(&premise), "{name}::{function}: no lemma has the premise\n{premise}");
            held += 1;
        }
    }
    assert_eq!(held, 35, "public functions that are calls of a run");
}

#[test]
fn each_entry_leaves_what_its_line_says() {
    let lines = read("edge_runs/specs/Entries.antt");
    let source = read("entries/src/lib.rt");
    let mut entries = contracts(&source, " pub extern \"C\" fn ");
    // the first starts a run, the second is a function of the PDU alone, the third a number; the last two are calls handed over together, by the definitions that two of these lines have
    let others = ["l2cap_make", "l2cap_signal_rest", "l2cap_version_4", "l2cap_dispatch_run", "l2cap_send_run"];
    entries.retain(|(name, _)| !others.contains(name));
    for (name, contract) in &entries {
        assert!(contract.starts_with(&format!("{} ≡ ", end(&source, name))), "{name}: no word of\n{}", end(&source, name));
        // A job's stated length has another name where `length` is a list's.
        let line = line(contract);
        let named = ["length", "stated", "l"].map(|name| line.replace(" length ", &format!(" {name} ")));
        assert!(named.iter().any(|line| lines.contains(line)), "{name}: no line has\n{line}");
    }
    assert_eq!(entries.len(), 34, "entries that are calls of a run");
}

/// A call that `edge_whole` makes by value has the contract of the entry that it is held to, and so has the function of its crate that a run's entry is.
#[test]
fn twins_have_one_contract() {
    let entries = read("entries/src/lib.rt");
    let entries = contracts(&entries, " pub extern \"C\" fn ");
    let of = |name: &str| entries.iter().find(|(entry, _)| entry.strip_prefix("l2cap_") == Some(name)).expect(name).1;
    let whole = read("edge_whole/src/lib.rt");
    let whole = contracts(&whole, " pub extern \"C\" fn ");
    assert_eq!(whole.len(), 4);
    for (name, contract) in whole {
        assert_eq!(contract, of(name.strip_prefix("whole_").expect(name)), "{name}");
    }
    for name in ["dispatch_run", "send_run"] {
        let source = read(&format!("edge_{name}/src/lib.rt"));
        assert!(contracts(&source, " pub fn ").contains(&(name, of(name))), "{name}");
    }
}

#[test]
fn another_contract_is_none_of_them() {
    let holding = read("call_hold/src/lib.rt");
    let wrong = premise(&contracts(&holding, " pub fn ")[0].1.replace("inc_ref", "dec_ref"));
    assert!(!read("rules_code/proofs/Functions.antt").contains(&wrong));
    let entries = read("entries/src/lib.rt");
    let (_, opened) = contracts(&entries, " pub extern \"C\" fn ").into_iter().find(|(name, _)| *name == "l2cap_opened").expect("an entry");
    assert!(!read("edge_runs/specs/Entries.antt").contains(&line(&opened.replace("slot link", "link slot"))));
}
