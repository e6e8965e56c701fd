//! The entries and the numbers with names are declared twice, for C and for Rust: the two must say the same.

use l2cap_channels::{FrameRun, JobRun, LeCreditConnResultCode, Refusal, ANSWER_OCTETS, CID_BASE, SIGNAL_OCTETS, SIZE_LEAST, TABLE_OCTETS};
use std::collections::BTreeMap;
use std::path::Path;

/// The types of each entry's parameters and result, as Rust writes them.
type Entries = BTreeMap<String, Vec<String>>;

fn read(file: &str) -> String {
    std::fs::read_to_string(Path::new(env!("CARGO_MANIFEST_DIR")).join(file)).expect(file)
}

fn in_rust(c: &str) -> String {
    let name = match c {
        "uint8_t *" => "*mut u8",
        "const uint8_t *" => "*const u8",
        "uint8_t" => "u8",
        "uint16_t" => "u16",
        "uint32_t" => "u32",
        "size_t" => "usize",
        other => panic!("a C type of no kind: {other}"),
    };
    name.into()
}

fn header() -> Entries {
    let text = read("../c/l2cap_channels.h");
    let mut entries = Entries::new();
    // An entry is declared in one line; what the header defines itself is `static`.
    for declaration in text.lines().filter(|line| ["uint32_t l2cap_", "size_t l2cap_"].iter().any(|start| line.starts_with(start))) {
        let (start, parameters) = declaration.strip_suffix(");").and_then(|line| line.split_once('(')).expect(declaration);
        let (result, name) = start.rsplit_once(' ').expect("a result and a name");
        let of = |parameter: &str| parameter.trim().trim_end_matches(|c: char| c.is_ascii_alphanumeric() || c == '_').trim().to_owned();
        let given = parameters.split(',').filter(|parameter| parameter.trim() != "void");
        let mut types: Vec<String> = given.map(|parameter| in_rust(&of(parameter))).collect();
        types.push(in_rust(result.trim()));
        entries.insert(name.into(), types);
    }
    entries
}

/// The rows of the entries. A call: slices that are lent, numbers, slices that are read, and a run's answers. A question: numbers. Table and answer come first, a question's table to be read.
fn wrapper() -> Entries {
    let text = read("src/rows.rs");
    let rows = text.split("$of! {").nth(1).and_then(|rest| rest.split("\n        }").next()).expect("the rows");
    let slice = |kind: &str| [kind.to_owned(), "usize".into()];
    let mut entries = Entries::new();
    for row in rows.lines().map(str::trim).filter(|row| !row.is_empty()) {
        let (kind, row) = row.split_once(' ').expect("a kind");
        let (names, parameters) = row.trim_end_matches(");").split_once('(').expect("parameters");
        let (_, entry) = names.split_once(" = ").expect("two names");
        let groups: Vec<Vec<&str>> =
            parameters.split(';').map(|group| group.split(',').map(str::trim).filter(|name| !name.is_empty()).collect()).collect();
        let none = Vec::new();
        let (table, lent, numbers, read, behind) = match (kind, &groups[..]) {
            ("fn", [lent, numbers, read]) => ("*mut u8", lent, numbers, read, &none),
            ("fn", [lent, numbers, read, behind]) => ("*mut u8", lent, numbers, read, behind),
            ("ask", [numbers]) => ("*const u8", &none, numbers, &none, &none),
            _ => panic!("a row of no kind: {row}"),
        };
        let mut types = Vec::from(slice(table));
        types.extend(["answer"].iter().chain(lent).flat_map(|_| slice("*mut u8")));
        types.extend(numbers.iter().map(|number| number.split_once(": ").expect("a number's type").1.to_owned()));
        types.extend(read.iter().flat_map(|_| slice("*const u8")));
        types.extend(behind.iter().flat_map(|_| slice("*mut u8")));
        types.push("u32".into());
        entries.insert(entry.into(), types);
    }
    entries.insert("l2cap_signal_rest".into(), vec!["*const u8".into(), "usize".into(), "usize".into()]);
    entries.insert("l2cap_version_4".into(), vec!["u32".into()]);
    entries
}

#[test]
fn both_declare_the_same() {
    let (c, rust) = (header(), wrapper());
    assert!(!c.is_empty());
    assert_eq!(c, rust);
}

/// A name of the crate as C writes it: `BadTable` is `BAD_TABLE`.
fn in_c(prefix: &str, name: &str) -> String {
    let mut c = prefix.to_owned();
    for letter in name.chars().take_while(|letter| letter.is_ascii_alphanumeric()) {
        if letter.is_ascii_uppercase() {
            c.push('_');
        }
        c.push(letter.to_ascii_uppercase());
    }
    c
}

/// The names and numbers of an enum of the header.
fn named(name: &str) -> BTreeMap<String, u16> {
    let text = read("../c/l2cap_channels.h");
    let body = text.split(&format!("\nenum {name} {{\n")).nth(1).and_then(|rest| rest.split("\n};").next()).expect(name);
    body.lines()
        .map(|line| {
            let (name, rest) = line.trim().split_once(" = ").expect(line);
            (name.to_owned(), rest.split([',', ' ']).next().and_then(|number| number.parse().ok()).expect(line))
        })
        .collect()
}

#[test]
fn refusals_have_the_same_names_and_numbers() {
    use Refusal::*;
    let refusals = [
        BadTable,
        BadRoom,
        NoRoom,
        BadHandle,
        BadSpsm,
        BadSlot,
        InvalidChannelId,
        NotFound,
        InvalidValue,
        OutOfMemory,
        ChannelClosed,
        InsufficientSpace,
        NoChannelAvailable,
        Busy,
        Decode,
        NotSupported,
        ConnectError(LeCreditConnResultCode::NoResources),
        Disconnected,
        ShortFrame,
        BadMps,
        QueueFull,
        Held,
        TooLong,
        JobOpen,
        WrongLength,
    ];
    let rust = refusals.iter().map(|refusal| (in_c("L2CAP", &format!("{refusal:?}")), refusal.number().into())).collect();
    assert_eq!(named("l2cap_refusal"), rust);
}

#[test]
fn results_have_the_same_names_and_numbers() {
    let rust = (0..100)
        .filter_map(|number| LeCreditConnResultCode::from_number(number).map(|code| (in_c("L2CAP_RESULT", &format!("{code:?}")), number)))
        .collect();
    assert_eq!(named("l2cap_result"), rust);
}

#[test]
fn sizes_are_the_same() {
    let text = read("../c/l2cap_channels.h");
    let define = |name: &str| {
        let value = text.split(&format!("#define {name} ")).nth(1).and_then(|rest| rest.split('\n').next()).expect(name);
        value.strip_prefix("0x").map_or_else(|| value.parse(), |hex| usize::from_str_radix(hex, 16)).expect(value)
    };
    assert_eq!(define("L2CAP_TABLE_OCTETS"), TABLE_OCTETS);
    assert_eq!(define("L2CAP_ANSWER_OCTETS"), ANSWER_OCTETS);
    assert_eq!(define("L2CAP_SIGNAL_OCTETS"), SIGNAL_OCTETS);
    assert_eq!(define("L2CAP_RUN_FRAME_HEAD"), FrameRun::HEAD);
    assert_eq!(define("L2CAP_RUN_JOB_HEAD"), JobRun::HEAD);
    assert_eq!(define("L2CAP_CID_BASE"), usize::from(CID_BASE));
    assert_eq!(define("L2CAP_SIZE_LEAST"), usize::from(SIZE_LEAST));
}

/// The refusals of each entry, in order, as its comment has them.
fn refusals_in_the_header() -> BTreeMap<String, String> {
    let text = read("../c/l2cap_channels.h");
    let mut refusals = BTreeMap::new();
    let mut listed = None;
    for line in text.lines() {
        if let Some(list) = line.strip_prefix(" * Refusals: ").and_then(|rest| rest.split('.').next()) {
            listed = Some(list.to_owned());
        } else if let Some(name) = line.strip_prefix("uint32_t l2cap_").and_then(|rest| rest.split('(').next()) {
            refusals.extend(listed.take().map(|list| (name.to_owned(), list)));
        }
    }
    refusals
}

#[test]
fn refusals_stand_in_the_order_of_their_page() {
    let page = read("../../docs/REFUSALS.md");
    let calls = page.split("\n## The calls\n").nth(1).and_then(|rest| rest.split("\n## ").next()).expect("the calls");
    let rows = calls.lines().filter_map(|row| row.strip_prefix("| `"));
    let of = |row: &str| {
        let cells: Vec<&str> = row.split(" | ").collect();
        (cells[0].trim_end_matches('`').to_owned(), cells[2].to_owned())
    };
    assert_eq!(refusals_in_the_header(), rows.map(of).collect());
}
