//! What build.rs says of a file that it is to link: small archives, each with one thing wrong.

#[path = "../build/archive.rs"]
mod archive;

use archive::{judge, judge_target, Machine, Target, HOW, VERSION};

const X86_64: Target = Target { arch: "x86_64", pointer_width: "64", os: "none", vendor: "unknown" };
const AARCH64: Target = Target { arch: "aarch64", ..X86_64 };

/// An ELF object of 64 bits for a machine, with these names.
fn object(machine: u16, names: &str) -> Vec<u8> {
    let mut object = b"\x7fELF\x02\x01\x01".to_vec();
    object.resize(18, 0);
    object.extend(machine.to_le_bytes());
    object.push(0);
    object.extend(names.bytes());
    object
}

/// An archive of these members.
fn archive(members: &[(&str, &[u8])]) -> Vec<u8> {
    let mut octets = b"!<arch>\n".to_vec();
    for (name, member) in members {
        octets.extend(format!("{name:<16}{:<12}{:<6}{:<6}{:<8}{:<10}`\n", 0, 0, 0, 644, member.len()).bytes());
        octets.extend_from_slice(member);
        octets.resize(octets.len() + member.len() % 2, b'\n');
    }
    octets
}

/// An index of these names, as GNU's archives begin with one.
fn index(names: &str) -> Vec<u8> {
    let count = names.matches('\0').count();
    let mut index = u32::try_from(count).expect("few").to_be_bytes().to_vec();
    index.resize(4 + 4 * count, b'/');
    index.extend(names.bytes());
    index
}

/// The archive as it ought to be, but for its machine and names.
fn entries(machine: u16, names: &str) -> Vec<u8> {
    archive(&[("/", &index(names)), ("//", b"odd"), ("entries.o/", &object(machine, ""))])
}

fn wrong(octets: &[u8], target: &Target) -> String {
    judge("lib.a", octets, target).expect_err("something is wrong")
}

const NAMES: &str = "l2cap_make\0l2cap_version_4\0";

#[test]
fn an_archive_for_the_target() {
    assert_eq!(judge("lib.a", &entries(0x3e, NAMES), &X86_64), Ok(Machine::Target));
    assert_eq!(judge("lib.a", &entries(0xb7, NAMES), &AARCH64), Ok(Machine::Target));
    // The index of a large archive has places of 64 bits.
    let large = [&2_u64.to_be_bytes()[..], &[b'/'; 16], NAMES.as_bytes()].concat();
    assert_eq!(judge("lib.a", &archive(&[("/SYM64/", &large), ("entries.o/", &object(0x3e, ""))]), &X86_64), Ok(Machine::Target));
}

#[test]
fn no_archive() {
    for octets in [&b""[..], b"!<arch>", b"\x7fELF", b"[package]\n"] {
        assert_eq!(wrong(octets, &X86_64), format!("lib.a is no archive; {HOW}"));
    }
}

/// It has the members' headers, and none of their octets.
#[test]
fn a_thin_archive() {
    let thin = [b"!<thin>\n".as_slice(), &entries(0x3e, NAMES)[8..]].concat();
    assert_eq!(wrong(&thin, &X86_64), format!("lib.a is a thin archive: it names its objects, and has to hold them; {HOW}"));
}

/// Its objects have their code, and nobody finds it. `strip` takes the index away; other tools leave one without names.
#[test]
fn a_stripped_archive() {
    let stripped = format!("lib.a has no index of names, and a linker finds no entry in it: it was stripped, or made without one; {HOW}");
    // The names of sections can still stand in the object.
    let object = object(0x3e, &format!("\0.text.{NAMES}"));
    assert_eq!(wrong(&archive(&[("entries.o/", &object)]), &X86_64), stripped);
    assert_eq!(wrong(&archive(&[("/", &index("")), ("entries.o/", &object)]), &X86_64), stripped);
    // An index that is shorter than it says.
    assert_eq!(wrong(&archive(&[("/", &[0xFF; 9]), ("entries.o/", &object)]), &X86_64), stripped);
}

#[test]
fn no_object() {
    let without = format!("lib.a is an archive without an object; {HOW}");
    assert_eq!(wrong(b"!<arch>\n", &X86_64), without);
    assert_eq!(wrong(&archive(&[("/", b"odd"), ("//", b"")]), &X86_64), without);
}

/// Cut at every place before the object's end: it is told where the member begins that isn't whole. Between two members nothing is cut.
#[test]
fn cut_short() {
    let whole = entries(0x3e, NAMES);
    // The first two have odd lengths: the octet behind each may be missing at a file's end.
    let begin = [8, 68 + index(NAMES).len() + 1, 68 + index(NAMES).len() + 1 + 60 + 4];
    for end in 8..whole.len() - 1 {
        let wanted = if begin.contains(&end) || begin.contains(&(end + 1)) {
            format!("lib.a is an archive without an object; {HOW}")
        } else {
            let at = begin.iter().rfind(|at| **at < end).expect("a member");
            format!("lib.a is cut short or damaged: no whole member stands at octet {at}; {HOW}")
        };
        assert_eq!(wrong(&whole[..end], &X86_64), wanted, "{end}");
    }
    let mut damaged = whole;
    damaged[8 + 48] = b'x';
    assert!(wrong(&damaged, &X86_64).starts_with("lib.a is cut short or damaged: no whole member stands at octet 8; "));
}

#[test]
fn for_another_machine() {
    assert_eq!(
        wrong(&entries(0x3e, NAMES), &AARCH64),
        "lib.a is for x86_64, and the target is aarch64: the crate has to be built for x86_64"
    );
    // The kit makes archives for x86-64: of another machine's the crate is never built, and what helps is another archive.
    for (number, machine) in [(0xb7, "aarch64"), (0x28, "arm"), (0x03, "x86"), (0xf3, "riscv64"), (0x1234, "ELF machine 4660")] {
        let other = format!("lib.a has an object for {machine}, and the target is x86_64; {HOW}");
        assert_eq!(wrong(&entries(number, NAMES), &X86_64), other);
    }
    let mut other_order = object(0, NAMES);
    (other_order[5], other_order[18], other_order[19]) = (2, 0, 21);
    assert!(wrong(&archive(&[("o", &other_order)]), &X86_64).starts_with("lib.a has an object for ELF machine 21, "));
}

/// Every object counts, and not the first alone.
#[test]
fn an_object_for_another_machine() {
    let mixed = |first, second| archive(&[("/", &index(NAMES)), ("a.o/", &object(first, "")), ("b.o/", &object(second, ""))]);
    assert_eq!(wrong(&mixed(0x3e, 0xb7), &X86_64), format!("lib.a has an object for aarch64, and the target is x86_64; {HOW}"));
    assert_eq!(wrong(&mixed(0x3e, 0xb7), &AARCH64), format!("lib.a has an object for x86_64, and the target is aarch64; {HOW}"));
    assert_eq!(judge("lib.a", &mixed(0x3e, 0x3e), &X86_64), Ok(Machine::Target));
}

#[test]
fn a_machine_that_cannot_be_told() {
    let of = |objects: [&[u8]; 2]| archive(&[("/", &index(NAMES)), ("a", objects[0]), ("b", objects[1])]);
    let (elf, mach_o) = (object(0x3e, ""), b"\xcf\xfa\xed\xfe".as_slice());
    for objects in [[mach_o, mach_o], [&elf[..], mach_o], [mach_o, &elf[..]]] {
        assert_eq!(judge("lib.a", &of(objects), &X86_64), Ok(Machine::Unknown));
    }
}

#[test]
fn long_names_as_bsd_writes_them() {
    let places = [[b'/'; 8]; 2].concat();
    let symbols =
        [b"__.SYMDEF SORTED\0\0\0\0".as_slice(), &[16, 0, 0, 0], &places, &[NAMES.len() as u8, 0, 0, 0], NAMES.as_bytes()].concat();
    let long = [b"entries.o\0\0\0".as_slice(), &object(0x3e, "")].concat();
    assert_eq!(judge("lib.a", &archive(&[("#1/20", &symbols), ("#1/12", &long)]), &X86_64), Ok(Machine::Target));
    assert!(wrong(&archive(&[("#1/12", &long)]), &X86_64).starts_with("lib.a has no index of names, "));
}

#[test]
fn another_library() {
    assert_eq!(
        wrong(&entries(0x3e, "printf\0l2cap_maker\0"), &X86_64),
        format!("lib.a has no entry l2cap_make: it is another library's archive; {HOW}")
    );
}

#[test]
fn another_version() {
    assert_eq!(
        wrong(&entries(0x3e, "l2cap_make\0"), &X86_64),
        format!("lib.a is older than versions, and this crate is of version 4: it has no entry l2cap_version_4; {HOW}")
    );
    for other in [1, 3, 5, 40, 44] {
        let names = format!("l2cap_make\0l2cap_version_{other}\0");
        assert_eq!(wrong(&entries(0x3e, &names), &X86_64), format!("lib.a is of version {other}, and this crate is of version 4; {HOW}"));
    }
    // The entries' names decide, and not those of the sections that they once stood in.
    let sections = object(0x3e, "\0.text.l2cap_version_4\0");
    let renamed = archive(&[("/", &index("l2cap_make\0l2cap_version_5\0")), ("entries.o/", &sections)]);
    assert!(wrong(&renamed, &X86_64).starts_with("lib.a is of version 5, "));
}

#[test]
fn a_target_of_other_lengths() {
    assert_eq!(judge_target(&X86_64), Ok(()));
    assert_eq!(
        judge_target(&Target { arch: "arm", pointer_width: "32", ..X86_64 }),
        Err("the entries take lengths of 64 bits, and usize has 32 on this target, arm: they can't be called from it".into())
    );
}

#[test]
fn a_target_of_other_calls_or_objects() {
    for os in ["linux", "freebsd", "none"] {
        assert_eq!(judge_target(&Target { os, ..X86_64 }), Ok(()));
    }
    for os in ["windows", "uefi", "cygwin"] {
        let convention = "has another convention: they can't be called from this target, x86_64";
        assert_eq!(
            judge_target(&Target { os, ..X86_64 }),
            Err(format!("the entries are called as the System V ABI has it, and {os} {convention}"))
        );
    }
    assert_eq!(
        judge_target(&Target { os: "macos", vendor: "apple", ..X86_64 }),
        Err("the archive has ELF objects, and linkers for macos take Mach-O: it can't be linked for this target, x86_64".into())
    );
}

#[test]
fn the_version_is_the_headers() {
    let header = std::fs::read_to_string(concat!(env!("CARGO_MANIFEST_DIR"), "/../c/l2cap_channels.h")).expect("the header");
    assert!(header.contains(&format!("#define L2CAP_CHANNELS_VERSION {VERSION}\n")));
    assert!(header.contains(&format!("\nuint32_t l2cap_version_{VERSION}(void);\n")));
}
