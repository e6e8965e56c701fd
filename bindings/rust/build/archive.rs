//! Whether a file is the archive that this crate links, for the target that it is built for. Each thing that can be wrong is one sentence.

/// The version of the entries that `src/rows.rs` declares, as the header has it. The archive has it in the name of an entry, `l2cap_version_4`.
pub const VERSION: u32 = 4;

/// How an archive is made.
pub const HOW: &str =
    "at the repository's root `bindings/proved` makes the proved archive (target/staticlib/libentries.a), and `bindings/unproved` in \
    seconds one to try (target/unproved/libentries.a, for L2CAP_CHANNELS_ARCHIVE to name)";

const ARCHIVE: &[u8] = b"!<arch>\n";
const THIN: &[u8] = b"!<thin>\n";
const MEMBER: usize = 60;
const ELF: &[u8] = b"\x7fELF";

/// What the kit makes archives for.
const KIT: &str = "x86_64";

/// Whether an archive that can be linked is known to be for the target.
#[derive(Debug, PartialEq, Eq)]
pub enum Machine {
    /// It is for the target.
    Target,
    /// An object of it is no ELF file: its machine can't be told.
    Unknown,
}

/// The target by its architecture, the bits of its `usize`, its system and that one's vendor, as cargo tells them.
pub struct Target<'t> {
    pub arch: &'t str,
    pub pointer_width: &'t str,
    pub os: &'t str,
    pub vendor: &'t str,
}

/// Whether the entries can be called from the target at all: a length crosses as 64 bits, a call is the System V ABI's, and an object is an ELF file.
pub fn judge_target(target: &Target) -> Result<(), String> {
    let Target { arch, pointer_width: bits, os, vendor } = target;
    if *bits != "64" {
        return Err(format!(
            "the entries take lengths of 64 bits, and usize has {bits} on this target, {arch}: they can't be called from it"
        ));
    }
    if ["windows", "uefi", "cygwin"].contains(os) {
        return Err(format!(
            "the entries are called as the System V ABI has it, and {os} has another convention: they can't be called from this target, {arch}"
        ));
    }
    if *vendor == "apple" {
        return Err(format!("the archive has ELF objects, and linkers for {os} take Mach-O: it can't be linked for this target, {arch}"));
    }
    Ok(())
}

/// What is wrong with the octets of the file called `name`, if anything is.
pub fn judge(name: &str, octets: &[u8], target: &Target) -> Result<Machine, String> {
    if octets.starts_with(THIN) {
        return Err(format!("{name} is a thin archive: it names its objects, and has to hold them; {HOW}"));
    }
    if !octets.starts_with(ARCHIVE) {
        return Err(format!("{name} is no archive; {HOW}"));
    }
    let members = members(octets).map_err(|at| format!("{name} is cut short or damaged: no whole member stands at octet {at}; {HOW}"))?;
    let (indexes, objects): (Vec<_>, Vec<_>) = members.iter().filter(|(name, _)| name != "//").partition(|(name, _)| is_index(name));
    if objects.is_empty() {
        return Err(format!("{name} is an archive without an object; {HOW}"));
    }
    let machine = judge_machines(name, &objects.iter().map(|(_, object)| machine(object)).collect::<Vec<_>>(), target)?;
    let names: Vec<&[u8]> = indexes.first().map_or(Vec::new(), |(name, index)| names(name, index));
    if names.is_empty() {
        return Err(format!(
            "{name} has no index of names, and a linker finds no entry in it: it was stripped, or made without one; {HOW}"
        ));
    }
    if !names.contains(&&b"l2cap_make"[..]) {
        return Err(format!("{name} has no entry l2cap_make: it is another library's archive; {HOW}"));
    }
    let versions = versions(&names);
    if versions.is_empty() {
        return Err(format!(
            "{name} is older than versions, and this crate is of version {VERSION}: it has no entry l2cap_version_{VERSION}; {HOW}"
        ));
    }
    if !versions.contains(&VERSION) {
        return Err(format!("{name} is of version {}, and this crate is of version {VERSION}; {HOW}", versions[0]));
    }
    Ok(machine)
}

/// Every object must be for the target. Where the archive is the kit's, the target can change; else the archive has to.
fn judge_machines(name: &str, machines: &[Option<String>], target: &Target) -> Result<Machine, String> {
    let Some(other) = machines.iter().flatten().find(|machine| *machine != target.arch) else {
        return Ok(if machines.iter().all(Option::is_some) { Machine::Target } else { Machine::Unknown });
    };
    if machines.iter().all(|machine| machine.as_deref() == Some(KIT)) {
        return Err(format!("{name} is for {KIT}, and the target is {}: the crate has to be built for {KIT}", target.arch));
    }
    Err(format!("{name} has an object for {other}, and the target is {}; {HOW}", target.arch))
}

/// The members, by name; or where one should begin and none that is whole does.
fn members(octets: &[u8]) -> Result<Vec<(String, &[u8])>, usize> {
    let (mut at, mut all) = (ARCHIVE.len(), Vec::new());
    while at < octets.len() {
        let (name, member, next) = member(octets, at).ok_or(at)?;
        all.push((name, member));
        at = next;
    }
    Ok(all)
}

/// The member at this place: its name, its octets, and where the next one begins.
fn member(octets: &[u8], at: usize) -> Option<(String, &[u8], usize)> {
    let header = octets.get(at..at + MEMBER)?;
    let start = at + MEMBER;
    let size: usize = std::str::from_utf8(&header[48..58]).ok()?.trim_end().parse().ok()?;
    let member = octets.get(start..start.checked_add(size)?)?;
    // Members begin at even places.
    let next = start + size + size % 2;
    let name = std::str::from_utf8(&header[..16]).ok()?.trim_end();
    // BSD's way: a long name stands before the member's own octets, and its length in the header.
    match name.strip_prefix("#1/") {
        Some(length) => {
            let (name, member) = member.split_at_checked(length.parse().ok()?)?;
            Some((String::from_utf8_lossy(name).trim_end_matches('\0').into(), member, next))
        }
        None => Some((name.into(), member, next)),
    }
}

/// Whether a member is the index of the names that the objects define: GNU's, with places of 32 or 64 bits, or BSD's.
fn is_index(name: &str) -> bool {
    ["/", "/SYM64/"].contains(&name) || name.starts_with("__.SYMDEF")
}

/// The names in an index, each ended by a zero. Before them it has, for each, where its object stands.
fn names<'o>(kind: &str, index: &'o [u8]) -> Vec<&'o [u8]> {
    let number = |length: usize, of: fn(&[u8]) -> usize| index.get(..length).map_or(0, of);
    let big = |octets: &[u8]| octets.iter().fold(0_usize, |sum, octet| sum << 8 | usize::from(*octet));
    let little = |octets: &[u8]| octets.iter().rev().fold(0_usize, |sum, octet| sum << 8 | usize::from(*octet));
    let start = match kind {
        "/" => number(4, big).saturating_mul(4).saturating_add(4),
        "/SYM64/" => number(8, big).saturating_mul(8).saturating_add(8),
        // The octets of the places, the places, the octets of the names.
        _ => number(4, little).saturating_add(8),
    };
    index.get(start..).unwrap_or(&[]).split(|octet| *octet == 0).filter(|name| !name.is_empty()).collect()
}

/// An ELF object's machine, by the name that cargo has for it.
fn machine(object: &[u8]) -> Option<String> {
    if !object.starts_with(ELF) {
        return None;
    }
    let (class, order, number) = (*object.get(4)?, *object.get(5)?, [*object.get(18)?, *object.get(19)?]);
    let number = if order == 2 { u16::from_be_bytes(number) } else { u16::from_le_bytes(number) };
    Some(match (number, class) {
        (0x03, _) => "x86".into(),
        (0x28, _) => "arm".into(),
        (0x3e, _) => "x86_64".into(),
        (0xb7, _) => "aarch64".into(),
        (0xf3, 1) => "riscv32".into(),
        (0xf3, _) => "riscv64".into(),
        (other, _) => format!("ELF machine {other}"),
    })
}

/// The numbers of all entries l2cap_version_N.
fn versions(names: &[&[u8]]) -> Vec<u32> {
    let numbers = names.iter().filter_map(|name| name.strip_prefix(b"l2cap_version_"));
    numbers.filter_map(|number| std::str::from_utf8(number).ok()?.parse().ok()).collect()
}
