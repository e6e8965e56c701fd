//! Signals in words.

use crate::refusals::result;
use crate::seen::Seen;
use crate::words::{count, parameters, sizes};
use language::SIZE_LEAST;

/// Who wrote a signal: CIDs and credits are told by whose they are.
#[derive(Clone, Copy, PartialEq, Eq)]
pub enum Writer {
    Phone,
    Us,
}

/// A signal with its header: code, identifier, length, body.
pub fn signal(octets: &[u8], writer: Writer, seen: &Seen) -> String {
    let [code, identifier, _, _, body @ ..] = octets else {
        return format!("{}, too few for a signal", count(octets.len(), "octet"));
    };
    let (name, length) = match code {
        0x01 => ("reject", 2),
        0x06 => ("disconnect request", 4),
        0x07 => ("disconnect response", 4),
        0x12 => ("parameter request", 8),
        0x13 => ("parameter response", 2),
        0x14 => ("connect request", 10),
        0x15 => ("connect response", 10),
        0x16 => ("credit signal", 4),
        _ => return format!("signal {identifier} of code {code}, which is unknown here"),
    };
    let fields = fields(body);
    // A reject may say more behind its reason.
    let fits = body.len() == length || *code == 0x01 && body.len() > length;
    let says = if fits { fields_in_words(*code, &fields, writer, seen) } else { None };
    match says {
        Some(says) => format!("{name} {identifier}{says}"),
        None => {
            let least = if *code == 0x01 { "at least " } else { "" };
            format!("{name} {identifier} with {} in its body, where {least}{length} belong", count(body.len(), "octet"))
        }
    }
}

/// The numbers of a body, of two octets each.
fn fields(body: &[u8]) -> Vec<u16> {
    body.chunks_exact(2).map(|two| u16::from_le_bytes([two[0], two[1]])).collect()
}

/// Whether a connect request, or a response that accepts one, says a size below the least.
pub fn too_small(octets: &[u8]) -> bool {
    let [code, _, 10, 0, body @ ..] = octets else {
        return false;
    };
    match (code, &fields(body)[..]) {
        (0x14, [_, _, mtu, mps, _]) | (0x15, [_, mtu, mps, _, 0]) => *mtu.min(mps) < SIZE_LEAST,
        _ => false,
    }
}

fn fields_in_words(code: u8, fields: &[u16], writer: Writer, seen: &Seen) -> Option<String> {
    let ours = |cid: u16| format!("our {}", seen.cid(cid));
    let its = |cid: u16| format!("its CID {cid}");
    // What the writer of the signal calls its own.
    let own = |cid: u16| if writer == Writer::Us { ours(cid) } else { its(cid) };
    let other = |cid: u16| if writer == Writer::Us { its(cid) } else { ours(cid) };
    let credits = |number: u16| format!("{} for {}", count(number, "credit"), if writer == Writer::Us { "the phone" } else { "us" });
    Some(match (code, fields) {
        (0x01, [reason, ..]) => format!(": {}", rejected(*reason)),
        (0x06, [destination, source]) => format!(": {}, {}", other(*destination), own(*source)),
        (0x07, [destination, source]) => format!(": {}, {}", own(*destination), other(*source)),
        (0x12, [min, max, latency, timeout]) => format!(": {}", parameters(*min, *max, *latency, *timeout)),
        (0x13, [result]) => format!(": {}", parameters_result(*result)),
        (0x14, [spsm, source, mtu, mps, given]) => {
            format!(" for SPSM {spsm}: {}, {}, {}", own(*source), sizes(*mtu, *mps), credits(*given))
        }
        (0x15, [destination, mtu, mps, given, 0]) => {
            format!(": accepted; {}, {}, {}", own(*destination), sizes(*mtu, *mps), credits(*given))
        }
        (0x15, [_, _, _, _, code]) => format!(": refused, {}", result(*code)),
        (0x16, [cid, given]) => format!(": {}, {}", credits(*given), own(*cid)),
        _ => return None,
    })
}

fn rejected(reason: u16) -> String {
    match reason {
        0 => "reason 0, not understood".to_string(),
        1 => "reason 1, too long".to_string(),
        2 => "reason 2, no such CID".to_string(),
        _ => format!("reason {reason}"),
    }
}

pub fn parameters_result(result: u16) -> String {
    match result {
        0 => "0, accepted".to_string(),
        1 => "1, rejected".to_string(),
        _ => result.to_string(),
    }
}

/// A signal as it goes out: length, the signalling channel's CID, then the signal.
pub fn written(octets: &[u8], seen: &Seen) -> Option<String> {
    let [low, high, 5, 0, rest @ ..] = octets else {
        return None;
    };
    let [_, _, _, _, body @ ..] = rest else {
        return None;
    };
    let lengths_fit =
        usize::from(u16::from_le_bytes([*low, *high])) == rest.len() && usize::from(u16::from_le_bytes([rest[2], rest[3]])) == body.len();
    lengths_fit.then(|| signal(rest, Writer::Us, seen))
}

#[cfg(test)]
mod tests {
    use super::*;
    use language::{unhex, SlotView, View};

    fn seen() -> Seen {
        Seen { view: View { slots: vec![SlotView::fresh()], ..View::none() }, rooms: Vec::new() }
    }

    #[test]
    fn every_form_from_a_phone() {
        for (octets, told) in [
            ("010502000200", "reject 5: reason 2, no such CID"),
            ("01050400000009ff", "reject 5: reason 0, not understood"),
            ("0608040040005000", "disconnect request 8: our CID 64 (slot 0), its CID 80"),
            ("0708040050004100", "disconnect response 8: its CID 80, our CID 65 (no slot's)"),
            ("1222080006000c0000006400", "parameter request 34: an interval of 7.5 to 15 ms, latency 0, timeout 1000 ms"),
            ("132102000100", "parameter response 33: 1, rejected"),
            (
                "14070a0080005000640017000500",
                "connect request 7 for SPSM 128: its CID 80, jobs up to 100 octets in frames up to 23, 5 credits for us",
            ),
            (
                "15030a0070004000170003000000",
                "connect response 3: accepted; its CID 112, jobs up to 64 octets in frames up to 23, 3 credits for us",
            ),
            ("15030a0000000000000000000400", "connect response 3: refused, result 4 NoResources"),
            ("1610040050000a00", "credit signal 16: 10 credits for us, its CID 80"),
            ("99010000", "signal 1 of code 153, which is unknown here"),
            ("0105010000", "reject 5 with 1 octet in its body, where at least 2 belong"),
            ("1609050050000100ff", "credit signal 9 with 5 octets in its body, where 4 belong"),
            ("0105", "2 octets, too few for a signal"),
        ] {
            assert_eq!(signal(&unhex(octets).unwrap(), Writer::Phone, &seen()), told);
        }
    }

    #[test]
    fn sizes_below_the_least_are_seen() {
        for (octets, small) in [
            ("14070a008000500064000a000500", true),
            ("14070a0080005000640016000500", true),
            ("14070a0080005000160017000500", true),
            ("14070a0080005000170017000500", false),
            ("14070a0000000000170017000000", false),
            ("15030a0070006400160003000000", true),
            ("15030a0070001600170003000000", true),
            ("15030a0070001700170000000000", false),
            // One that refuses mostly has zeros there.
            ("15030a0000000000000000000400", false),
            ("16030a0000000000000000000000", false),
            ("14070900800050000a000a0005", false),
            ("1407", false),
        ] {
            assert_eq!(too_small(&unhex(octets).unwrap()), small, "{octets}");
        }
    }

    #[test]
    fn what_we_write_names_our_own() {
        for (octets, told) in [
            (
                "0e00050015070a0040003a003c0001000000",
                Some("connect response 7: accepted; our CID 64 (slot 0), jobs up to 58 octets in frames up to 60, 1 credit for the phone"),
            ),
            (
                "0e00050014030a00810040003a003c000100",
                Some(
                    "connect request 3 for SPSM 129: our CID 64 (slot 0), jobs up to 58 octets in frames up to 60, 1 credit for the phone",
                ),
            ),
            ("080005000708040040005000", Some("disconnect response 8: our CID 64 (slot 0), its CID 80")),
            ("080005000604040070004000", Some("disconnect request 4: its CID 112, our CID 64 (slot 0)")),
            ("080005001601040040000100", Some("credit signal 1: 1 credit for the phone, our CID 64 (slot 0)")),
            ("06000500010502000000", Some("reject 5: reason 0, not understood")),
            ("0700050001050200000000", None),
            ("06000600010502000000", None),
            ("0400050001050200", None),
            ("", None),
        ] {
            assert_eq!(written(&unhex(octets).unwrap_or_default(), &seen()).as_deref(), told, "{octets}");
        }
    }
}
