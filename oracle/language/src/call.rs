//! A line of a script as a call, and back.

use crate::row::{hex, unhex};
use crate::wrong::Wrong;
use crate::BUFFER;
use std::fmt;

/// How credits are granted: `eK` or `mT`.
#[derive(Clone, Copy, Debug, PartialEq, Eq)]
pub enum Policy {
    Every(u16),
    MinThreshold(u16),
}

/// The four words of an accept or a create; none is the default.
#[derive(Clone, Copy, Debug, Default, PartialEq, Eq)]
pub struct Config {
    pub mtu: Option<u16>,
    pub mps: Option<u16>,
    pub policy: Option<Policy>,
    pub credits: Option<u16>,
}

/// One line of a script. The names are those of docs/CHANRUN.md's table.
#[derive(Clone, Debug, PartialEq, Eq)]
pub enum Call {
    Make {
        n: u16,
        d: u16,
        m: u16,
    },
    Register {
        spsm: u16,
    },
    Signal {
        link: u16,
        listening: bool,
        central: bool,
        pdu: Vec<u8>,
    },
    NextPending {
        link: u16,
        up: bool,
    },
    RejectStep {
        link: u16,
    },
    Accept {
        slot: u16,
        config: Config,
    },
    Reject {
        slot: u16,
        result: u16,
    },
    DropPending {
        slot: u16,
    },
    Create {
        link: u16,
        spsm: u16,
        config: Config,
    },
    Opened {
        slot: u16,
        link: u16,
        up: bool,
    },
    GiveUp {
        slot: u16,
    },
    AddHold {
        slot: u16,
    },
    Release {
        slot: u16,
    },
    Disconnect {
        slot: u16,
    },
    DisconnectByCid {
        cid: u16,
    },
    LinkDown {
        link: u16,
    },
    NextDisconnect,
    Frame {
        link: u16,
        cid: u16,
        payload: Vec<u8>,
    },
    Send {
        slot: u16,
        sdu: Vec<u8>,
    },
    /// Starts a job in portions, in so many octets of the slot's buffer.
    Start {
        slot: u16,
        length: u16,
        size: u16,
    },
    Portion {
        slot: u16,
        size: u16,
        octets: Vec<u8>,
    },
    Cancel {
        slot: u16,
    },
    Take {
        slot: u16,
        size: u16,
    },
    Attention,
    Queries {
        slot: u16,
    },
    /// The four tallies of a slot.
    Tallies {
        slot: u16,
    },
    ParameterRequest {
        link: u16,
        min: u16,
        max: u16,
        latency: u16,
        timeout: u16,
    },
    ParameterResponse {
        link: u16,
        result: u16,
    },
    View,
    Room {
        slot: u16,
    },
    /// The open job of a slot, and the frame that is being filled.
    OpenJob {
        slot: u16,
    },
    /// A line that cannot be read.
    Unread(String),
}

impl Call {
    pub fn parse(line: &str) -> Call {
        Call::read(line).unwrap_or_else(|_| Call::Unread(line.to_string()))
    }

    /// The call that a line asks for, or why it cannot be read.
    pub fn read(line: &str) -> Result<Call, Wrong> {
        let mut words = line.split(' ');
        let letter = words.next().unwrap_or_default();
        let mut words = Words(words);
        let call = words.call(letter)?;
        words.end()?;
        Ok(call)
    }

    /// The slot that the call names, if it names one.
    pub fn slot(&self) -> Option<u16> {
        use Call::*;
        match *self {
            Accept { slot, .. } | Reject { slot, .. } | DropPending { slot } | Opened { slot, .. } | GiveUp { slot } => Some(slot),
            AddHold { slot } | Release { slot } | Disconnect { slot } | Send { slot, .. } | Take { slot, .. } => Some(slot),
            Start { slot, .. } | Portion { slot, .. } | Cancel { slot } => Some(slot),
            Queries { slot } | Tallies { slot } | Room { slot } | OpenJob { slot } => Some(slot),
            _ => None,
        }
    }

    /// The link that the call names, if it names one.
    pub fn link(&self) -> Option<u16> {
        use Call::*;
        match *self {
            Signal { link, .. } | NextPending { link, .. } | RejectStep { link } | Create { link, .. } => Some(link),
            Opened { link, .. } | LinkDown { link } | Frame { link, .. } => Some(link),
            ParameterRequest { link, .. } | ParameterResponse { link, .. } => Some(link),
            _ => None,
        }
    }

    /// How many rows the call prints, whatever is answered; a view's slot lines come on top.
    pub fn rows(&self) -> usize {
        match self {
            Call::Signal { pdu, .. } => signals(pdu).map_or(1, |parts| parts.len().max(1)),
            _ => 1,
        }
    }

    /// True for the lines that only look.
    pub fn only_looks(&self) -> bool {
        use Call::*;
        matches!(self, View | Room { .. } | OpenJob { .. } | Attention | Queries { .. } | Tallies { .. } | Unread(_))
    }
}

/// The signals of a PDU, each with its header; none where a header is cut short or says more octets than there are. The number of rows
/// of an `S` line depends on this alone.
pub fn signals(pdu: &[u8]) -> Option<Vec<&[u8]>> {
    let mut parts = Vec::new();
    let mut rest = pdu;
    while !rest.is_empty() {
        let length = usize::from(u16::from_le_bytes([*rest.get(2)?, *rest.get(3)?]));
        if rest.len() < 4 + length {
            return None;
        }
        let (part, next) = rest.split_at(4 + length);
        parts.push(part);
        rest = next;
    }
    Some(parts)
}

/// The words after the letter. Each reader takes one word and is strict: what `chanrun` prints `? -` for is wrong here. A word's name is that
/// of docs/CHANRUN.md's table.
struct Words<'a>(std::str::Split<'a, char>);

/// What can stand as a word, as `Wrong` says it.
const NUMBER: &str = "a number of 1 to 5 digits, at most 65535";
const SIZE: &str = "a number of 1 to 5 digits, at most 4096, the octets of a slot's buffer";
const CHOICE: &str = "a number of 1 to 5 digits, at most 65535, or `-`";
const FLAG: &str = "0 or 1";
const ROLE: &str = "c or p";
const OCTETS: &str = "an even number of digits 0 to 9 and a to f, at most 65535 octets, or `-`";
const POLICY: &str = "e or m and a number of 1 to 5 digits, at most 65535, or `-`";

impl<'a> Words<'a> {
    fn call(&mut self, letter: &str) -> Result<Call, Wrong> {
        let w = self;
        Ok(match letter {
            "T" => Call::Make { n: w.number("n")?, d: w.number("d")?, m: w.number("m")? },
            "R" => Call::Register { spsm: w.number("spsm")? },
            "S" => Call::Signal { link: w.number("link")?, listening: w.flag("listening")?, central: w.role()?, pdu: w.octets()? },
            "P" => Call::NextPending { link: w.number("link")?, up: w.flag("up")? },
            "J" => Call::RejectStep { link: w.number("link")? },
            "A" => Call::Accept { slot: w.number("slot")?, config: w.config()? },
            "X" => Call::Reject { slot: w.number("slot")?, result: w.number("result")? },
            "Z" => Call::DropPending { slot: w.number("slot")? },
            "C" => Call::Create { link: w.number("link")?, spsm: w.number("spsm")?, config: w.config()? },
            "O" => Call::Opened { slot: w.number("slot")?, link: w.number("link")?, up: w.flag("up")? },
            "G" => Call::GiveUp { slot: w.number("slot")? },
            "H" => Call::AddHold { slot: w.number("slot")? },
            "L" => Call::Release { slot: w.number("slot")? },
            "D" => Call::Disconnect { slot: w.number("slot")? },
            "E" => Call::DisconnectByCid { cid: w.number("cid")? },
            "W" => Call::LinkDown { link: w.number("link")? },
            "Q" => Call::NextDisconnect,
            "F" => Call::Frame { link: w.number("link")?, cid: w.number("cid")?, payload: w.octets()? },
            "K" => Call::Send { slot: w.number("slot")?, sdu: w.octets()? },
            "N" => Call::Start { slot: w.number("slot")?, length: w.number("length")?, size: w.size()? },
            "p" => Call::Portion { slot: w.number("slot")?, size: w.size()?, octets: w.octets()? },
            "x" => Call::Cancel { slot: w.number("slot")? },
            "B" => Call::Take { slot: w.number("slot")?, size: w.number("size")? },
            "I" => Call::Attention,
            "U" => Call::Queries { slot: w.number("slot")? },
            "t" => Call::Tallies { slot: w.number("slot")? },
            "Y" => Call::ParameterRequest {
                link: w.number("link")?,
                min: w.number("min")?,
                max: w.number("max")?,
                latency: w.number("latency")?,
                timeout: w.number("timeout")?,
            },
            "y" => Call::ParameterResponse { link: w.number("link")?, result: w.number("result")? },
            "V" => Call::View,
            "M" => Call::Room { slot: w.number("slot")? },
            "n" => Call::OpenJob { slot: w.number("slot")? },
            _ => return Err(Wrong::Letter(letter.to_string())),
        })
    }

    /// Nothing stands behind the last word.
    fn end(&mut self) -> Result<(), Wrong> {
        self.0.next().map_or(Ok(()), |word| Err(Wrong::More(word.to_string())))
    }

    /// The next word, read by `read`; `may` says what that takes.
    fn word<T>(&mut self, name: &'static str, may: &'static str, read: impl Fn(&str) -> Option<T>) -> Result<T, Wrong> {
        let word = self.0.next().ok_or(Wrong::Missing { name, may })?;
        read(word).ok_or_else(|| Wrong::Word { name, word: word.to_string(), may })
    }

    fn number(&mut self, name: &'static str) -> Result<u16, Wrong> {
        self.word(name, NUMBER, number)
    }

    /// How much of a slot's buffer is lent.
    fn size(&mut self) -> Result<u16, Wrong> {
        self.word("size", SIZE, |word| number(word).filter(|size| usize::from(*size) <= BUFFER))
    }

    fn flag(&mut self, name: &'static str) -> Result<bool, Wrong> {
        self.word(name, FLAG, |word| match number(word)? {
            0 => Some(false),
            1 => Some(true),
            _ => None,
        })
    }

    fn role(&mut self) -> Result<bool, Wrong> {
        self.word("role", ROLE, |word| match word {
            "c" => Some(true),
            "p" => Some(false),
            _ => None,
        })
    }

    fn octets(&mut self) -> Result<Vec<u8>, Wrong> {
        self.word("hex", OCTETS, |word| unhex(word).filter(|octets| octets.len() <= usize::from(u16::MAX)))
    }

    /// A number, or `-` for the default.
    fn choice(&mut self, name: &'static str) -> Result<Option<u16>, Wrong> {
        self.word(name, CHOICE, |word| if word == "-" { Some(None) } else { number(word).map(Some) })
    }

    fn policy(&mut self) -> Result<Option<Policy>, Wrong> {
        self.word("policy", POLICY, |word| if word == "-" { Some(None) } else { Policy::parse(word).map(Some) })
    }

    fn config(&mut self) -> Result<Config, Wrong> {
        Ok(Config { mtu: self.choice("mtu")?, mps: self.choice("mps")?, policy: self.policy()?, credits: self.choice("credits")? })
    }
}

impl Policy {
    pub fn parse(word: &str) -> Option<Policy> {
        match word.split_at_checked(1)? {
            ("e", count) => Some(Policy::Every(number(count)?)),
            ("m", threshold) => Some(Policy::MinThreshold(number(threshold)?)),
            _ => None,
        }
    }
}

/// A number as the language writes them.
pub(crate) fn number(word: &str) -> Option<u16> {
    let digits = (1..=5).contains(&word.len()) && word.bytes().all(|c| c.is_ascii_digit());
    if digits {
        word.parse().ok()
    } else {
        None
    }
}

impl fmt::Display for Policy {
    fn fmt(&self, f: &mut fmt::Formatter<'_>) -> fmt::Result {
        match self {
            Policy::Every(count) => write!(f, "e{count}"),
            Policy::MinThreshold(threshold) => write!(f, "m{threshold}"),
        }
    }
}

impl fmt::Display for Config {
    fn fmt(&self, f: &mut fmt::Formatter<'_>) -> fmt::Result {
        fn word<T: fmt::Display>(choice: Option<T>) -> String {
            choice.map_or("-".to_string(), |value| value.to_string())
        }
        write!(f, "{} {} {} {}", word(self.mtu), word(self.mps), word(self.policy), word(self.credits))
    }
}

impl fmt::Display for Call {
    fn fmt(&self, f: &mut fmt::Formatter<'_>) -> fmt::Result {
        match self {
            Call::Make { n, d, m } => write!(f, "T {n} {d} {m}"),
            Call::Register { spsm } => write!(f, "R {spsm}"),
            Call::Signal { link, listening, central, pdu } => {
                write!(f, "S {link} {} {} {}", u8::from(*listening), if *central { 'c' } else { 'p' }, hex(pdu))
            }
            Call::NextPending { link, up } => write!(f, "P {link} {}", u8::from(*up)),
            Call::RejectStep { link } => write!(f, "J {link}"),
            Call::Accept { slot, config } => write!(f, "A {slot} {config}"),
            Call::Reject { slot, result } => write!(f, "X {slot} {result}"),
            Call::DropPending { slot } => write!(f, "Z {slot}"),
            Call::Create { link, spsm, config } => write!(f, "C {link} {spsm} {config}"),
            Call::Opened { slot, link, up } => write!(f, "O {slot} {link} {}", u8::from(*up)),
            Call::GiveUp { slot } => write!(f, "G {slot}"),
            Call::AddHold { slot } => write!(f, "H {slot}"),
            Call::Release { slot } => write!(f, "L {slot}"),
            Call::Disconnect { slot } => write!(f, "D {slot}"),
            Call::DisconnectByCid { cid } => write!(f, "E {cid}"),
            Call::LinkDown { link } => write!(f, "W {link}"),
            Call::NextDisconnect => write!(f, "Q"),
            Call::Frame { link, cid, payload } => write!(f, "F {link} {cid} {}", hex(payload)),
            Call::Send { slot, sdu } => write!(f, "K {slot} {}", hex(sdu)),
            Call::Start { slot, length, size } => write!(f, "N {slot} {length} {size}"),
            Call::Portion { slot, size, octets } => write!(f, "p {slot} {size} {}", hex(octets)),
            Call::Cancel { slot } => write!(f, "x {slot}"),
            Call::Take { slot, size } => write!(f, "B {slot} {size}"),
            Call::Attention => write!(f, "I"),
            Call::Queries { slot } => write!(f, "U {slot}"),
            Call::Tallies { slot } => write!(f, "t {slot}"),
            Call::ParameterRequest { link, min, max, latency, timeout } => write!(f, "Y {link} {min} {max} {latency} {timeout}"),
            Call::ParameterResponse { link, result } => write!(f, "y {link} {result}"),
            Call::View => write!(f, "V"),
            Call::Room { slot } => write!(f, "M {slot}"),
            Call::OpenJob { slot } => write!(f, "n {slot}"),
            Call::Unread(line) => write!(f, "{line}"),
        }
    }
}

#[cfg(test)]
mod tests {
    use super::*;

    #[test]
    fn a_call_prints_the_line_it_was_read_from() {
        for line in [
            "T 2 1 64",
            "R 128",
            "S 1 1 c 14070a0080004000170017000500",
            "S 0 0 p -",
            "P 1 0",
            "J 1",
            "A 0 - - - -",
            "A 3 58 60 m5 65535",
            "X 0 4",
            "Z 1",
            "C 1 128 - 23 e1 -",
            "O 0 1 1",
            "G 2",
            "H 0",
            "L 0",
            "D 1",
            "E 64",
            "W 3839",
            "Q",
            "F 1 64 0300aa",
            "K 0 -",
            "N 0 65535 4096",
            "p 0 27 0102",
            "p 0 0 -",
            "x 0",
            "B 0 9",
            "I",
            "U 0",
            "t 0",
            "Y 1 6 6 0 10",
            "y 1 0",
            "V",
            "M 0",
            "n 0",
        ] {
            let call = Call::parse(line);
            assert!(!matches!(call, Call::Unread(_)), "{line}");
            assert_eq!(call.to_string(), line);
        }
    }

    #[test]
    fn what_cannot_be_read_is_said() {
        for line in [
            "",
            " ",
            "T 2 1",
            "T 2 1 64 ",
            "T  2 1 64",
            "R 65536",
            "R 000001",
            "R -1",
            "R +1",
            "S 1 2 c -",
            "S 1 1 x -",
            "F 1 64 0",
            "F 1 64 AB",
            "F 1 64 ",
            "N 0 5 4097",
            "N 0 5",
            "p 0 4097 aa",
            "p 0 27",
            "x 0 0",
            "n",
            "t",
            "t 0 0",
            "t 65536",
            "A 0 - - x1 -",
            "A 0 - - e -",
            "Q 1",
            "q",
            "I 0",
        ] {
            assert!(matches!(Call::parse(line), Call::Unread(_)), "{line}");
        }
        assert_eq!(Call::parse("R 00128"), Call::Register { spsm: 128 });
        assert_eq!(Call::parse("P 1 01"), Call::NextPending { link: 1, up: true });
    }

    #[test]
    fn the_first_wrong_word_is_named() {
        for (line, why) in [
            ("", "no letter stands at the start of the line"),
            (" T 2 1 64", "no letter stands at the start of the line"),
            ("q", "`q` is no call"),
            ("T 2 1", "the word `m` is missing: a number of 1 to 5 digits, at most 65535"),
            ("T 2 1 64 ", "a space stands at the end of the line, or two together"),
            ("T  2 1 64", "the word `n` is empty: one space stands between words"),
            ("R 65536", "`65536` can't be the word `spsm`: a number of 1 to 5 digits, at most 65535"),
            ("S 1 2 x -", "`2` can't be the word `listening`: 0 or 1"),
            ("S 1 1 x -", "`x` can't be the word `role`: c or p"),
            ("F 1 64 0", "`0` can't be the word `hex`: an even number of digits 0 to 9 and a to f, at most 65535 octets, or `-`"),
            ("A 0 - - x1 -", "`x1` can't be the word `policy`: e or m and a number of 1 to 5 digits, at most 65535, or `-`"),
            ("A 0 x", "`x` can't be the word `mtu`: a number of 1 to 5 digits, at most 65535, or `-`"),
            ("Q 1", "`1` is a word too many"),
            (
                "R \u{1b}[2J5555555555555555555555",
                "`\\u{1b}[2J555555555555555…` can't be the word `spsm`: a number of 1 to 5 digits, at most 65535",
            ),
        ] {
            assert_eq!(Call::read(line).map_err(|wrong| wrong.to_string()), Err(why.to_string()), "{line}");
        }
    }

    #[test]
    fn a_pdu_is_cut_at_its_headers() {
        assert_eq!(signals(&[]).map(|parts| parts.len()), Some(0));
        assert_eq!(signals(&[1, 5, 0]), None);
        assert_eq!(signals(&[1, 5, 2, 0, 0]), None);
        assert_eq!(signals(&[1, 5, 1, 0, 9, 2, 6, 0, 0]), Some(vec![&[1, 5, 1, 0, 9][..], &[2, 6, 0, 0][..]]));
    }
}
