//! Planted faults: a port that prints what it must, but for one slip. The comparison has to find every one of them, or it could not have
//! found such a slip in the port either. The first is the client's: the line that clears an assembly when its slot opens again is lost.

use crate::kinds::Kind;
use crate::port::Port;
use crate::script::{Script, Step};
use language::{hex, played, Call, Manner, Row, State, Tallies, BASE_ID};

#[derive(Clone, Copy, Debug, PartialEq, Eq)]
pub enum Fault {
    None,
    LostLine,
    TakenOctet,
    CidsTurned,
    IdentifierZero,
    WrongResult,
    OneFrameMore,
    QueueTurned,
    HoldLost,
    AccountOff,
    GrantOff,
    FullQueueTold0,
    RoomKept,
    RowMissing,
    EventTurned,
    WrongLink,
    CreditsShort,
    FrameOctet,
    TakenAll,
    AsideKept,
    LastFrameOpen,
    SmallWrongResult,
    SmallOpened,
    MpsForgotten,
    ShortCut,
    ShortTold0,
    ShortAtEquality,
    ShortDropped,
    ShortGranted,
    LengthOnce,
    LengthOff,
    TalliesTurned,
    TallyNextSlot,
    TallyBlockedFrames,
    TallyFullQueue,
    TallyNoCredit,
    TallyLeftByUs,
    TallyLeftByFree,
    TallyLostByPeer,
    TallyStart,
    TallyPortion,
    TallyCancel,
    TallyOctet,
}

impl Fault {
    pub const ALL: [Fault; 42] = [
        Fault::LostLine,
        Fault::TakenOctet,
        Fault::CidsTurned,
        Fault::IdentifierZero,
        Fault::WrongResult,
        Fault::OneFrameMore,
        Fault::QueueTurned,
        Fault::HoldLost,
        Fault::AccountOff,
        Fault::GrantOff,
        Fault::FullQueueTold0,
        Fault::RoomKept,
        Fault::RowMissing,
        Fault::EventTurned,
        Fault::WrongLink,
        Fault::CreditsShort,
        Fault::FrameOctet,
        Fault::TakenAll,
        Fault::AsideKept,
        Fault::LastFrameOpen,
        Fault::SmallWrongResult,
        Fault::SmallOpened,
        Fault::MpsForgotten,
        Fault::ShortCut,
        Fault::ShortTold0,
        Fault::ShortAtEquality,
        Fault::ShortDropped,
        Fault::ShortGranted,
        Fault::LengthOnce,
        Fault::LengthOff,
        Fault::TalliesTurned,
        Fault::TallyNextSlot,
        Fault::TallyBlockedFrames,
        Fault::TallyFullQueue,
        Fault::TallyNoCredit,
        Fault::TallyLeftByUs,
        Fault::TallyLeftByFree,
        Fault::TallyLostByPeer,
        Fault::TallyStart,
        Fault::TallyPortion,
        Fault::TallyCancel,
        Fault::TallyOctet,
    ];

    pub fn title(self) -> &'static str {
        match self {
            Fault::None => "no fault",
            Fault::LostLine => "a slot that opens again keeps its last owner's open assembly",
            Fault::TakenOctet => "the last octet of a taken job is another",
            Fault::CidsTurned => "a disconnect request names our CID first",
            Fault::IdentifierZero => "identifier 0 follows 255",
            Fault::WrongResult => "a CID in use is refused by result 4",
            Fault::OneFrameMore => "a job that ends with a full frame is counted one frame more",
            Fault::QueueTurned => "two waiting jobs change places",
            Fault::HoldLost => "a freed slot loses its holds",
            Fault::AccountOff => "a MinThreshold account shows one received frame too many",
            Fault::GrantOff => "a grant of more than one credit gives one too many",
            Fault::FullQueueTold0 => "a job dropped at a full queue is answered 0",
            Fault::RoomKept => "the last octet of a slot's room isn't zero",
            Fault::RowMissing => "the second signal of a PDU prints no row",
            Fault::EventTurned => "a parameter event has max before min",
            Fault::WrongLink => "a disconnect on link 3839 is given with link 3838",
            Fault::CreditsShort => "65,535 peer credits show as 65,534",
            Fault::FrameOctet => "the last octet of a frame that a portion gives out is another",
            Fault::TakenAll => "a portion says that it took all, though a frame was full before",
            Fault::AsideKept => "an open job's credits set aside show one too many behind a frame",
            Fault::LastFrameOpen => "a job's last octet gives out no frame",
            Fault::SmallWrongResult => "a request below 23 is refused by result 4",
            Fault::SmallOpened => "a response below 23 is answered 0",
            Fault::MpsForgotten => "a frame longer than our MPS is answered 0",
            Fault::ShortCut => "a job is cut to a shorter buffer",
            Fault::ShortTold0 => "a short take is told that no job waits",
            Fault::ShortAtEquality => "a buffer of exactly the job is too short",
            Fault::ShortDropped => "a job whose take was short isn't in the view behind it",
            Fault::ShortGranted => "the frames that a grant is due for aren't in the view behind a short take",
            Fault::LengthOnce => "a taken job's length is printed once",
            Fault::LengthOff => "a taken job's length is printed one too many, the second time",
            Fault::TalliesTurned => "the tallies of sends and of frames change places",
            Fault::TallyNextSlot => "the tallies printed are the next slot's",
            Fault::TallyBlockedFrames => "a blocked send counts its frames",
            Fault::TallyFullQueue => "a job dropped at a full queue isn't counted as received",
            Fault::TallyNoCredit => "a frame without a credit isn't counted",
            Fault::TallyLeftByUs => "a channel that our side ends keeps its tallies",
            Fault::TallyLeftByFree => "a freed slot keeps its tallies",
            Fault::TallyLostByPeer => "a peer's disconnect resets the tallies",
            Fault::TallyStart => "a start isn't counted",
            Fault::TallyPortion => "a frame that a portion gives out is counted again",
            Fault::TallyCancel => "a cancel takes a frame back from the tally",
            Fault::TallyOctet => "a frame whose last octet is odd is counted twice",
        }
    }

    fn slip(self, step: &Step, kept: &mut Kept<'_>, lines: &mut Vec<String>) {
        let call = &step.call;
        match (self, call) {
            (Fault::TakenOctet, Call::Take { .. }) => change_words(&mut lines[0], |words| {
                if words.len() > 2 && words[1].len() > 2 {
                    let last = if words[1].ends_with('0') { "1" } else { "0" };
                    let end = words[1].len();
                    words[1].replace_range(end - 1.., last);
                }
            }),
            (Fault::CidsTurned, Call::NextDisconnect) => change_words(&mut lines[0], |words| {
                if words[1].len() == 24 && words[1][8..].starts_with("06") {
                    words[1] = format!("{}{}{}", &words[1][..16], &words[1][20..], &words[1][16..20]);
                }
            }),
            (Fault::IdentifierZero, _) => follow_identifier(call, &mut lines[0], &mut kept.identifier),
            (Fault::WrongResult, Call::Signal { .. }) => {
                lines.iter_mut().filter(|line| line.ends_with("00000a00")).for_each(|line| *line = line.replace("00000a00", "00000400"));
            }
            (Fault::OneFrameMore, Call::Send { .. }) => change_words(&mut lines[0], |words| {
                if words.len() > 2 && ends_full(&words[1]) {
                    words[2] = (words[2].parse::<usize>().unwrap_or(0) + 1).to_string();
                }
            }),
            (Fault::RoomKept, Call::Room { .. }) => change_words(&mut lines[0], |words| {
                if words[1].len() > 2 {
                    let end = words[1].len();
                    words[1].replace_range(end - 2.., "01");
                }
            }),
            (Fault::GrantOff, Call::Take { .. }) => change_words(&mut lines[0], |words| {
                if let Some(signal) = words.get_mut(4).filter(|signal| signal.len() == 24) {
                    let credits = u8::from_str_radix(&signal[20..22], 16).unwrap_or(0);
                    if (2..255).contains(&credits) {
                        signal.replace_range(20..22, &format!("{:02x}", credits + 1));
                    }
                }
            }),
            (Fault::FullQueueTold0, Call::Frame { .. }) if lines[0] == "21 -" => lines[0] = "0 -".to_string(),
            (Fault::RowMissing, Call::Signal { .. }) if lines.len() > 1 => drop(lines.remove(1)),
            (Fault::EventTurned, Call::Signal { .. }) => lines.iter_mut().for_each(|line| {
                change_words(line, |words| {
                    if words.len() == 6 {
                        words.swap(2, 3);
                    }
                });
            }),
            (Fault::WrongLink, Call::NextDisconnect) => change_words(&mut lines[0], |words| {
                if let Some(link) = words.get_mut(2).filter(|link| *link == "3839") {
                    *link = "3838".to_string();
                }
            }),
            (Fault::FrameOctet, Call::Portion { .. }) => change_words(&mut lines[0], |words| {
                if words[1].len() > 2 {
                    let last = if words[1].ends_with('0') { "1" } else { "0" };
                    let end = words[1].len();
                    words[1].replace_range(end - 1.., last);
                }
            }),
            (Fault::TakenAll, Call::Portion { octets, .. }) => change_words(&mut lines[0], |words| {
                if words.len() == 4 && words[3] == "1" {
                    words[2] = octets.len().to_string();
                }
            }),
            (Fault::AsideKept, Call::OpenJob { .. }) => change_words(&mut lines[0], |words| {
                if words.len() == 6 && words[4] == "0" && words[5] != "0" {
                    words[5] = (words[5].parse::<usize>().unwrap_or(0) + 1).to_string();
                }
            }),
            (Fault::LastFrameOpen, Call::Portion { .. }) => change_words(&mut lines[0], |words| {
                if words.len() == 4 && words[3] == "1" && words[2] == "1" {
                    (words[1], words[3]) = ("-".to_string(), "0".to_string());
                }
            }),
            (Fault::SmallWrongResult, Call::Signal { .. }) => {
                lines.iter_mut().filter(|line| line.ends_with("00000b00")).for_each(|line| *line = line.replace("00000b00", "00000400"));
            }
            (Fault::SmallOpened, Call::Signal { .. }) if step.kinds.contains(&Kind::BelowLeast) => {
                lines.iter_mut().filter(|line| *line == "9 -").for_each(|line| *line = "0 -".to_string());
            }
            (Fault::MpsForgotten, Call::Frame { .. }) if step.kinds.contains(&Kind::LongerThanMps) => lines[0] = "0 -".to_string(),
            (Fault::ShortCut, Call::Take { slot, size }) if lines[0] == "12 -" => lines[0] = cut(step, *slot, *size),
            (Fault::ShortTold0, Call::Take { .. }) if lines[0] == "12 -" => lines[0] = "0 -".to_string(),
            (Fault::ShortAtEquality, Call::Take { size, .. }) => change_words(&mut lines[0], |words| {
                if words.len() == 5 && words[2] == size.to_string() {
                    *words = ["12", "-"].map(str::to_string).to_vec();
                }
            }),
            (Fault::ShortDropped | Fault::ShortGranted, Call::View) => {
                if let Some(slot) = kept.last.and_then(short) {
                    change_words(&mut lines[1 + usize::from(slot)], |words| self.slip_behind_short(words));
                }
            }
            (Fault::LengthOnce, Call::Take { .. }) => change_words(&mut lines[0], |words| {
                if words.len() == 5 {
                    words.remove(3);
                }
            }),
            (Fault::LengthOff, Call::Take { .. }) => change_words(&mut lines[0], |words| {
                if words.len() == 5 {
                    words[3] = (words[3].parse::<usize>().unwrap_or(0) + 1).to_string();
                }
            }),
            (_, Call::Tallies { slot }) if lines[0].starts_with("0 ") => self.slip_in_tallies(step, *slot, kept, &mut lines[0]),
            (_, Call::View) => lines.iter_mut().skip(1).for_each(|line| change_words(line, |words| self.slip_in_view(words))),
            _ => {}
        }
    }

    /// `= slot state link cid spsm mps mtu policy credits received peer_cid peer_mps peer_mtu peer_credits hold have want queued ..`
    fn slip_in_view(self, words: &mut [String]) {
        match self {
            Fault::QueueTurned if words.len() > 20 => words.swap(19, 20),
            Fault::HoldLost if words[2] == "disconnected" => words[15] = "0".to_string(),
            Fault::AccountOff if words[8].starts_with('m') => words[10] = (words[10].parse::<usize>().unwrap_or(0) + 1).to_string(),
            Fault::CreditsShort if words[14] == "65535" => words[14] = "65534".to_string(),
            _ => {}
        }
    }

    /// `0 - sent received blocked_sends blocked_receives`
    fn slip_in_tallies(self, step: &Step, slot: u16, kept: &mut Kept<'_>, line: &mut String) {
        let Some(view) = step.after.last().map(|sight| &sight.view) else { return };
        let (slots, at) = (&view.slots, usize::from(slot));
        let (record, told) = (&slots[at], slots[at].tallies);
        let acted = kept.acted.filter(|acted| about(acted) == Some(slot));
        let answer = acted.and_then(|acted| acted.port[0].as_deref()).unwrap_or_default();
        let tallies = match (self, acted.map(|acted| &acted.call)) {
            (Fault::TalliesTurned, _) => Tallies { sent: told.received, received: told.sent, ..told },
            (Fault::TallyNextSlot, _) => slots[(at + 1) % slots.len()].tallies,
            (Fault::TallyBlockedFrames, Some(Call::Send { sdu, .. })) if answer == "14 -" => {
                let frames = (sdu.len() + 2).div_ceil(record.peer_mps.into()) as u64;
                Tallies { blocked_sends: told.blocked_sends - 1 + frames, ..told }
            }
            (Fault::TallyFullQueue, Some(Call::Frame { .. })) if answer == "21 -" => Tallies { received: told.received - 1, ..told },
            (Fault::TallyNoCredit, Some(Call::Frame { .. })) if answer == "10 -" => {
                Tallies { blocked_receives: told.blocked_receives - 1, ..told }
            }
            (Fault::TallyLeftByUs, _) if matches!(record.state, State::Disconnecting { .. }) => kept.tallies[at],
            (Fault::TallyLeftByFree, _) if record.free() => kept.tallies[at],
            (Fault::TallyLostByPeer, _) if matches!(record.state, State::PeerDisconnecting(_)) => Tallies::default(),
            (Fault::TallyStart, Some(Call::Start { .. })) if answer.starts_with("0 ") => {
                Tallies { sent: told.sent - u64::from(record.job.map_or(0, |job| job.aside)), ..told }
            }
            (Fault::TallyPortion, Some(Call::Portion { .. })) if answer.starts_with("0 ") && answer.ends_with(" 1") => {
                Tallies { sent: told.sent + 1, ..told }
            }
            (Fault::TallyCancel, Some(Call::Cancel { .. })) if told.sent > 0 => Tallies { sent: told.sent - 1, ..told },
            (Fault::TallyOctet, Some(Call::Frame { payload, .. }))
                if answer == "0 -" && payload.last().is_some_and(|last| last % 2 == 1) =>
            {
                Tallies { received: told.received + 1, ..told }
            }
            _ => told,
        };
        kept.tallies[at] = told;
        *line = tallies.numbers().iter().fold(Row::number(0), Row::column).to_string();
    }

    /// The line of a slot whose take was short.
    fn slip_behind_short(self, words: &mut Vec<String>) {
        match self {
            Fault::ShortDropped => {
                words.remove(19);
                words[18] = (words.len() - 19).to_string();
            }
            _ => words[10] = "0".to_string(),
        }
    }
}

/// What a fault knows of the calls before.
#[derive(Default)]
struct Kept<'a> {
    /// The step before, and the last one that didn't only look.
    last: Option<&'a Step>,
    acted: Option<&'a Step>,
    /// The last identifier that was given.
    identifier: u8,
    /// By slot: the tallies that `t` told last.
    tallies: [Tallies; 16],
}

/// The slot that a step is about.
fn about(step: &Step) -> Option<u16> {
    match step.call {
        Call::Frame { cid, .. } => cid.checked_sub(BASE_ID),
        _ => step.call.slot(),
    }
}

/// The slot of a take that was short.
fn short(step: &Step) -> Option<u16> {
    match &step.call {
        Call::Take { slot, .. } if step.kinds == [Kind::ShortTake] => Some(*slot),
        _ => None,
    }
}

/// The row of a take that cuts its job, which stands in the room's second place of its slot.
fn cut(step: &Step, slot: u16, size: u16) -> String {
    let Some(sight) = step.after.last() else { return "12 -".to_string() };
    let place = usize::from(sight.view.m) - 6;
    let octets = sight.places(slot.into())[place..][..usize::from(size)].to_vec();
    Row::number(0).octets(octets).column(size).column(sight.view.slots[usize::from(slot)].jobs[0]).column(hex(&[])).to_string()
}

fn change_words(line: &mut String, change: impl FnOnce(&mut Vec<String>)) {
    let mut words: Vec<String> = line.split(' ').map(str::to_string).collect();
    change(&mut words);
    *line = words.join(" ");
}

/// True where the frames in these hexadecimal digits are several and all of one size.
fn ends_full(frames: &str) -> bool {
    let length = |at: usize| {
        let octet = |at: usize| usize::from_str_radix(&frames[at..at + 2], 16).unwrap_or(0);
        octet(at) + 256 * octet(at + 2)
    };
    let frame = 2 * (length(0) + 4);
    frames.len() > frame && frames.len().is_multiple_of(frame)
}

/// Gives identifier 0 after 255, in the signals that take the next one.
fn follow_identifier(call: &Call, line: &mut String, last: &mut u8) {
    let signal_at = match call {
        Call::Make { .. } => {
            *last = 0;
            return;
        }
        Call::Create { .. } | Call::NextDisconnect | Call::ParameterRequest { .. } | Call::ParameterResponse { .. } => 1,
        Call::Take { .. } => 4,
        _ => return,
    };
    change_words(line, |words| {
        let Some(signal) = words.get_mut(signal_at).filter(|signal| signal.len() >= 12 && !signal[8..].starts_with("07")) else {
            return;
        };
        let identifier = u8::from_str_radix(&signal[10..12], 16).unwrap_or(0);
        if *last == 255 && identifier == 1 {
            signal.replace_range(10..12, "00");
        }
        *last = identifier;
    });
}

/// A port that follows the original and the list of differences, but for one fault.
pub struct Faulty(pub Fault);

impl Port for Faulty {
    fn rows(&mut self, script: &str) -> Result<Vec<String>, String> {
        let calls: Vec<Call> = played(script).map(|(_, line)| Call::parse(line)).collect();
        let manner = Manner { lost_line: self.0 == Fault::LostLine, ..Manner::default() };
        let mut rows = Vec::new();
        let starts: Vec<usize> = (0..calls.len()).filter(|at| matches!(calls[*at], Call::Make { .. })).collect();
        for (at, start) in starts.iter().enumerate() {
            let end = starts.get(at + 1).copied().unwrap_or(calls.len());
            let script = Script::in_manner(&calls[*start..end], manner).ok_or("a script of the domain starts with a table")?;
            let mut kept = Kept::default();
            for step in &script.steps {
                let lines = step.port.iter().zip(&step.original).map(|(port, original)| port.as_ref().unwrap_or(original).clone());
                let mut lines: Vec<String> = lines.collect();
                self.0.slip(step, &mut kept, &mut lines);
                kept.last = Some(step);
                kept.acted = if step.call.only_looks() { kept.acted } else { Some(step) };
                rows.extend(lines);
            }
        }
        Ok(rows)
    }
}
