//! The list of differences, as a decision: given the table before a call, do documents 01 and 02 have another row than the original, which one,
//! and can the two tables still be compared after it? A call without a verdict is in the domain: both must print the same row.
//! The numbers are those of docs/DIFFERENCES.md.

use language::{hex, signals, Call, Config, Policy, Row, SlotView, Stale, State, View, BASE_ID, SIZE_LEAST};

#[derive(Clone, Copy, Debug, PartialEq, Eq, PartialOrd, Ord)]
pub enum Kind {
    SpsmIgnored = 1,
    SlotPanic = 2,
    HeldPanic = 3,
    AcceptUnheld = 4,
    LocalMtu = 5,
    DropElsewhere = 6,
    OpenedOrder = 7,
    OpenedPanic = 8,
    GiveUpAnything = 9,
    FrameAnyLink = 10,
    ShortFrame = 11,
    LongerThanLength = 12,
    TooLong = 14,
    LongFrame = 15,
    TakeWhileClosing = 16,
    ZeroGrant = 17,
    ClosedHit = 18,
    DisconnectAnyLink = 19,
    ResponseAnyLink = 20,
    NumbersLeft = 21,
    JobsLeft = 22,
    AssemblyLeft = 23,
    NoPacket = 24,
    JobOpen = 46,
    SetAside = 47,
    LateCancel = 48,
    BelowLeast = 50,
    LongerThanMps = 51,
    ShortTake = 54,
    TalliesLeft = 55,
}

impl Kind {
    pub const ALL: [Kind; 30] = [
        Kind::SpsmIgnored,
        Kind::SlotPanic,
        Kind::HeldPanic,
        Kind::AcceptUnheld,
        Kind::LocalMtu,
        Kind::DropElsewhere,
        Kind::OpenedOrder,
        Kind::OpenedPanic,
        Kind::GiveUpAnything,
        Kind::FrameAnyLink,
        Kind::ShortFrame,
        Kind::LongerThanLength,
        Kind::TooLong,
        Kind::LongFrame,
        Kind::TakeWhileClosing,
        Kind::ZeroGrant,
        Kind::ClosedHit,
        Kind::DisconnectAnyLink,
        Kind::ResponseAnyLink,
        Kind::NumbersLeft,
        Kind::JobsLeft,
        Kind::AssemblyLeft,
        Kind::NoPacket,
        Kind::JobOpen,
        Kind::SetAside,
        Kind::LateCancel,
        Kind::BelowLeast,
        Kind::LongerThanMps,
        Kind::ShortTake,
        Kind::TalliesLeft,
    ];

    pub fn number(self) -> usize {
        self as usize
    }

    pub fn title(self) -> &'static str {
        match self {
            Kind::SpsmIgnored => "registering an SPSM outside 1..=255 is ignored in silence",
            Kind::SlotPanic => "a slot past the table panics",
            Kind::HeldPanic => "a hold count that the step can't use panics",
            Kind::AcceptUnheld => "a pending without a hold is accepted",
            Kind::LocalMtu => "a local MTU above M-6 is taken",
            Kind::DropElsewhere => "dropping a pending that is none any more keeps its hold",
            Kind::OpenedOrder => "the opened query asks whether the link is up before whose slot it is",
            Kind::OpenedPanic => "the opened query of another link's or a free slot panics",
            Kind::GiveUpAnything => "a give-up frees the slot whoever has it",
            Kind::FrameAnyLink => "a frame is taken from any link",
            Kind::ShortFrame => "a first frame under 2 octets panics",
            Kind::LongerThanLength => "a first frame longer than its length opens an assembly",
            Kind::TooLong => "an SDU of 65,534 or 65,535 octets is counted short",
            Kind::LongFrame => "a frame longer than the packet is refused",
            Kind::TakeWhileClosing => "finished jobs can't be taken while disconnecting",
            Kind::ZeroGrant => "a grant of 0 credits is sent and uses an identifier",
            Kind::ClosedHit => "a disconnect request turns a free slot PeerDisconnecting",
            Kind::DisconnectAnyLink => "a disconnect request is taken from any link",
            Kind::ResponseAnyLink => "a disconnect response is taken from any link",
            Kind::NumbersLeft => "numbers of the last owner stand in a freed slot",
            Kind::JobsLeft => "jobs of the last owner stand in a freed slot",
            Kind::AssemblyLeft => "an assembly stays open after Connected is left",
            Kind::NoPacket => "a payload longer than M has no packet in the original",
            Kind::JobOpen => "a job is sent while another one is open",
            Kind::SetAside => "credits set aside don't count in the sum of a credit signal",
            Kind::LateCancel => "a job that is let go of behind its first frame gives credits back, and the channel stays",
            Kind::BelowLeast => "a peer's MTU or MPS below 23 is taken",
            Kind::LongerThanMps => "a frame longer than our MPS is taken",
            Kind::ShortTake => "a job is cut to a shorter buffer, and its rest is gone",
            Kind::TalliesLeft => "tallies of the last owner stand in a freed slot, and the next one inherits them",
        }
    }
}

/// A difference that the list foretells for one row.
#[derive(Clone, Debug, PartialEq, Eq)]
pub struct Verdict {
    pub kind: Kind,
    /// What the documents have the port print.
    pub row: String,
    /// The tables differ from here on.
    pub parts: bool,
}

fn refusal(kind: Kind, number: u16, parts: bool) -> Option<Verdict> {
    Some(Verdict { kind, row: Row::number(number).to_string(), parts })
}

/// The verdict on a call other than `S`, from the table before it and the oldest job of the slot that it names.
pub fn verdict(view: &View, oldest_job: Option<&[u8]>, call: &Call) -> Option<Verdict> {
    let slot = match call.slot() {
        Some(slot) if slot >= view.n() => {
            // The driver answers those that the original has no call for.
            let own = matches!(call, Call::Room { .. } | Call::OpenJob { .. } | Call::Portion { .. } | Call::Cancel { .. });
            let run = slot <= 255 && !own;
            return if run { refusal(Kind::SlotPanic, 6, false) } else { None };
        }
        Some(slot) => Some(&view.slots[usize::from(slot)]),
        None => None,
    };
    match (call, slot) {
        (Call::Register { spsm: 0 | 256.. }, _) => refusal(Kind::SpsmIgnored, 5, false),
        (Call::NextPending { link, .. }, _) => {
            let lowest = view.slots.iter().find(|slot| pending(slot) && slot.link == *link);
            if lowest.is_some_and(|slot| slot.hold > 0) {
                refusal(Kind::HeldPanic, 22, false)
            } else {
                None
            }
        }
        (Call::Accept { config, .. }, Some(slot)) => accept(view, slot, config),
        (Call::Reject { result, .. }, Some(slot)) if listed(*result) && pending(slot) && slot.hold == 0 => {
            refusal(Kind::HeldPanic, 22, false)
        }
        (Call::DropPending { .. }, Some(slot)) => drop_pending(slot),
        (Call::Create { config, .. }, _) if sizes_fit(view, config) == Sizes::OnlyMtu => {
            refusal(Kind::LocalMtu, 12, view.slots.iter().any(|slot| slot.free() && slot.hold == 0))
        }
        (Call::Opened { link, up, .. }, Some(slot)) => opened(slot, *link, *up),
        (Call::GiveUp { .. }, Some(slot)) => match slot.state {
            State::Connecting(_) | State::ConnectFailed(_) => None,
            State::Connected if slot.hold == 0 => None,
            _ => refusal(Kind::GiveUpAnything, 8, !slot.free()),
        },
        (Call::AddHold { .. }, Some(slot)) if slot.hold == 255 => refusal(Kind::HeldPanic, 22, false),
        (Call::Release { .. }, Some(slot)) if slot.hold == 0 => refusal(Kind::HeldPanic, 22, false),
        (Call::Frame { link, cid, payload }, _) => frame(view, *link, *cid, payload),
        (Call::Send { sdu, .. }, Some(slot)) => match sending(view, slot, sdu.len())? {
            (Kind::LongFrame, ..) => {
                Some(Verdict { kind: Kind::LongFrame, row: cut(sdu, slot.peer_mps, slot.peer_cid).to_string(), parts: true })
            }
            (kind, number, did) => refusal(kind, number, did != Did::Nothing),
        },
        (Call::Start { length, size, .. }, Some(slot)) => start(view, slot, usize::from(*length), usize::from(*size)),
        // Gone behind the first frame: the length octets and those taken aren't all in the frame that is being filled.
        (Call::Cancel { .. }, Some(SlotView { state: State::Connected, job: Some(job), .. })) if job.taken + 2 != job.filled => {
            refusal(Kind::LateCancel, 0, true)
        }
        (Call::Take { size, .. }, Some(slot)) => take(slot, oldest_job, usize::from(*size)),
        _ => None,
    }
}

fn pending(slot: &SlotView) -> bool {
    matches!(slot.state, State::PeerConnecting(_))
}

/// The result codes of document 01.
pub fn listed(result: u16) -> bool {
    matches!(result, 0 | 2 | 4..=11)
}

#[derive(PartialEq, Eq)]
enum Sizes {
    Fit,
    Mps,
    OnlyMtu,
}

fn sizes_fit(view: &View, config: &Config) -> Sizes {
    if config.mps.is_some_and(|mps| mps > view.m - 4) {
        Sizes::Mps
    } else if config.mtu.is_some_and(|mtu| mtu > view.m - 6) {
        Sizes::OnlyMtu
    } else {
        Sizes::Fit
    }
}

fn accept(view: &View, slot: &SlotView, config: &Config) -> Option<Verdict> {
    match sizes_fit(view, config) {
        Sizes::Mps => None,
        Sizes::OnlyMtu => refusal(Kind::LocalMtu, 12, pending(slot)),
        Sizes::Fit if pending(slot) && slot.hold == 0 => refusal(Kind::AcceptUnheld, 22, true),
        Sizes::Fit => None,
    }
}

fn drop_pending(slot: &SlotView) -> Option<Verdict> {
    match slot.state {
        State::Connected => None,
        State::PeerConnecting(_) if slot.hold == 0 => refusal(Kind::HeldPanic, 22, false),
        State::PeerConnecting(_) => None,
        _ if slot.hold == 0 => refusal(Kind::DropElsewhere, 22, false),
        _ => refusal(Kind::DropElsewhere, 0, true),
    }
}

fn opened(slot: &SlotView, link: u16, up: bool) -> Option<Verdict> {
    if slot.free() {
        let own = slot.stale == Stale::All && slot.link == link;
        if up && !own {
            refusal(Kind::OpenedPanic, 18, false)
        } else {
            None
        }
    } else if slot.link != link {
        refusal(if up { Kind::OpenedPanic } else { Kind::OpenedOrder }, 8, true)
    } else if up && slot.state == State::Connected && slot.hold > 0 {
        // The unwinding drops the attempt, which closes the slot.
        refusal(Kind::HeldPanic, 22, true)
    } else {
        None
    }
}

fn frame(view: &View, link: u16, cid: u16, payload: &[u8]) -> Option<Verdict> {
    if payload.len() > usize::from(view.m) {
        return no_packet(view, link, cid);
    }
    let slot = &view.slots[view.slot_of(cid)?];
    if slot.state != State::Connected {
        return None;
    }
    if slot.link != link {
        // Without a credit the original counts it as blocked.
        return refusal(Kind::FrameAnyLink, 8, true);
    }
    if slot.credits == 0 {
        return None;
    }
    if payload.len() > usize::from(slot.mps) {
        return if past_a_length(slot, payload) { None } else { refusal(Kind::LongerThanMps, 9, true) };
    }
    if slot.want > 0 {
        return None;
    }
    let [low, high, job @ ..] = payload else {
        return refusal(Kind::ShortFrame, 19, true);
    };
    let length = u16::from_le_bytes([*low, *high]);
    if length <= slot.mtu && job.len() > usize::from(length) {
        return refusal(Kind::LongerThanLength, 9, true);
    }
    None
}

/// A frame that the original answers by 9 itself: past the open job's end, or of a job that is longer than our MTU.
fn past_a_length(slot: &SlotView, payload: &[u8]) -> bool {
    match payload {
        _ if slot.want > 0 => usize::from(slot.have) + payload.len() > usize::from(slot.want),
        [low, high, ..] => u16::from_le_bytes([*low, *high]) > slot.mtu,
        _ => false,
    }
}

/// A payload that no packet holds never reaches the original's channels. It is longer than every MPS of ours: 9 at the latest.
fn no_packet(view: &View, link: u16, cid: u16) -> Option<Verdict> {
    let (number, parts) = match view.slot_of(cid).map(|slot| &view.slots[slot]) {
        None => (7, false),
        Some(slot) if slot.state != State::Connected => (0, false),
        Some(slot) if slot.link != link => (8, false),
        // Counted as blocked.
        Some(slot) if slot.credits == 0 => (10, true),
        Some(_) => (9, true),
    };
    refusal(Kind::NoPacket, number, parts)
}

/// The frames of document 01 for an SDU that is sent: the only rows that this list has to work out itself.
fn cut(sdu: &[u8], mps: u16, peer_cid: u16) -> Row {
    let stream: Vec<u8> = (sdu.len() as u16).to_le_bytes().iter().chain(sdu).copied().collect();
    let frames = stream.chunks(usize::from(mps));
    let n = frames.len();
    let octets = frames.flat_map(|payload| {
        let header = [(payload.len() as u16).to_le_bytes(), peer_cid.to_le_bytes()].concat();
        header.into_iter().chain(payload.iter().copied())
    });
    Row::number(0).octets(octets.collect()).column(n)
}

/// What the original does with a job.
#[derive(PartialEq, Eq)]
enum Did {
    Nothing,
    Sent,
    /// It has counted it as blocked, or as sent before its frame was found too long.
    Counted,
}

/// A job of so many octets that is sent or begun: the kind, what document 01 or 02 answers, and what the original does.
fn sending(view: &View, slot: &SlotView, length: usize) -> Option<(Kind, u16, Did)> {
    let passes = length <= usize::from(slot.peer_mtu);
    if slot.state != State::Connected || !(passes || slot.job.is_some()) {
        return None;
    }
    // Not below 23: an opening that would make it so ends its script.
    let mps = usize::from(slot.peer_mps);
    // The original's own count: its length sum stops at 65,535.
    let paid = (length + 2).min(65_535).div_ceil(mps) <= usize::from(slot.peer_credits);
    let fits = (length + 2).min(mps) + 4 <= usize::from(view.m);
    let did = match passes {
        false => Did::Nothing,
        true if paid && fits => Did::Sent,
        true => Did::Counted,
    };
    if slot.job.is_some() {
        Some((Kind::JobOpen, 24, did))
    } else if length >= 65_534 {
        Some((Kind::TooLong, 23, did))
    } else if paid && !fits {
        Some((Kind::LongFrame, 0, did))
    } else {
        None
    }
}

/// The least buffer of a job in portions.
pub fn buffer(slot: &SlotView, length: usize) -> usize {
    4 + (length + 2).min(slot.peer_mps.into())
}

fn start(view: &View, slot: &SlotView, length: usize, size: usize) -> Option<Verdict> {
    let (kind, number, did) = sending(view, slot, length)?;
    let short = size < buffer(slot, length);
    match kind {
        Kind::LongFrame if short => refusal(kind, 3, true),
        Kind::LongFrame => {
            let frames = (length + 2).div_ceil(slot.peer_mps.into());
            Some(Verdict { kind, row: Row::number(0).column(frames).to_string(), parts: true })
        }
        // The driver takes back what was sent with too short a buffer, but not beside an open job.
        _ => refusal(kind, number, did == Did::Counted || did == Did::Sent && (!short || kind == Kind::JobOpen)),
    }
}

fn take(slot: &SlotView, oldest_job: Option<&[u8]>, size: usize) -> Option<Verdict> {
    // What a take without a grant prints: the job's length twice.
    let taken =
        oldest_job.map_or(Row::number(0), |job| Row::number(0).octets(job.to_vec()).column(job.len()).column(job.len()).column(hex(&[])));
    let waits = oldest_job.is_some();
    match slot.state {
        // The tables stay equal: of an open channel the original isn't asked (`cuts`), and while disconnecting it refuses every take.
        State::Connected | State::Disconnecting { .. } | State::PeerDisconnecting(_) if short(slot, size) => {
            refusal(Kind::ShortTake, 12, false)
        }
        State::Disconnecting { .. } | State::PeerDisconnecting(_) => {
            Some(Verdict { kind: Kind::TakeWhileClosing, row: taken.to_string(), parts: waits })
        }
        State::Connected if waits && slot.received == 0 && grants(slot) => {
            Some(Verdict { kind: Kind::ZeroGrant, row: taken.to_string(), parts: true })
        }
        _ => None,
    }
}

/// A buffer of this size is shorter than the oldest waiting job.
fn short(slot: &SlotView, size: usize) -> bool {
    slot.jobs.first().is_some_and(|job| size < usize::from(*job))
}

/// A take at which the original would cut the job, and its rest would be gone. Document 02 has it refused, and nothing changes: so the original isn't asked, and all that
/// follows is compared.
pub fn cuts(view: &View, call: &Call) -> bool {
    let Call::Take { slot, size } = call else { return false };
    view.slots.get(usize::from(*slot)).is_some_and(|slot| slot.state == State::Connected && short(slot, usize::from(*size)))
}

/// The original's policy test.
pub fn grants(slot: &SlotView) -> bool {
    match slot.policy {
        Policy::Every(count) => slot.received >= count,
        Policy::MinThreshold(threshold) => slot.credits < threshold,
    }
}

/// The verdicts on the signals of an `S` line, one each, from the tables before each.
pub fn signal_verdicts<'a>(link: u16, listening: bool, pdu: &[u8], before: impl Iterator<Item = &'a View>) -> Vec<Option<Verdict>> {
    let parts = signals(pdu).unwrap_or_default();
    parts.iter().zip(before).map(|(part, view)| signal_verdict(view, link, listening, part)).collect()
}

/// The 16-bit fields of a signal's body, where its octets are even in number.
pub fn fields(signal: &[u8]) -> Option<Vec<u16>> {
    signal[4..].chunks(2).map(|two| two.try_into().ok().map(u16::from_le_bytes)).collect()
}

pub fn signal_verdict(view: &View, link: u16, listening: bool, signal: &[u8]) -> Option<Verdict> {
    let identifier = signal[1];
    match (signal[0], &fields(signal)?[..]) {
        (0x06, [dcid, _]) => disconnect_request(view, link, identifier, *dcid),
        (0x07, [_, scid]) => {
            let record = &view.slots[view.slot_of(*scid)?];
            let other = matches!(record.state, State::Disconnecting { .. }) && record.link != link;
            if other {
                refusal(Kind::ResponseAnyLink, 0, true)
            } else {
                None
            }
        }
        (0x14, [spsm, scid, mtu, mps, _]) if registered(view, *spsm) && listening && below_least(*mtu, *mps) => {
            Some(small_request(view, link, identifier, *scid))
        }
        (0x15, [_, mtu, mps, _, 0]) if below_least(*mtu, *mps) => {
            attempt(view, link, identifier)?;
            refusal(Kind::BelowLeast, 9, true)
        }
        (0x16, [cid, given]) => credits(view, link, *cid, *given),
        _ => None,
    }
}

/// The CID that the original has stored in a slot: 0 once it was closed.
fn stored_cid(slot: usize, record: &SlotView) -> u16 {
    if record.free() && record.stale != Stale::All {
        0
    } else {
        BASE_ID + slot as u16
    }
}

fn disconnect_request(view: &View, link: u16, identifier: u8, dcid: u16) -> Option<Verdict> {
    let hit = view.slots.iter().enumerate().find(|(slot, record)| stored_cid(*slot, record) == dcid);
    let (_, record) = hit.filter(|(_, record)| !record.is_of(link))?;
    let kind = if record.free() { Kind::ClosedHit } else { Kind::DisconnectAnyLink };
    let reject = Row::number(0).octets(vec![0x06, 0x00, 0x05, 0x00, 0x01, identifier, 0x02, 0x00, 0x02, 0x00]);
    Some(Verdict { kind, row: reject.to_string(), parts: true })
}

fn registered(view: &View, spsm: u16) -> bool {
    view.spsms.get(usize::from(spsm / 8)).is_some_and(|octet| octet & 1 << (spsm % 8) != 0)
}

pub fn below_least(mtu: u16, mps: u16) -> bool {
    mtu < SIZE_LEAST || mps < SIZE_LEAST
}

/// A request below 23: document 02 has it refused by result 0x0B, before the original's tests of the peer's CID and for a free slot.
fn small_request(view: &View, link: u16, identifier: u8, scid: u16) -> Verdict {
    let reply = [0x0e, 0, 5, 0, 0x15, identifier, 10, 0, 0, 0, 0, 0, 0, 0, 0, 0, 0x0b, 0];
    let used = view.slots.iter().any(|slot| slot.is_of(link) && slot.peer_cid == scid);
    let free = view.slots.iter().any(|slot| slot.free() && slot.hold == 0);
    Verdict { kind: Kind::BelowLeast, row: Row::number(0).octets(reply.to_vec()).to_string(), parts: free && !used }
}

/// The attempt that a response answers.
pub fn attempt(view: &View, link: u16, identifier: u8) -> Option<usize> {
    view.slots.iter().position(|slot| slot.state == State::Connecting(identifier) && slot.link == link)
}

fn credits(view: &View, link: u16, cid: u16, given: u16) -> Option<Verdict> {
    let open = |record: &&SlotView| record.state == State::Connected && record.link == link && record.peer_cid == cid;
    let record = view.slots.iter().find(open)?;
    let (sum, aside) = (u32::from(record.peer_credits) + u32::from(given), u32::from(record.job?.aside));
    if sum <= 65_535 && sum + aside > 65_535 {
        refusal(Kind::SetAside, 9, true)
    } else {
        None
    }
}

/// The differences that settling a record drops: see `SlotView::settled`.
pub fn left_in(record: &SlotView) -> Vec<Kind> {
    let settled = record.settled();
    let mut kinds = Vec::new();
    // Jobs and assembly are looked at below, and a view shows no tallies.
    let SlotView { jobs, have, want, stale, tallies, inherited, .. } = settled.clone();
    if (SlotView { jobs, have, want, stale, tallies, inherited, ..record.clone() }) != settled {
        kinds.push(Kind::NumbersLeft);
    }
    if record.jobs != settled.jobs {
        kinds.push(Kind::JobsLeft);
    }
    if (record.have, record.want) != (settled.have, settled.want) {
        kinds.push(Kind::AssemblyLeft);
    }
    kinds
}
