//! Makes scripts that reach deep states. Each call is chosen with the original's table in sight, so that most calls mean something where
//! the table stands; a script of the domain takes only calls that the list of differences says nothing about.

mod numbers;
mod opening;
mod outside;
mod portions;
mod signals;
mod traffic;

use crate::kinds::{cuts, signal_verdict, verdict, Kind};
use crate::play::SIZES;
use crate::rng::Rng;
use crate::script::Source;
use language::{can_be_made, signals as parts, Call, Config, SlotView, View, BASE_ID};
use std::collections::VecDeque;

/// What a script is about: it weighs the moves.
#[derive(Clone, Copy, Debug, PartialEq, Eq)]
pub enum Theme {
    Mixed,
    Opening,
    Jobs,
    Credits,
    Closing,
    Signals,
    /// Starts with some 250 identifiers used up.
    Wrap,
    /// Starts with a slot at 250 or so holds.
    Holds,
    /// Starts with every slot Connected, over all links.
    Full,
}

/// The themes of a script by chance; the two that start with hundreds of plain calls are rare.
fn theme(rng: &mut Rng) -> Theme {
    match rng.below(60) {
        0 => Theme::Wrap,
        1 => Theme::Holds,
        2..=13 => Theme::Mixed,
        14..=20 => Theme::Opening,
        21..=37 => Theme::Jobs,
        38..=43 => Theme::Credits,
        44..=50 => Theme::Closing,
        51..=55 => Theme::Full,
        _ => Theme::Signals,
    }
}

/// How a run makes its scripts.
#[derive(Clone, Copy, Debug)]
pub struct Plan {
    /// The last calls are made from the list of differences.
    pub outside: bool,
    /// A view of the whole table after every call, or after one in so many.
    pub view_every: usize,
    /// The most calls of a script, those that only look not counted.
    pub longest: usize,
}

#[derive(Clone, Copy)]
enum Move {
    Register,
    PeerRequest,
    Response,
    PeerCredits,
    PeerDisconnect,
    DisconnectResponse,
    Parameters,
    Noise,
    Several,
    NextPending,
    RejectStep,
    Accept,
    Reject,
    DropPending,
    Create,
    Opened,
    GiveUp,
    AddHold,
    Release,
    Disconnect,
    DisconnectByCid,
    LinkDown,
    NextDisconnect,
    Frame,
    Send,
    Start,
    Portion,
    Cancel,
    Take,
    ParameterRequest,
    ParameterResponse,
    Wrong,
}

/// The moves and their weights by theme: mixed, opening, jobs, credits, closing, signals.
const MOVES: [(Move, [usize; 6]); 32] = [
    (Move::Register, [1, 2, 1, 1, 1, 1]),
    (Move::PeerRequest, [8, 14, 8, 8, 12, 12]),
    (Move::Response, [6, 12, 4, 4, 8, 8]),
    (Move::PeerCredits, [4, 1, 2, 16, 2, 6]),
    (Move::PeerDisconnect, [3, 2, 1, 1, 12, 4]),
    (Move::DisconnectResponse, [3, 1, 1, 1, 8, 4]),
    (Move::Parameters, [1, 1, 0, 0, 0, 12]),
    (Move::Noise, [1, 1, 0, 0, 0, 14]),
    (Move::Several, [2, 2, 0, 1, 1, 16]),
    (Move::NextPending, [8, 14, 8, 8, 10, 6]),
    (Move::RejectStep, [1, 4, 0, 0, 1, 1]),
    (Move::Accept, [10, 14, 10, 10, 12, 6]),
    (Move::Reject, [1, 4, 0, 0, 1, 1]),
    (Move::DropPending, [1, 3, 0, 0, 1, 1]),
    (Move::Create, [5, 12, 3, 3, 6, 6]),
    (Move::Opened, [5, 10, 3, 3, 6, 3]),
    (Move::GiveUp, [1, 4, 0, 0, 2, 1]),
    (Move::AddHold, [2, 3, 1, 1, 2, 1]),
    (Move::Release, [4, 5, 3, 3, 8, 3]),
    (Move::Disconnect, [2, 1, 1, 1, 8, 1]),
    (Move::DisconnectByCid, [1, 1, 0, 0, 3, 1]),
    (Move::LinkDown, [1, 2, 1, 1, 5, 1]),
    (Move::NextDisconnect, [4, 2, 1, 1, 12, 3]),
    (Move::Frame, [16, 2, 46, 12, 13, 2]),
    (Move::Send, [8, 1, 10, 24, 3, 1]),
    (Move::Start, [6, 1, 10, 14, 4, 1]),
    (Move::Portion, [10, 1, 16, 24, 6, 1]),
    (Move::Cancel, [1, 0, 1, 3, 1, 0]),
    (Move::Take, [8, 1, 16, 8, 3, 1]),
    (Move::ParameterRequest, [1, 1, 0, 0, 0, 2]),
    (Move::ParameterResponse, [1, 1, 0, 0, 0, 2]),
    (Move::Wrong, [1, 1, 1, 1, 1, 1]),
];

/// One script being made.
pub struct Generator {
    rng: Rng,
    plan: Plan,
    theme: Theme,
    n: u16,
    d: u16,
    m: u16,
    links: Vec<u16>,
    left: usize,
    /// Calls already decided: the start of a theme, and looks after a call.
    ahead: VecDeque<Call>,
}

impl Generator {
    pub fn new(seed: u64, plan: Plan) -> Self {
        let mut rng = Rng::new(seed);
        let (n, d, m) = sizes(&mut rng);
        let theme = theme(&mut rng);
        let links = (0..rng.between(1, 4)).map(|_| numbers::link(&mut rng)).collect();
        let left = rng.between(plan.longest / 3, plan.longest);
        let mut made = Self { rng, plan, theme, n, d, m, links, left, ahead: VecDeque::new() };
        made.start();
        made
    }

    pub fn sizes(&self) -> (u16, u16, u16) {
        (self.n, self.d, self.m)
    }

    fn start(&mut self) {
        self.ahead.push_back(Call::Register { spsm: 128 });
        if self.rng.chance(30) {
            self.ahead.push_back(Call::Register { spsm: self.rng.pick(&[1, 31, 32, 37, 129, 255]) });
        }
        let link = self.links[0];
        match self.theme {
            Theme::Wrap => {
                // An attempt that waits while all other identifiers are used meets the next one with its own.
                let waits = self.rng.chance(50);
                if waits {
                    self.ahead.push_back(Call::Create { link, spsm: 128, config: Config::default() });
                }
                let used = if waits { 254 } else { self.rng.between(245, 256) };
                for _ in 0..used {
                    let result = self.rng.pick(&[0, 1]);
                    self.ahead.push_back(Call::ParameterResponse { link, result });
                }
            }
            Theme::Holds => {
                let slot = self.rng.below(usize::from(self.n)) as u16;
                for _ in 0..self.rng.between(252, 255) {
                    self.ahead.push_back(Call::AddHold { slot });
                }
            }
            Theme::Full => (0..self.n).for_each(|slot| self.open(slot)),
            _ => {}
        }
    }

    /// Opens the lowest slot of a table that has all below it open.
    fn open(&mut self, slot: u16) {
        let link = self.links[usize::from(slot) % self.links.len()];
        let pdu = self.request_from(0x40 + slot);
        let mut config = numbers::config(&mut self.rng, self.m);
        config.mtu = config.mtu.filter(|mtu| *mtu <= self.m - 6);
        config.mps = config.mps.filter(|mps| *mps <= self.m - 4);
        self.ahead.push_back(Call::Signal { link, listening: true, central: true, pdu });
        self.ahead.push_back(Call::NextPending { link, up: true });
        self.ahead.push_back(Call::Accept { slot, config });
    }

    fn weight(&self, weights: &[usize; 6]) -> usize {
        match self.theme {
            Theme::Mixed | Theme::Wrap | Theme::Holds | Theme::Full => weights[0],
            Theme::Opening => weights[1],
            Theme::Jobs => weights[2],
            Theme::Credits => weights[3],
            Theme::Closing => weights[4],
            Theme::Signals => weights[5],
        }
    }

    fn propose(&mut self, view: &View) -> Option<Call> {
        // A job that was begun is to come to its end now and then.
        if view.slots.iter().any(|slot| slot.job.is_some()) && self.rng.chance(35) {
            return self.give_portion(view);
        }
        let total = MOVES.iter().map(|(_, weights)| self.weight(weights)).sum();
        let mut at = self.rng.below(total);
        let mut chosen = MOVES[0].0;
        for (candidate, weights) in &MOVES {
            let weight = self.weight(weights);
            if at < weight {
                chosen = *candidate;
                break;
            }
            at -= weight;
        }
        self.play(chosen, view)
    }

    /// True where both sides must print the same row and go on alike, or go on alike with the call left out on the original's. Between the signals of one PDU only a run can tell, but for sizes below 23: no signal makes
    /// an attempt or registers an SPSM.
    fn inside(&self, view: &View, call: &Call) -> bool {
        match call {
            Call::Signal { link, listening, pdu, .. } => {
                let differs = |(at, part): (usize, &&[u8])| {
                    signal_verdict(view, *link, *listening, part).is_some_and(|verdict| at == 0 || verdict.kind == Kind::BelowLeast)
                };
                !parts(pdu).unwrap_or_default().iter().enumerate().any(differs)
            }
            // A take's verdict needs to know that a job waits, not which. A short one of an open channel is the port's alone, and changes nothing.
            Call::Take { slot, .. } => {
                let waits = view.slots.get(usize::from(*slot)).is_some_and(|record| !record.jobs.is_empty());
                cuts(view, call) || verdict(view, waits.then_some(&[][..]), call).is_none()
            }
            _ => verdict(view, None, call).is_none(),
        }
    }

    /// A slot that passes a test, most of the time; any slot now and then, so that every call meets every state.
    fn slot_where(&mut self, view: &View, test: impl Fn(&SlotView) -> bool) -> Option<u16> {
        if self.rng.chance(4) {
            return Some(self.rng.below(view.slots.len()) as u16);
        }
        let fit: Vec<u16> = (0..view.n()).filter(|slot| test(&view.slots[usize::from(*slot)])).collect();
        if fit.is_empty() {
            None
        } else {
            Some(self.rng.pick(&fit))
        }
    }

    fn a_link(&mut self) -> u16 {
        let links = self.links.clone();
        self.rng.pick(&links)
    }

    /// The link of a slot, most of the time.
    fn link_of(&mut self, view: &View, slot: u16) -> u16 {
        let record = &view.slots[usize::from(slot)];
        if record.free() || self.rng.chance(3) {
            self.a_link()
        } else {
            record.link
        }
    }

    /// Looks after a call: the whole view with every slot's tallies, and now and then the places, the queries, the tallies and the attention set.
    fn look(&mut self, call: &Call) {
        if self.rng.below(self.plan.view_every) == 0 {
            self.ahead.push_back(Call::View);
            self.ahead.extend((0..self.n).map(|slot| Call::Tallies { slot }));
        }
        let any = self.rng.below(usize::from(self.n)) as u16;
        // The places of the slot that the call was about, where it names one.
        let named = match call {
            Call::Frame { cid, .. } => cid.checked_sub(BASE_ID),
            _ => call.slot(),
        };
        let slot = named.filter(|slot| *slot < self.n).unwrap_or(any);
        if matches!(call, Call::Start { .. } | Call::Portion { .. } | Call::Cancel { .. }) && self.rng.chance(50) {
            self.ahead.push_back(Call::OpenJob { slot });
        }
        match self.rng.below(24) {
            0 | 1 => self.ahead.push_back(Call::Room { slot }),
            2 => self.ahead.push_back(Call::Room { slot: any }),
            3 => self.ahead.push_back(Call::Queries { slot }),
            4 => self.ahead.push_back(Call::Attention),
            5 => self.ahead.push_back(Call::OpenJob { slot: any }),
            6 => self.ahead.push_back(Call::Tallies { slot }),
            _ => {}
        }
    }
}

impl Source for Generator {
    fn next(&mut self, view: &View) -> Option<Call> {
        if let Some(call) = self.ahead.pop_front() {
            return Some(call);
        }
        if self.left == 0 {
            return None;
        }
        self.left -= 1;
        // A script that leaves the domain goes deep first: most entries of the list end it.
        let outside = self.plan.outside && self.left < 12;
        let settled = view.settled();
        for _ in 0..400 {
            let proposed = if outside && self.rng.chance(60) { self.outside(&settled) } else { self.propose(&settled) };
            let Some(call) = proposed else { continue };
            if outside || self.inside(view, &call) {
                self.look(&call);
                return Some(call);
            }
        }
        None
    }
}

/// Sizes of a table, small ones more often: the fewer slots, the sooner they are used again.
fn sizes(rng: &mut Rng) -> (u16, u16, u16) {
    loop {
        let n = if rng.chance(70) { rng.between(1, 4) } else { rng.between(1, 16) } as u16;
        let d = rng.between(1, 4) as u16;
        let m = if rng.chance(60) { rng.pick(&[29, 30, 31, 33, 46, 52, 64]) } else { rng.pick(SIZES) };
        if can_be_made(n, d, m) {
            return (n, d, m);
        }
    }
}
