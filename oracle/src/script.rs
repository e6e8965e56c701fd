//! A script judged: each call with what the original printed, what the port must print, and the differences that the list foretells.
//! Where the list says that the tables part, the script ends: behind that call the port alone is looked at.

use crate::depth::marks;
use crate::foretell::foretold;
use crate::kinds::{cuts, left_in, signal_verdicts, verdict, Kind, Verdict};
use crate::play;
use language::{can_be_made, Answer, Call, Eyes, Feed, Manner, Reply, Row, Sight, View, HIGHEST_LINK};
use std::rc::Rc;

/// Why the original isn't asked for a look.
const PARTED: &str = "a look behind a call at which the tables part: the documents' rule decides";
/// Why the original isn't asked for a take.
const CUT: &str = "a take into a buffer that is shorter than the job: the original would cut it";

/// Where the calls of a script come from; it sees the table before each.
pub trait Source {
    fn next(&mut self, view: &View) -> Option<Call>;
}

impl<I: Iterator<Item = Call>> Source for I {
    fn next(&mut self, _view: &View) -> Option<Call> {
        Iterator::next(self)
    }
}

#[derive(Clone, Debug)]
pub struct Step {
    pub call: Call,
    /// What the original printed.
    pub original: Vec<String>,
    /// What the port must print, line for line; none for the signals of a PDU behind one at which the tables part.
    pub port: Vec<Option<String>>,
    /// What must stand after the call: after each signal of an `S` line, up to one at which the tables part and that one included.
    pub after: Vec<Rc<Sight>>,
    pub kinds: Vec<Kind>,
    pub not_run: Vec<&'static str>,
    /// What deep place this call met.
    pub marks: Vec<&'static str>,
    /// The link of the slot that the call names by number or CID, where it isn't free.
    pub owner: Option<u16>,
    /// No assembly is open on the slot that the call names.
    pub idle: bool,
    /// The original panicked and the list doesn't say so.
    pub surprise: bool,
}

/// A `T` line and the calls on its table.
#[derive(Clone, Debug, Default)]
pub struct Script {
    pub manner: Manner,
    pub steps: Vec<Step>,
}

impl Script {
    /// Runs the original on a table of these sizes and judges every call. The sizes must be among those that it is built for.
    pub fn judge(n: u16, d: u16, m: u16, manner: Manner, source: &mut dyn Source) -> Self {
        assert!(can_be_made(n, d, m), "a script starts with a table that can be made");
        let make = Reply::from(Row::number(0));
        let first = Step::plain(Call::Make { n, d, m }, &make);
        let mut judge = Judge { source, asked: None, script: Script { manner, steps: vec![first] }, parted: false, stands: None };
        assert!(play::session(n, d, m, manner, &mut judge), "the original is built for this M");
        judge.script
    }

    /// Judges a list of calls that starts with `T`. None where it doesn't, or where the original can't be made so.
    pub fn of(calls: &[Call]) -> Option<Self> {
        Self::in_manner(calls, Manner::default())
    }

    pub fn in_manner(calls: &[Call], manner: Manner) -> Option<Self> {
        let [Call::Make { n, d, m }, calls @ ..] = calls else {
            return None;
        };
        let known = can_be_made(*n, *d, *m) && play::SIZES.contains(m) && !calls.iter().any(|call| matches!(call, Call::Make { .. }));
        known.then(|| Self::judge(*n, *d, *m, manner, &mut calls.iter().cloned()))
    }

    pub fn calls(&self) -> Vec<Call> {
        self.steps.iter().map(|step| step.call.clone()).collect()
    }

    pub fn text(&self) -> String {
        self.steps.iter().map(|step| format!("{}\n", step.call)).collect()
    }

    pub fn lines(&self) -> usize {
        self.steps.iter().map(|step| step.port.len()).sum()
    }
}

impl Step {
    /// A call on which both must agree.
    fn plain(call: Call, reply: &Reply) -> Self {
        let original = reply.lines();
        let port = original.iter().cloned().map(Some).collect();
        let not_run = reply.rows.iter().filter_map(|row| row.not_run).collect();
        Self {
            call,
            original,
            port,
            after: Vec::new(),
            kinds: Vec::new(),
            not_run,
            marks: Vec::new(),
            owner: None,
            idle: true,
            surprise: false,
        }
    }
}

/// What stood before the call that is being answered.
struct Before {
    call: Call,
    sight: Rc<Sight>,
    oldest_job: Option<Vec<u8>>,
}

struct Judge<'a> {
    source: &'a mut dyn Source,
    asked: Option<Before>,
    script: Script,
    parted: bool,
    /// What stands, as the original has it and settled. A call that only looks leaves it, and a script has many of them.
    stands: Option<(Rc<Sight>, Rc<Sight>)>,
}

fn stands(eyes: &dyn Eyes) -> (Rc<Sight>, Rc<Sight>) {
    let sight = eyes.sight();
    let settled = sight.clone().settled();
    (Rc::new(sight), Rc::new(settled))
}

impl Feed for Judge<'_> {
    fn next(&mut self, eyes: &dyn Eyes) -> Option<Call> {
        if self.parted {
            return None;
        }
        loop {
            let (sight, settled) = self.stands.get_or_insert_with(|| stands(eyes)).clone();
            // What the original left of the call before.
            self.script.steps.last_mut().expect("a script has its first step").after.push(settled);
            let call = self.source.next(&sight.view)?;
            let named = call.slot().map(usize::from).filter(|slot| *slot < sight.view.slots.len());
            let oldest_job = match call {
                Call::Take { .. } => named.and_then(|slot| eyes.oldest_job(slot)),
                _ => None,
            };
            let before = Before { call: call.clone(), sight, oldest_job };
            if !cuts(&before.sight.view, &call) {
                self.asked = Some(before);
                return Some(call);
            }
            let (step, _) = before.judge(&Row::new(Answer::Skipped).not_run(CUT).into());
            self.script.steps.push(step);
        }
    }

    fn answered(&mut self, reply: Reply) {
        let before = self.asked.take().expect("a reply follows a call");
        self.stands = self.stands.take().filter(|_| before.call.only_looks());
        let (step, parted) = before.judge(&reply);
        self.parted = parted;
        let stands = step.after.last().filter(|_| parted && !step.surprise && step.port.last().is_some_and(Option::is_some)).cloned();
        self.script.steps.push(step);
        self.script.steps.extend(stands.iter().flat_map(looks));
    }
}

/// The view of a table that the port alone has, and each slot's tallies.
fn looks(sight: &Rc<Sight>) -> Vec<Step> {
    let tallies = sight.view.slots.iter().map(|record| record.tallies.numbers().iter().fold(Row::number(0), Row::column));
    let tallies = (0..).zip(tallies).map(|(slot, row)| (Call::Tallies { slot }, Reply::from(row)));
    let looks = std::iter::once((Call::View, Reply::from(sight.view.clone()))).chain(tallies);
    let look = |(call, reply): (Call, Reply)| {
        let mut step = Step::plain(call, &reply);
        step.original.fill(Row::new(Answer::Skipped).to_string());
        Step { not_run: vec![PARTED], after: vec![sight.clone()], ..step }
    };
    looks.map(look).collect()
}

impl Before {
    fn judge(self, reply: &Reply) -> (Step, bool) {
        let view = &self.sight.view;
        let mut step = Step::plain(self.call.clone(), reply);
        if !self.call.only_looks() {
            step.marks = marks(view, &self.call, reply);
        }
        let cid = match self.call {
            Call::Frame { cid, .. } => view.slot_of(cid),
            _ => None,
        };
        let named = self.call.slot().map(usize::from).or(cid).and_then(|slot| view.slots.get(slot));
        step.owner = named.filter(|record| !record.free()).map(|record| record.link);
        step.idle = named.is_none_or(|record| record.settled().want == 0);
        let verdicts = self.verdicts(reply);
        step.after.extend(reply.between.iter().map(|sight| Rc::new(sight.clone().settled())));
        let mut parted = false;
        for (at, (line, verdict)) in step.port.iter_mut().zip(&verdicts).enumerate() {
            if parted {
                *line = None;
            } else if let Some(verdict) = verdict {
                *line = Some(verdict.row.clone());
                parted = verdict.parts;
                if parted {
                    let before = at.checked_sub(1).map_or(&*self.sight, |last| &reply.between[last]);
                    step.after.truncate(at);
                    step.after.push(Rc::new(foretold(before.clone().settled(), &self.call, at, verdict.kind)));
                }
            }
        }
        step.kinds = verdicts.iter().flatten().map(|verdict| verdict.kind).collect();
        self.settle(reply, &mut step);
        let foretold = verdicts.iter().any(Option::is_some);
        step.surprise = reply.panicked() && !foretold;
        let parts = parted || step.surprise;
        (step, parts)
    }

    fn verdicts(&self, reply: &Reply) -> Vec<Option<Verdict>> {
        match &self.call {
            Call::Signal { link, .. } if *link > HIGHEST_LINK => Vec::new(),
            Call::Signal { link, listening, pdu, .. } => {
                let before = std::iter::once(&*self.sight).chain(&reply.between);
                signal_verdicts(*link, *listening, pdu, before.map(|sight| &sight.view))
            }
            call if call.link().is_some_and(|link| link > HIGHEST_LINK) => Vec::new(),
            call => vec![verdict(&self.sight.view, self.oldest_job.as_deref(), call)],
        }
    }

    /// The lines that show records: the port's have nothing left behind.
    fn settle(&self, reply: &Reply, step: &mut Step) {
        let view = &self.sight.view;
        let named = self.call.slot().map(usize::from).and_then(|slot| view.slots.get(slot));
        match (&self.call, &reply.view, named) {
            (Call::View, Some(view), _) => {
                for (slot, record) in view.slots.iter().enumerate() {
                    step.port[1 + slot] = Some(record.settled().line(slot));
                    step.kinds.extend(left_in(record));
                }
            }
            (Call::Queries { .. }, _, Some(record)) => {
                let record = record.settled();
                let row = Row::number(0).column(record.spsm).column(record.mtu).column(record.mps);
                step.port[0] = Some(row.column(record.peer_mtu).column(record.peer_mps).to_string());
                if step.port[0].as_ref() != step.original.first() {
                    step.kinds.push(Kind::NumbersLeft);
                }
            }
            (Call::Tallies { .. }, _, Some(record)) => {
                let row = record.settled().tallies.numbers().iter().fold(Row::number(0), Row::column);
                step.port[0] = Some(row.to_string());
                if step.port[0].as_ref() != step.original.first() {
                    step.kinds.push(Kind::TalliesLeft);
                }
            }
            (Call::Room { .. }, _, Some(record)) => {
                let mut row = reply.rows[0].clone();
                record.settle_places(&mut row.octets, view.d);
                if row.octets != reply.rows[0].octets {
                    step.kinds.push(if record.free() { Kind::JobsLeft } else { Kind::AssemblyLeft });
                }
                step.port[0] = Some(row.to_string());
            }
            _ => {}
        }
    }
}
