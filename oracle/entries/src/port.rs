//! The entries as a port: a script's lines as calls of the archive, each compared with what must be answered and what must stand after it.

use crate::archive::signal_rest;
use crate::faults::{Fault, Kept, Scene};
use crate::memory::{lines, Asked, Memory};
use crate::row::row;
use language::{played, Answer, Call, JobView, Row, State, Tallies, View};
use oracle::compare::Difference;
use oracle::port::Port;
use oracle::script::{Script, Step};

pub struct Entries {
    memory: Memory,
    /// A planted fault, and what it keeps from call to call.
    fault: Option<&'static Fault>,
    kept: Kept,
    /// Where the tallies of a channel stand when it opens: see `Manner`.
    counted: u64,
}

impl Entries {
    pub fn new(fault: Option<&'static Fault>) -> Self {
        Self { memory: Memory::new(), fault, kept: Kept::default(), counted: 0 }
    }

    fn enter(&mut self, asked: Asked<'_>) -> Row {
        let making = matches!(asked.call, Call::Make { .. });
        let view = self.memory.view();
        let link = asked.call.slot().and_then(|slot| view.slots.get(usize::from(slot))).map_or(0, |record| record.link);
        let faulty = self.fault.filter(|_| !making).map(|fault| (fault, self.memory.sight()));
        self.memory.enter(asked);
        match faulty {
            Some((fault, before)) => fault.act(Scene { asked, before, memory: &mut self.memory, kept: &mut self.kept }),
            None if making => self.kept = Kept::default(),
            None => {}
        }
        if self.counted > 0 {
            self.forge(&view);
        }
        row(&self.memory, asked, link)
    }

    /// Has the tallies of the channels that the call has opened stand at a number, as the driver does with the original's.
    fn forge(&mut self, before: &View) {
        let mut now = self.memory.sight();
        for (slot, record) in now.view.slots.iter_mut().enumerate() {
            let opened = before.slots.get(slot).is_some_and(|old| old.state != record.state) && record.state == State::Connected;
            record.tallies = if opened { Tallies::all(self.counted) } else { record.tallies };
        }
        self.memory.put(&now);
    }

    /// Plays a line. `seen` is given the rows of each call of an entry, and the memory after it; where it says false, the line ends.
    fn line(&mut self, call: &Call, mut seen: impl FnMut(Vec<String>, &Memory) -> bool) {
        let whole = Asked { call, pdu: &[], question: 0 };
        let rows = match call {
            Call::Signal { pdu, .. } => {
                let mut left = &pdu[..];
                loop {
                    let row = self.enter(Asked { pdu: left, ..whole });
                    let rest = signal_rest(left);
                    if !seen(vec![row.to_string()], &self.memory) || rest == 0 {
                        return;
                    }
                    // A rest that isn't shorter would have no end: it is a row that nobody expects.
                    let Some(next) = left.len().checked_sub(rest).filter(|next| *next > 0) else { break };
                    left = &left[next..];
                }
                vec![format!("a rest of {} octets", signal_rest(left))]
            }
            Call::Queries { .. } | Call::Tallies { .. } => {
                let questions = if matches!(call, Call::Queries { .. }) { 5 } else { 4 };
                let answers: Vec<Row> = (0..questions).map(|question| self.enter(Asked { question, ..whole })).collect();
                let refused = answers.iter().find(|row| row.answer != Answer::Number(0));
                match refused {
                    Some(row) if answers.iter().all(|other| other == row) => vec![row.to_string()],
                    Some(_) => answers.iter().map(Row::to_string).collect(),
                    None => vec![answers.iter().flat_map(|row| &row.columns).fold(Row::number(0), Row::column).to_string()],
                }
            }
            Call::View => lines(&self.memory.view()),
            Call::Room { slot } => {
                let (n, octets) = (self.memory.view().slots.len(), self.memory.room.octets());
                let places = octets.chunks((octets.len() / n.max(1)).max(1)).nth(usize::from(*slot));
                vec![places.map_or(Row::number(6), |places| Row::number(0).octets(places.to_vec())).to_string()]
            }
            Call::OpenJob { slot } => {
                let (view, at) = (self.memory.view(), usize::from(*slot));
                let none = if view.slots.is_empty() { 1 } else { 6 };
                let row = view.slots.get(at).map_or(Row::number(none), |record| {
                    let job = record.job.unwrap_or(JobView { length: 0, taken: 0, filled: 0, aside: 0 });
                    let stands = if job.filled == 0 { 0 } else { 4 + usize::from(job.filled) };
                    let octets = self.memory.buffers[at].octets();
                    let row = Row::number(0).octets(octets[..stands.min(octets.len())].to_vec());
                    row.column(job.length).column(job.taken).column(job.filled).column(job.aside)
                });
                vec![row.to_string()]
            }
            Call::Unread(_) => vec![Row::new(Answer::Unread).to_string()],
            _ => vec![self.enter(whole).to_string()],
        };
        seen(rows, &self.memory);
    }

    /// What a step must give and what it gave, where they differ.
    fn step(&mut self, step: &Step) -> Option<(String, String)> {
        let mut rows = step.port.iter();
        let mut after = step.after.iter();
        let mut found = None;
        self.line(&step.call, |got, memory| {
            let wrong = got.into_iter().find_map(|row| match rows.next() {
                Some(Some(must)) if *must != row => Some((must.clone(), row)),
                Some(_) => None,
                None => Some(("no row".to_string(), row)),
            });
            found = wrong.or_else(|| after.next().and_then(|sight| memory.differs(sight)));
            found.is_none()
        });
        let missing = || rows.next().map(|row| (row.clone().unwrap_or_default(), "no row".to_string()));
        found.or_else(missing)
    }
}

impl Port for Entries {
    fn rows(&mut self, script: &str) -> Result<Vec<String>, String> {
        self.counted = 0;
        let mut rows = Vec::new();
        for (_, line) in played(script) {
            self.line(&Call::parse(line), |more, _| {
                rows.extend(more);
                true
            });
        }
        Ok(rows)
    }

    fn differences(&mut self, scripts: &[Script]) -> Result<Vec<(usize, Difference)>, String> {
        let mut differences = Vec::new();
        for (number, script) in scripts.iter().enumerate() {
            self.counted = script.manner.counted;
            let mut steps = script.steps.iter().enumerate();
            let first = steps.find_map(|(at, step)| self.step(step).map(|(expected, got)| (at, step, expected, got)));
            let difference = first.map(|(at, step, expected, got)| Difference { step: at, call: step.call.clone(), expected, got });
            differences.extend(difference.map(|difference| (number, difference)));
        }
        Ok(differences)
    }
}
