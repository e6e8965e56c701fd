//! The script and its rows side by side, told line by line.

use crate::answer::answer;
use crate::asked::asked;
use crate::changed::changed;
use crate::out::out;
use crate::page::Page;
use crate::plan::{plan, Line, Looks, Part};
use crate::seen::Seen;
use crate::words::count;
use language::{Answer, Call, JobView, Row, SlotView, Tallies, View};
use std::fmt;
use std::io::{self, Write};

/// Why a run cannot be told.
#[derive(Debug)]
pub enum Trouble {
    /// The program can't be run, or fails.
    Program(String),
    /// Its rows are not those of the script.
    Rows(String),
    Output(io::Error),
}

impl fmt::Display for Trouble {
    fn fmt(&self, f: &mut fmt::Formatter<'_>) -> fmt::Result {
        match self {
            Trouble::Program(why) | Trouble::Rows(why) => write!(f, "{why}"),
            Trouble::Output(error) => write!(f, "the output can't be written: {error}"),
        }
    }
}

impl From<io::Error> for Trouble {
    fn from(error: io::Error) -> Self {
        Trouble::Output(error)
    }
}

/// Tells a script from the rows that a program printed for what `sent` makes of it. True where every line could be read.
pub fn tell<W: Write>(script: &str, rows: &mut dyn Iterator<Item = io::Result<String>>, page: &mut Page<W>) -> Result<bool, Trouble> {
    let mut rows = Rows::new(rows);
    rows.begin()?;
    let mut seen = Seen::none();
    let mut all_read = true;
    for line in plan(script) {
        let (number, line, asked) = match line {
            Line::Passed(line) => {
                page.plain(line)?;
                continue;
            }
            Line::Played { number, line, asked } => (number, line, asked),
        };
        rows.number = number;
        page.line(number, line)?;
        match asked {
            Ok(parts) => {
                let all = parts.len();
                for (part, at) in parts.into_iter().zip(1..) {
                    let place = if all > 1 { format!("signal {at} of {all}: ") } else { String::new() };
                    seen = played(&part, &place, seen, &mut rows, page)?;
                }
            }
            Err(wrong) => {
                all_read = false;
                rows.unread()?;
                page.told("answer", &format!("? cannot be read: {wrong}"))?;
            }
        }
    }
    rows.end()?;
    Ok(all_read)
}

/// Tells one call, and gives what is seen after it.
fn played<W: Write>(part: &Part, place: &str, before: Seen, rows: &mut Rows<'_>, page: &mut Page<W>) -> Result<Seen, Trouble> {
    let Part { call, looked_at } = part;
    page.told("asked", &format!("{place}{}", asked(call, &before)))?;
    let row = rows.row()?;
    let view = if *call == Call::View { Some(rows.view(&row)?) } else { None };
    let mut name = "answer";
    for line in answer(call, &row, view.as_ref(), &before) {
        page.told(name, &line)?;
        name = "";
    }
    if let Some(out) = out(call, &row, &before) {
        page.told("out", &out)?;
    }
    let Some(looks) = looked_at else { return Ok(before) };
    let after = rows.seen(looks)?;
    let mut name = "changed";
    for line in changed(call, &row, &before, &after) {
        page.told(name, &line)?;
        name = "";
    }
    Ok(after)
}

/// The numbers of a row that shows an open job.
fn job(row: &Row) -> Option<JobView> {
    let numbers: Vec<u16> = row.columns.iter().map(|column| column.parse().ok()).collect::<Option<_>>()?;
    match (row.answer, &numbers[..]) {
        (Answer::Number(0), &[length, taken, filled, aside]) => Some(JobView { length, taken, filled, aside }),
        _ => None,
    }
}

/// The numbers of a row that shows a slot's tallies.
fn tallies(row: &Row) -> Option<Tallies> {
    let numbers: Vec<u64> = row.columns.iter().map(|column| column.parse().ok()).collect::<Option<_>>()?;
    match (row.answer, &numbers[..]) {
        (Answer::Number(0), &[sent, received, blocked_sends, blocked_receives]) => {
            Some(Tallies { sent, received, blocked_sends, blocked_receives })
        }
        _ => None,
    }
}

/// A line of the program as a message shows it: its start, and nothing that a terminal takes for a command.
fn cut(line: &str) -> String {
    line.chars().take(60).flat_map(char::escape_debug).collect()
}

/// The lines that the program prints, and the number of the script's line to which the next ones belong.
pub(crate) struct Rows<'a> {
    lines: &'a mut dyn Iterator<Item = io::Result<String>>,
    number: usize,
}

impl<'a> Rows<'a> {
    pub(crate) fn new(lines: &'a mut dyn Iterator<Item = io::Result<String>>) -> Self {
        Self { lines, number: 0 }
    }

    fn trouble(&self, why: impl fmt::Display) -> Trouble {
        match self.number {
            0 => Trouble::Rows(why.to_string()),
            number => Trouble::Rows(format!("line {number}: {why}")),
        }
    }

    fn next(&mut self) -> Result<Option<String>, Trouble> {
        let line = self.lines.next().transpose();
        line.map_err(|error| self.trouble(format!("the rows of the program can't be read: {error}")))
    }

    /// A line that must be there, read by `read`; `what` says what it must be.
    fn read<T>(&mut self, what: &str, read: impl Fn(&str) -> Option<T>) -> Result<T, Trouble> {
        let line = self.next()?.ok_or_else(|| self.trouble(format!("the program's rows end where {what} must stand")))?;
        read(&line).ok_or_else(|| self.trouble(format!("the program printed `{}` where {what} must stand", cut(&line))))
    }

    pub(crate) fn begin(&mut self) -> Result<(), Trouble> {
        self.read("the head line `answer octets`", |line| (line == "answer octets").then_some(()))
    }

    pub(crate) fn row(&mut self) -> Result<Row, Trouble> {
        self.read("the row of its call", |line| Row::parse(line).filter(|row| row.answer != Answer::Unread))
    }

    /// The row of a call, or of a line that cannot be read: whether it could.
    pub(crate) fn any(&mut self) -> Result<Row, Trouble> {
        self.read("a row of the script", Row::parse)
    }

    fn unread(&mut self) -> Result<(), Trouble> {
        self.read("`? -`, for a line that cannot be read,", |line| (line == "? -").then_some(()))
    }

    /// The view that a row begins.
    pub(crate) fn view(&mut self, row: &Row) -> Result<View, Trouble> {
        let numbers: Vec<u16> = row.columns.iter().map_while(|column| column.parse().ok()).collect();
        let begun = match (row.answer, &numbers[..]) {
            (Answer::Number(0), [n, d, m, identifier]) => u8::try_from(*identifier).ok().map(|identifier| (n, d, m, identifier)),
            _ => None,
        };
        let Some((n, d, m, identifier)) = begun else {
            return Err(self.trouble(format!("the program printed `{}` where a view must stand", cut(&row.to_string()))));
        };
        let mut view = View { d: *d, m: *m, next_identifier: identifier, ..View::none() };
        for slot in 0..usize::from(*n) {
            view.slots.push(self.read(&format!("slot {slot} of a view"), |line| SlotView::parse(line, slot))?);
        }
        Ok(view)
    }

    /// What stands after a call: the view, the room of each slot, the open jobs and the tallies.
    fn seen(&mut self, Looks { slots, jobs, counted }: &Looks) -> Result<Seen, Trouble> {
        let row = self.row()?;
        let mut seen = Seen { view: self.view(&row)?, rooms: Vec::new() };
        if seen.view.n() != *slots {
            return Err(self.trouble(format!("the program shows {}, where {slots} must be", count(seen.view.n(), "slot"))));
        }
        let octets = (usize::from(seen.view.d) + 1).saturating_mul(seen.place());
        for slot in 0..*slots {
            let row = self.read(&format!("the room of slot {slot}"), |line| {
                Row::parse(line).filter(|row| row.answer == Answer::Number(0) && row.octets.len() == octets)
            })?;
            seen.rooms.push(row.octets);
        }
        for slot in jobs {
            let job = self.read(&format!("the open job of slot {slot}"), |line| Row::parse(line).and_then(|row| job(&row)))?;
            seen.view.slots[usize::from(*slot)].job = Some(job).filter(|job| job.aside != 0);
        }
        for slot in counted {
            seen.view.slots[usize::from(*slot)].tallies = self.tallies(*slot)?;
        }
        Ok(seen)
    }

    pub(crate) fn tallies(&mut self, slot: u16) -> Result<Tallies, Trouble> {
        self.read(&format!("the tallies of slot {slot}"), |line| Row::parse(line).and_then(|row| tallies(&row)))
    }

    pub(crate) fn end(&mut self) -> Result<(), Trouble> {
        match self.next()? {
            None => Ok(()),
            Some(_) => Err(Trouble::Rows("the program printed more rows than the script asks for".to_string())),
        }
    }
}
