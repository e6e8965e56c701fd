//! What a call prints.

use crate::call::number;
use crate::view::{Sight, View};
use std::fmt;

/// The first word of a row.
#[derive(Clone, Copy, Debug, PartialEq, Eq)]
pub enum Answer {
    /// 0, or the refusal's number.
    Number(u16),
    /// The original panicked; the port never prints this.
    Panic,
    /// The line cannot be read.
    Unread,
    /// The original was not asked and document 01 names no answer for it.
    Skipped,
}

#[derive(Clone, Debug, PartialEq, Eq)]
pub struct Row {
    pub answer: Answer,
    pub octets: Vec<u8>,
    pub columns: Vec<String>,
    /// Why the original was not asked for this row, where it wasn't. Never printed.
    pub not_run: Option<&'static str>,
}

impl Row {
    pub fn new(answer: Answer) -> Self {
        Self { answer, octets: Vec::new(), columns: Vec::new(), not_run: None }
    }

    pub fn number(number: u16) -> Self {
        Self::new(Answer::Number(number))
    }

    pub fn octets(mut self, octets: Vec<u8>) -> Self {
        self.octets = octets;
        self
    }

    pub fn column(mut self, column: impl fmt::Display) -> Self {
        self.columns.push(column.to_string());
        self
    }

    /// The row that a line of output is.
    pub fn parse(line: &str) -> Option<Self> {
        let mut words = line.split(' ');
        let answer = Answer::parse(words.next()?)?;
        let octets = words.next().and_then(unhex)?;
        let columns: Vec<String> = words.map(str::to_string).collect();
        let full = columns.iter().all(|column| !column.is_empty());
        full.then_some(Self { answer, octets, columns, not_run: None })
    }

    pub fn not_run(mut self, why: &'static str) -> Self {
        self.not_run = Some(why);
        self
    }
}

/// Everything that one call prints.
#[derive(Clone, Debug, PartialEq, Eq)]
pub struct Reply {
    pub rows: Vec<Row>,
    /// What a `V` line shows.
    pub view: Option<View>,
    /// What stood between the signals of one `S` line: one less than its rows.
    pub between: Vec<Sight>,
}

impl Reply {
    pub fn lines(&self) -> Vec<String> {
        let slots = self.view.iter().flat_map(|view| view.slots.iter().enumerate().map(|(slot, record)| record.line(slot)));
        self.rows.iter().map(Row::to_string).chain(slots).collect()
    }

    pub fn panicked(&self) -> bool {
        self.rows.iter().any(|row| row.answer == Answer::Panic)
    }
}

impl From<Row> for Reply {
    fn from(row: Row) -> Self {
        Self { rows: vec![row], view: None, between: Vec::new() }
    }
}

impl From<Vec<Row>> for Reply {
    fn from(rows: Vec<Row>) -> Self {
        Self { rows, view: None, between: Vec::new() }
    }
}

impl From<View> for Reply {
    fn from(view: View) -> Self {
        let row = Row::number(0).column(view.n()).column(view.d).column(view.m).column(view.next_identifier);
        Self { rows: vec![row], view: Some(view), between: Vec::new() }
    }
}

impl Answer {
    fn parse(word: &str) -> Option<Self> {
        match word {
            "panic" => Some(Answer::Panic),
            "?" => Some(Answer::Unread),
            "~" => Some(Answer::Skipped),
            _ => number(word).map(Answer::Number),
        }
    }
}

impl fmt::Display for Answer {
    fn fmt(&self, f: &mut fmt::Formatter<'_>) -> fmt::Result {
        match self {
            Answer::Number(number) => write!(f, "{number}"),
            Answer::Panic => write!(f, "panic"),
            Answer::Unread => write!(f, "?"),
            Answer::Skipped => write!(f, "~"),
        }
    }
}

impl fmt::Display for Row {
    fn fmt(&self, f: &mut fmt::Formatter<'_>) -> fmt::Result {
        write!(f, "{} {}", self.answer, hex(&self.octets))?;
        self.columns.iter().try_for_each(|column| write!(f, " {column}"))
    }
}

/// Octets as the language writes them.
pub fn hex(octets: &[u8]) -> String {
    if octets.is_empty() {
        return "-".to_string();
    }
    let digit = |value: u8| char::from_digit(u32::from(value), 16).expect("below 16");
    octets.iter().flat_map(|octet| [digit(octet >> 4), digit(octet & 15)]).collect()
}

/// The octets of a word as the language writes them.
pub fn unhex(word: &str) -> Option<Vec<u8>> {
    if word == "-" {
        return Some(Vec::new());
    }
    let digit = |c: u8| match c {
        b'0'..=b'9' => Some(c - b'0'),
        b'a'..=b'f' => Some(c - b'a' + 10),
        _ => None,
    };
    let octets = word.as_bytes().chunks_exact(2);
    if word.is_empty() || !octets.remainder().is_empty() {
        return None;
    }
    octets.map(|two| Some(digit(two[0])? * 16 + digit(two[1])?)).collect()
}

#[cfg(test)]
mod tests {
    use super::*;

    #[test]
    fn a_row_is_read_as_it_is_printed() {
        for line in ["0 -", "? -", "panic -", "~ -", "23 -", "0 010203 3 3 080005001601040040000100", "0 - 6 12 0 100"] {
            assert_eq!(Row::parse(line).map(|row| row.to_string()), Some(line.to_string()));
        }
        for line in ["", "0", "0 ", "0  -", "0 - ", "0 0", "0 AA", "-1 -", "answer octets", "= 0 connected"] {
            assert_eq!(Row::parse(line), None, "{line}");
        }
    }
}
