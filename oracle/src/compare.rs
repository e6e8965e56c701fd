//! Compares rows: what the list and the original say a script prints, against what the port printed.

use crate::kinds::Kind;
use crate::port::Port;
use crate::script::Script;
use language::Call;
use std::collections::BTreeMap;

/// The first line on which a port leaves what it must print.
#[derive(Clone, Debug)]
pub struct Difference {
    /// The call's place in its script.
    pub step: usize,
    pub call: Call,
    pub expected: String,
    pub got: String,
}

/// How much was compared.
#[derive(Clone, Debug, Default)]
pub struct Counts {
    pub scripts: usize,
    /// Calls that change or may change a table.
    pub calls: usize,
    /// Calls that only look: views, places, queries, attention.
    pub looks: usize,
    pub rows: usize,
    /// Calls on which the list foretells nothing.
    pub inside: usize,
    pub letters: BTreeMap<String, usize>,
    pub answers: BTreeMap<String, usize>,
    pub states: BTreeMap<String, usize>,
    pub kinds: BTreeMap<Kind, usize>,
    pub not_run: BTreeMap<&'static str, usize>,
    pub marks: BTreeMap<&'static str, usize>,
}

impl Counts {
    pub fn add(&mut self, script: &Script) {
        self.scripts += 1;
        for step in &script.steps {
            let line = step.call.to_string();
            let letter = line.split(' ').next().unwrap_or_default();
            if step.call.only_looks() {
                self.looks += 1;
            } else {
                self.calls += 1;
                self.inside += usize::from(step.kinds.is_empty());
                *self.letters.entry(letter.to_string()).or_default() += 1;
                for row in &step.original {
                    *self.answers.entry(row.split(' ').next().unwrap_or_default().to_string()).or_default() += 1;
                }
            }
            if step.call == Call::View {
                for row in step.original.iter().skip(1).filter(|row| row.starts_with('=')) {
                    let state = row.split(' ').nth(2).unwrap_or_default().split(':').next().unwrap_or_default();
                    *self.states.entry(state.to_string()).or_default() += 1;
                }
            }
            self.rows += step.port.len();
            for kind in &step.kinds {
                *self.kinds.entry(*kind).or_default() += 1;
            }
            for mark in &step.marks {
                *self.marks.entry(mark).or_default() += 1;
            }
            for why in &step.not_run {
                *self.not_run.entry(why).or_default() += 1;
            }
        }
    }

    pub fn report(&self) -> String {
        let mut text = format!(
            "{} scripts, {} calls ({} with no listed difference), {} looks, {} rows\n",
            self.scripts, self.calls, self.inside, self.looks, self.rows
        );
        let list = |title: &str, counts: &BTreeMap<String, usize>| {
            let words: Vec<String> = counts.iter().map(|(word, count)| format!("{word} {count}")).collect();
            format!("{title}: {}\n", words.join(", "))
        };
        text += &list("calls by letter", &self.letters);
        text += &list("rows by the original's answer", &self.answers);
        text += &list("slots viewed by state", &self.states);
        for (mark, count) in &self.marks {
            text += &format!("reached {count} times: {mark}\n");
        }
        for (kind, count) in &self.kinds {
            text += &format!("difference {:2}, {} times: {}\n", kind.number(), count, kind.title());
        }
        for (why, count) in &self.not_run {
            text += &format!("not run, {count} times: {why}\n");
        }
        text
    }
}

/// Compares the rows of one script.
pub fn check(script: &Script, got: &[String]) -> Result<(), Difference> {
    let mut got = got.iter();
    for (at, step) in script.steps.iter().enumerate() {
        for expected in &step.port {
            let row = got.next().map_or("no row", String::as_str);
            if expected.as_ref().is_some_and(|expected| expected != row) {
                let expected = expected.clone().unwrap_or_default();
                return Err(Difference { step: at, call: step.call.clone(), expected, got: row.to_string() });
            }
        }
    }
    match got.next() {
        None => Ok(()),
        Some(row) => {
            let (step, call) = (script.steps.len(), Call::Unread("the end of the script".to_string()));
            Err(Difference { step, call, expected: "no row".to_string(), got: row.clone() })
        }
    }
}

/// Runs a batch of scripts in one go, and one by one where the number of rows isn't the expected one. Gives the scripts that differ.
pub fn batch<P: Port + ?Sized>(port: &mut P, scripts: &[Script]) -> Result<Vec<(usize, Difference)>, String> {
    let text: String = scripts.iter().map(Script::text).collect();
    let rows = port.rows(&text);
    let wanted: usize = scripts.iter().map(Script::lines).sum();
    let mut differences = Vec::new();
    match rows {
        Ok(rows) if rows.len() == wanted => {
            let mut at = 0;
            for (number, script) in scripts.iter().enumerate() {
                let lines = script.lines();
                differences.extend(check(script, &rows[at..at + lines]).err().map(|difference| (number, difference)));
                at += lines;
            }
        }
        Err(why) => return Err(why),
        Ok(rows) if scripts.len() == 1 => {
            differences.extend(check(&scripts[0], &rows).err().map(|difference| (0, difference)));
        }
        Ok(_) => {
            for (number, script) in scripts.iter().enumerate() {
                let alone = batch(port, std::slice::from_ref(script))?;
                differences.extend(alone.into_iter().map(|(_, difference)| (number, difference)));
            }
        }
    }
    Ok(differences)
}
