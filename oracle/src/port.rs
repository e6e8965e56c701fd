//! The port as the comparison sees it: something that is given a script and prints rows.

use crate::compare::{batch, Difference};
use crate::script::Script;
use std::io::{Read, Write};
use std::process::{Command, Stdio};
use std::sync::mpsc;
use std::time::Duration;

pub trait Port {
    /// The rows of a script that may have several tables, without the header line.
    fn rows(&mut self, script: &str) -> Result<Vec<String>, String>;

    /// The scripts that differ, by their places, each with its first difference. A port that can be seen into compares more than rows.
    fn differences(&mut self, scripts: &[Script]) -> Result<Vec<(usize, Difference)>, String> {
        batch(self, scripts)
    }
}

/// A program that reads a script from standard input and prints rows, as `chanrun` does.
pub struct Program {
    command: Vec<String>,
    limit: Duration,
}

impl Program {
    pub fn new(command: Vec<String>, limit: Duration) -> Self {
        Self { command, limit }
    }
}

impl Port for Program {
    fn rows(&mut self, script: &str) -> Result<Vec<String>, String> {
        let [program, words @ ..] = &self.command[..] else {
            return Err("no command".to_string());
        };
        let mut child = Command::new(program)
            .args(words)
            .stdin(Stdio::piped())
            .stdout(Stdio::piped())
            // there `chanrun` says what is wrong with lines that can't be read, which the scripts have on purpose
            .stderr(Stdio::null())
            .spawn()
            .map_err(|error| format!("{program}: {error}"))?;
        let mut input = child.stdin.take().expect("piped");
        let mut output = child.stdout.take().expect("piped");
        let script = script.to_string();
        // Writing and reading at once: either pipe may fill.
        let writer = std::thread::spawn(move || input.write_all(script.as_bytes()));
        let (done, rows) = mpsc::channel();
        std::thread::spawn(move || {
            let mut text = Vec::new();
            let read = output.read_to_end(&mut text);
            let _ = done.send(read.map(|_| String::from_utf8_lossy(&text).into_owned()));
        });
        let read = rows.recv_timeout(self.limit);
        let late = read.is_err();
        if late {
            let _ = child.kill();
        }
        let status = child.wait().map_err(|error| error.to_string())?;
        // A program that stops reading leaves the writer with an error: the missing rows show it.
        let _ = writer.join();
        let text = read.or_else(|_| rows.recv()).map_err(|error| error.to_string())?.map_err(|error| error.to_string())?;
        let mut lines = text.lines().map(str::to_string);
        match lines.next() {
            Some(header) if header != "answer octets" => return Err(format!("{program}: the first line is {header:?}")),
            _ => {}
        }
        let mut rows: Vec<String> = lines.collect();
        // A program that dies or hangs differs where its rows end: the comparison shows the call and makes the script small. Status 1 says that a line
        // couldn't be read, and its row says so too.
        let unread = status.code() == Some(1) && rows.iter().any(|row| row == "? -");
        if late {
            rows.push(format!("no row after {} s", self.limit.as_secs()));
        } else if !status.success() && !unread {
            rows.push(format!("no row: {status}"));
        }
        Ok(rows)
    }
}
