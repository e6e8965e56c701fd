//! The program that prints the rows.

use crate::telling::Trouble;
use std::ffi::{OsStr, OsString};
use std::io::{BufRead, BufReader, Write};
use std::process::{Child, ChildStdout, Command, Stdio};

/// A program that is given a script. It is ended where its rows are no longer read.
pub struct Program {
    name: String,
    child: Child,
    rows: Option<BufReader<ChildStdout>>,
}

impl Program {
    pub fn start(program: &OsStr, words: &[OsString], script: String) -> Result<Self, Trouble> {
        let name = program.to_string_lossy().into_owned();
        let fails = |error| Trouble::Program(format!("{name} can't be run: {error}"));
        let mut child = Command::new(program).args(words).stdin(Stdio::piped()).stdout(Stdio::piped()).spawn().map_err(fails)?;
        let rows = child.stdout.take().map(BufReader::new);
        if let Some(mut input) = child.stdin.take() {
            // Written while rows are read, since either pipe may fill. A program that stops reading has rows missing: that shows it.
            std::thread::Builder::new().spawn(move || input.write_all(script.as_bytes())).map_err(fails)?;
        }
        Ok(Self { name, child, rows })
    }

    /// The lines that it prints.
    pub fn rows(&mut self) -> impl Iterator<Item = std::io::Result<String>> {
        let lines = self.rows.take().into_iter().flat_map(|rows| rows.split(b'\n'));
        lines.map(|line| line.map(|octets| String::from_utf8_lossy(&octets).into_owned()))
    }

    /// Waits for its end. A program may say by 1 that a line couldn't be read.
    pub fn end(mut self) -> Result<(), Trouble> {
        match self.child.wait() {
            Ok(status) if matches!(status.code(), Some(0 | 1)) => Ok(()),
            Ok(status) => Err(Trouble::Program(format!("{} printed its rows and ended with {status}", self.name))),
            Err(error) => Err(Trouble::Program(format!("{}: {error}", self.name))),
        }
    }
}

impl Drop for Program {
    fn drop(&mut self) {
        // Where it has ended already, both say so, and that is well.
        let _ = self.child.kill();
        let _ = self.child.wait();
    }
}
