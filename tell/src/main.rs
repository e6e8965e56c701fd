//! `tell [--screen] FILE PROGRAM [WORDS..]`: plays the script on the program and tells the run, or shows the service screen at its end.

use std::ffi::OsString;
use std::io::{Read, Write};
use std::process::ExitCode;
use tell::{screen, sent, tell, unread, with_screen, Page, Program, Trouble};

const USAGE: &str = "usage: tell [--screen] FILE PROGRAM [WORDS..]
  FILE     a script (docs/CHANRUN.md), or - for standard input
  PROGRAM  reads a script from standard input and prints its rows, as chanrun does; WORDS are given to it
prints, for each line of the script, what was asked, the answer by name, what went out and what changed;
with --screen, a row for each slot as it stands at the script's end: state, link, CIDs, credits, jobs, tallies
exit status: 0; 1 where a line cannot be read; 2 where the script, the program or the output fails";

fn main() -> ExitCode {
    let words: Vec<OsString> = std::env::args_os().skip(1).collect();
    match &words[..] {
        [word] if word == "--help" => print(USAGE),
        [word, file, program, words @ ..] if word == "--screen" && is_file(file) => run(file, program, words, true),
        [file, program, words @ ..] if is_file(file) => run(file, program, words, false),
        _ => said(USAGE),
    }
}

fn is_file(word: &OsString) -> bool {
    word == "-" || !word.as_encoded_bytes().starts_with(b"-")
}

fn print(text: &str) -> ExitCode {
    match writeln!(std::io::stdout(), "{text}") {
        Ok(()) => ExitCode::SUCCESS,
        Err(error) => failed(&Trouble::Output(error)),
    }
}

fn failed(why: &dyn std::fmt::Display) -> ExitCode {
    said(&format!("tell: {why}"))
}

fn said(why: &str) -> ExitCode {
    // Where standard error takes nothing either, the exit status says it alone.
    let _ = writeln!(std::io::stderr(), "{why}");
    ExitCode::from(2)
}

fn run(file: &OsString, program: &OsString, words: &[OsString], as_screen: bool) -> ExitCode {
    let mut script = Vec::new();
    let read = match file.to_str() {
        Some("-") => std::io::stdin().read_to_end(&mut script).map(|_| ()),
        _ => std::fs::read(file).map(|text| script = text),
    };
    if let Err(error) = read {
        return failed(&format!("{}: {error}", file.to_string_lossy()));
    }
    // Octets that are no text stand in no line that can be read: what stands for them here can't be read either.
    let script = String::from_utf8_lossy(&script);
    let run = || {
        let given = if as_screen { with_screen(&script) } else { sent(&script) };
        let mut program = Program::start(program, words, given)?;
        let mut out = std::io::BufWriter::new(std::io::stdout().lock());
        let all_read = match as_screen {
            true => screen(&script, &mut program.rows(), &mut out)?,
            false => tell(&script, &mut program.rows(), &mut Page::new(&mut out))?,
        };
        out.flush()?;
        program.end()?;
        Ok::<bool, Trouble>(all_read)
    };
    match run() {
        // What is told names such a line where it stands; a screen has to be told beside it.
        Ok(false) if as_screen => {
            for (number, wrong) in unread(&script) {
                failed(&format!("line {number}: {wrong}"));
            }
            ExitCode::from(1)
        }
        Ok(all_read) => ExitCode::from(u8::from(!all_read)),
        Err(trouble) => failed(&trouble),
    }
}
