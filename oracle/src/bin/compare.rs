//! Compares the port with the original, call by call. See oracle/README.md.

use language::Manner;
use oracle::commands::{compare, faults, twin, Words, OPTIONS};
use oracle::faults::{Fault, Faulty};
use oracle::kinds::Kind;
use oracle::play::quiet;
use oracle::port::Program;
use oracle::record::{record, Recorded};
use oracle::run::Extent;
use oracle::without::{without, Beside};
use std::process::ExitCode;
use std::time::Duration;

const USAGE: &str = "usage:
  compare run [options] -- COMMAND [WORDS..]   the original against a program that is given scripts and prints rows
  compare self [options]                       the original against itself
  compare without [options]                    the original with its feature `channel-metrics` against the original without it
  compare faults [options]                     each planted fault has to be found
  compare twin [options] -- COMMAND [WORDS..]  demand 3: the program against itself, with other job octets in one life of one link
  compare record [options] -- FOLDER            the original's answers as files
  compare kinds                                the list of differences";

fn record_into(folder: &str, extent: &Extent) -> ExitCode {
    match record(std::path::Path::new(folder), extent) {
        Ok(made) => {
            let Recorded { files, scripts, calls, lines, settled } = made;
            println!("{files} files, {scripts} scripts, {calls} calls, {lines} rows, {settled} of them settled");
            ExitCode::SUCCESS
        }
        Err(error) => {
            println!("{folder}: {error}");
            ExitCode::FAILURE
        }
    }
}

fn beside(extent: &Extent) -> ExitCode {
    println!("seed {}", extent.seed);
    match without(extent, Manner::default()) {
        Ok(Beside { scripts, calls, counted }) => {
            println!("{scripts} scripts, {calls} calls, numbers counted after {counted}: nothing else differs");
            ExitCode::SUCCESS
        }
        Err(why) => {
            println!("{why}");
            ExitCode::FAILURE
        }
    }
}

fn kinds() -> ExitCode {
    for kind in Kind::ALL {
        println!("{:2} {}", kind.number(), kind.title());
    }
    ExitCode::SUCCESS
}

fn main() -> ExitCode {
    let mut given = std::env::args();
    given.next();
    let what = given.next().unwrap_or_default();
    let Some(words) = Words::read(given, Extent::default()) else {
        eprintln!("{USAGE}\n{OPTIONS}");
        return ExitCode::from(2);
    };
    quiet();
    match what.as_str() {
        _ if words.extent.counted > 0 => {
            eprintln!("a program's tallies can't be put anywhere: --counted is for the entries");
            ExitCode::from(2)
        }
        "run" if !words.command.is_empty() => compare(&mut Program::new(words.command, Duration::from_secs(words.limit)), &words.extent),
        "twin" if words.command.is_empty() => twin(&mut Faulty(Fault::None), &words.extent),
        "twin" => twin(&mut Program::new(words.command, Duration::from_secs(words.limit)), &words.extent),
        "self" => compare(&mut Faulty(Fault::None), &words.extent),
        "without" => beside(&words.extent),
        "record" if words.command.len() == 1 => record_into(&words.command[0], &words.extent),
        "faults" => {
            let faulty = Fault::ALL.into_iter().map(|fault| (fault.title(), Faulty(fault), words.extent));
            faults([(Faulty(Fault::None), words.extent)], faulty)
        }
        "kinds" => kinds(),
        _ => {
            eprintln!("{USAGE}\n{OPTIONS}");
            ExitCode::from(2)
        }
    }
}
