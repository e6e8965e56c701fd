//! Compares the entries of `libentries.a`, called in this process, with the original: every answer and buffer, and the whole table and room
//! after every call. See oracle/README.md.

mod archive;
mod faults;
mod layout;
mod lent;
mod memory;
mod port;
mod row;
#[cfg(test)]
mod tests;

use oracle::commands::{compare, faults, twin, Words, OPTIONS};
use oracle::play::quiet;
use oracle::port::Port;
use oracle::run::Extent;
use port::Entries;
use std::process::ExitCode;

const USAGE: &str = "usage:
  entries run [options]     the entries against the original
  entries faults [options]  each fault planted at the entries has to be found
  entries twin [options]    demand 3: the entries against themselves, with other job octets in one life of one link
  entries play              reads a script and prints its rows, as `chanrun` does";

/// Where tallies start that are to wrap.
const NEAR_THE_END: u64 = u64::MAX - 2;

/// `chanrun` over the entries, for scripts that begin with a table.
fn play() -> ExitCode {
    let script = std::io::read_to_string(std::io::stdin());
    match script.map_err(|error| error.to_string()).and_then(|script| Entries::new(None).rows(&script)) {
        Ok(rows) => {
            println!("answer octets");
            rows.iter().for_each(|row| println!("{row}"));
            ExitCode::SUCCESS
        }
        Err(why) => {
            eprintln!("{why}");
            ExitCode::FAILURE
        }
    }
}

fn main() -> ExitCode {
    let mut given = std::env::args();
    given.next();
    let what = given.next().unwrap_or_default();
    // Table and room are looked at after every call anyway: a script needs few views. In demand 3 it is the rows that show them.
    let view_every = if what == "twin" { 1 } else { 1_000 };
    let extent = Extent { view_every, batch: 1, ..Extent::default() };
    let Some(words) = Words::read(given, extent) else {
        eprintln!("{USAGE}\n{OPTIONS}");
        return ExitCode::from(2);
    };
    quiet();
    match what.as_str() {
        "run" => compare(&mut Entries::new(None), &words.extent),
        "faults" => {
            let faulty = |fault: &'static faults::Fault| (fault.title, Entries::new(Some(fault)));
            let near_the_end = Extent { counted: NEAR_THE_END, ..words.extent };
            let plain = [(Entries::new(None), words.extent), (Entries::new(None), near_the_end)];
            let all = faults::all().map(|fault| (faulty(fault), words.extent));
            let wrapping = faults::wrapping().map(|fault| (faulty(fault), near_the_end));
            faults(plain, all.chain(wrapping).map(|((title, port), extent)| (title, port, extent)))
        }
        "twin" => twin(&mut Entries::new(None), &words.extent),
        "play" => play(),
        _ => {
            eprintln!("{USAGE}\n{OPTIONS}");
            ExitCode::from(2)
        }
    }
}
