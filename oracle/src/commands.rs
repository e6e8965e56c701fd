//! What the programs of this folder are asked by their words, and what they print.

use crate::compare::{Counts, Difference};
use crate::port::Port;
use crate::rng::Rng;
use crate::run::{run, script, Extent, Found};
use crate::script::Script;
use crate::twin::Twin;
use std::process::ExitCode;

/// The options that every program has.
pub const OPTIONS: &str = "options:
  --seed N         0 takes one from the clock; it is printed (1)
  --calls N        calls to compare; those that only look come on top (100000)
  --batch N        scripts that are made in one go (100)
  --outside N      of a hundred scripts, so many leave the domain on purpose (40)
  --view-every N   a view of the whole table after every N-th call or so (1)
  --longest N      calls of the longest script (120)
  --counted N      the tallies of every channel start there, on both sides; not for a program (0)
  --limit N        seconds that a program has for a batch (300)";

/// The words behind a command.
pub struct Words {
    pub extent: Extent,
    pub limit: u64,
    /// What stands behind `--`.
    pub command: Vec<String>,
}

impl Words {
    pub fn read(mut given: std::env::Args, extent: Extent) -> Option<Self> {
        let mut words = Self { extent, limit: 300, command: Vec::new() };
        while let Some(word) = given.next() {
            let mut number = || given.next()?.parse::<u64>().ok();
            match word.as_str() {
                "--seed" => words.extent.seed = number()?,
                "--calls" => words.extent.calls = number()? as usize,
                "--batch" => words.extent.batch = number()?.max(1) as usize,
                "--outside" => words.extent.outside = number()? as usize,
                "--view-every" => words.extent.view_every = number()?.max(1) as usize,
                "--longest" => words.extent.longest = number()?.max(3) as usize,
                "--counted" => words.extent.counted = number()?,
                "--limit" => words.limit = number()?,
                "--" => {
                    words.command = given.collect();
                    break;
                }
                _ => return None,
            }
        }
        if words.extent.seed == 0 {
            let now = std::time::SystemTime::now().duration_since(std::time::UNIX_EPOCH).ok()?;
            words.extent.seed = now.as_nanos() as u64 | 1;
        }
        Some(words)
    }
}

fn show(script: &Script, difference: &Difference) {
    println!("a difference that isn't on the list, at `{}`:", difference.call);
    print!("{}", script.text());
    println!("must print: {}", difference.expected);
    println!("printed:    {}", difference.got);
}

fn report(found: &Found) -> ExitCode {
    print!("{}", found.counts.report());
    for (script, difference) in &found.differences {
        show(script, difference);
    }
    for script in found.surprises.iter().take(3) {
        println!("the original panicked and the list doesn't say so:\n{}", script.text());
    }
    if found.clean() {
        println!("no difference that isn't on the list");
        ExitCode::SUCCESS
    } else {
        println!("{} differences and {} panics that aren't on the list", found.differences.len(), found.surprises.len());
        ExitCode::FAILURE
    }
}

/// A port against the original.
pub fn compare(port: &mut dyn Port, extent: &Extent) -> ExitCode {
    println!("seed {}", extent.seed);
    let mut told = 0;
    let progress = |counts: &Counts| {
        if counts.calls / 200_000 > told {
            told = counts.calls / 200_000;
            eprintln!("{} calls compared", counts.calls);
        }
    };
    match run(port, extent, 3, progress) {
        Ok(found) => report(&found),
        Err(why) => {
            println!("{why}");
            ExitCode::FAILURE
        }
    }
}

/// Ports with a planted fault each: every one has to be found, and none in the port without a fault.
pub fn faults<P: Port>(
    plain: impl IntoIterator<Item = (P, Extent)>,
    faulty: impl IntoIterator<Item = (&'static str, P, Extent)>,
) -> ExitCode {
    for (mut port, extent) in plain {
        println!("seed {}", extent.seed);
        if !run(&mut port, &extent, 1, |_| {}).is_ok_and(|found| found.clean()) {
            println!("the port differs without a planted fault");
            return ExitCode::FAILURE;
        }
    }
    let (mut hits, mut missed) = (0, 0);
    for (title, mut port, extent) in faulty {
        match run(&mut port, &extent, 1, |_| {}) {
            Ok(found) if !found.differences.is_empty() => {
                let (script, difference) = &found.differences[0];
                println!("found: {title} ({} calls; smallest script {} lines)", found.counts.calls, script.steps.len());
                if script.steps.len() < 30 {
                    print!("{}", script.text());
                    println!("must print: {}\nprinted:    {}", difference.expected, difference.got);
                }
                hits += 1;
            }
            _ => {
                println!("missed: {title}");
                missed += 1;
            }
        }
    }
    println!("{hits} planted faults found, {missed} missed");
    if missed == 0 {
        ExitCode::SUCCESS
    } else {
        ExitCode::FAILURE
    }
}

/// Demand 3: a port against itself.
pub fn twin(port: &mut dyn Port, extent: &Extent) -> ExitCode {
    println!("seed {}", extent.seed);
    let (mut calls, mut pairs, mut number) = (0, 0, 0);
    while calls < extent.calls {
        let made = script(extent, number);
        let twin = Twin::new(&made, &mut Rng::new(extent.seed ^ number));
        number += 1;
        let Some(twin) = twin else { continue };
        (calls, pairs) = (calls + 2 * twin.calls(), pairs + 1);
        match twin.run(port) {
            Ok(None) => {}
            Ok(Some(difference)) => {
                println!("script {number}: {difference}");
                return ExitCode::FAILURE;
            }
            Err(why) => {
                println!("{why}");
                return ExitCode::FAILURE;
            }
        }
    }
    println!("{pairs} pairs of runs, {calls} calls: nothing differs but the chosen link's own octets");
    ExitCode::SUCCESS
}
