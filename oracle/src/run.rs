//! A run: scripts from a seed, in batches, until so many calls were compared.

use crate::compare::{Counts, Difference};
use crate::generate::{Generator, Plan};
use crate::port::Port;
use crate::script::Script;
use crate::shrink::shrink;
use language::Manner;

#[derive(Clone, Copy, Debug)]
pub struct Extent {
    pub seed: u64,
    pub calls: usize,
    /// Scripts handed to the port in one go.
    pub batch: usize,
    /// Of a hundred scripts, so many leave the domain of document 01 on purpose.
    pub outside: usize,
    pub view_every: usize,
    pub longest: usize,
    /// The number at which the tallies of every channel start.
    pub counted: u64,
}

impl Default for Extent {
    fn default() -> Self {
        Self { seed: 1, calls: 100_000, batch: 100, outside: 40, view_every: 1, longest: 120, counted: 0 }
    }
}

/// The script of a number: every script of a run can be made again by itself.
pub fn script(extent: &Extent, number: u64) -> Script {
    let seed = extent.seed.wrapping_mul(0x0001_0000_01b3).wrapping_add(number);
    let outside = number % 100 < extent.outside as u64;
    let plan = Plan { outside, view_every: extent.view_every, longest: extent.longest };
    let mut generator = Generator::new(seed, plan);
    let (n, d, m) = generator.sizes();
    Script::judge(n, d, m, Manner { counted: extent.counted, ..Manner::default() }, &mut generator)
}

/// What a run found.
#[derive(Default)]
pub struct Found {
    pub counts: Counts,
    /// The smallest script for each difference that isn't on the list.
    pub differences: Vec<(Script, Difference)>,
    /// Scripts in which the original panicked and the list doesn't say so.
    pub surprises: Vec<Script>,
}

impl Found {
    pub fn clean(&self) -> bool {
        self.differences.is_empty() && self.surprises.is_empty()
    }
}

/// Runs until `calls` were compared, or until so many differences were found.
pub fn run(port: &mut dyn Port, extent: &Extent, most: usize, mut progress: impl FnMut(&Counts)) -> Result<Found, String> {
    let mut found = Found::default();
    let mut number = 0;
    while found.counts.calls < extent.calls && found.differences.len() < most {
        let mut scripts = Vec::new();
        let mut calls = found.counts.calls;
        while scripts.len() < extent.batch && calls < extent.calls {
            let made = script(extent, number);
            number += 1;
            calls += made.steps.iter().filter(|step| !step.call.only_looks()).count();
            scripts.push(made);
        }
        let differences = port.differences(&scripts)?;
        for (at, difference) in differences.into_iter().take(most - found.differences.len()) {
            let whole = (scripts[at].clone(), difference);
            found.differences.push(shrink(port, &scripts[at]).unwrap_or(whole));
        }
        for made in &scripts {
            found.counts.add(made);
            if made.steps.iter().any(|step| step.surprise) {
                found.surprises.push(made.clone());
            }
        }
        progress(&found.counts);
    }
    Ok(found)
}
