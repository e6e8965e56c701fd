//! Writes scripts of the domain with what the original answered, for places where it can't be run. `NN.script` is given to a program and
//! `NN.rows` is what it must print. A line that shows a record is written as document 01 frees records; `NN.raw` has such lines, by
//! number, as the original printed them, and `~` for a short take, of which it wasn't asked.

use crate::kinds::Kind;
use crate::run::{script, Extent};
use crate::script::{Script, Step};
use std::path::Path;

/// What was written.
pub struct Recorded {
    pub files: usize,
    pub scripts: usize,
    pub calls: usize,
    pub lines: usize,
    pub settled: usize,
}

/// One pair of files has about so many calls.
const CALLS_A_FILE: usize = 500;

pub fn record(folder: &Path, extent: &Extent) -> std::io::Result<Recorded> {
    let mut recorded = Recorded { files: 0, scripts: 0, calls: 0, lines: 0, settled: 0 };
    let extent = Extent { outside: 0, ..*extent };
    let mut page = Page::default();
    let mut number = 0;
    while recorded.calls < extent.calls {
        let made = script(&extent, number);
        number += 1;
        if !is_sample(&made) {
            continue;
        }
        page.add(&made);
        recorded.scripts += 1;
        recorded.calls += made.steps.iter().filter(|step| !step.call.only_looks()).count();
        if recorded.calls >= CALLS_A_FILE * (recorded.files + 1) || recorded.calls >= extent.calls {
            recorded.lines += page.lines;
            recorded.settled += page.raw.lines().count();
            recorded.files += 1;
            std::mem::take(&mut page).write(folder, recorded.files)?;
        }
    }
    Ok(recorded)
}

/// Signals in one PDU may lead out of the domain: such a script is no sample of it. Nor is one that the driver answered itself, nor one
/// with long lines: the runs have them, a file needn't. Short takes it has: the rows behind them are the original's, which wasn't asked for them.
fn is_sample(made: &Script) -> bool {
    let foretold = made.steps.iter().all(|step| step.port.iter().all(Option::is_some));
    let plain = |step: &Step| step.kinds.is_empty() && step.not_run.is_empty();
    let inside = made.steps.iter().all(|step| step.call.only_looks() || plain(step) || step.kinds == [Kind::ShortTake]);
    let printed: usize = made.steps.iter().flat_map(|step| &step.original).map(String::len).sum();
    foretold && inside && made.text().len() + printed <= 12_000
}

/// The three files of one number.
#[derive(Default)]
struct Page {
    script: String,
    rows: String,
    raw: String,
    lines: usize,
}

impl Page {
    fn add(&mut self, made: &Script) {
        self.script += &made.text();
        for step in &made.steps {
            for (port, original) in step.port.iter().zip(&step.original) {
                self.lines += 1;
                let port = port.as_ref().unwrap_or(original);
                self.rows += &format!("{port}\n");
                if port != original {
                    // The header line comes before all of them.
                    self.raw += &format!("{} {original}\n", self.lines + 1);
                }
            }
        }
    }

    fn write(self, folder: &Path, number: usize) -> std::io::Result<()> {
        let file = |kind: &str, text: &str| std::fs::write(folder.join(format!("{number:02}.{kind}")), text);
        file("script", &self.script)?;
        file("rows", &format!("answer octets\n{}", self.rows))?;
        file("raw", &self.raw)
    }
}
