//! The original with its feature `channel-metrics` beside the original without it. The compared builds have it on (document 02, vi); here both are driven with the same calls, and after each of them rows, tables, rooms
//! and buffers must be equal but for the numbers that are counted: the feature changes nothing else, and what was found without it stands.

use crate::play;
use crate::run::{script, Extent};
use crate::script::Script;
use language::{Call, Eyes, Feed, Manner, Reply, Sight, SlotView, Tallies};

/// The D of the build without the feature.
const D: u16 = 2;

/// What was compared.
#[derive(Default)]
pub struct Beside {
    pub scripts: usize,
    pub calls: usize,
    /// Calls after which a number stood that was counted.
    pub counted: usize,
}

/// Runs scripts of that D until so many calls were made on both, or gives the first that differs. `manner` is that of the build without the feature.
pub fn without(extent: &Extent, manner: Manner) -> Result<Beside, String> {
    let mut beside = Beside::default();
    let mut number = 0;
    // Table and room are looked at after every call anyway.
    let extent = &Extent { view_every: 1_000, ..*extent };
    while beside.calls < extent.calls {
        let made = script(extent, number);
        number += 1;
        if let Some(Call::Make { n, d: D, m }) = made.steps.first().map(|step| step.call.clone()) {
            beside.scripts += 1;
            compare(&made, n, m, manner, &mut beside)?;
        }
    }
    Ok(beside)
}

fn compare(script: &Script, n: u16, m: u16, manner: Manner, beside: &mut Beside) -> Result<(), String> {
    let [mut with, mut plain] = [(); 2].map(|()| Recorder { calls: script.calls(), ..Recorder::default() });
    assert!(play::session(n, D, m, Manner::default(), &mut with) && play::plain_session(n, m, manner, &mut plain));
    let seen = with.seen.iter().zip(&plain.seen).zip(&script.steps[1..]);
    for ((with, plain), step) in seen {
        let counted = with.1.view.slots.iter().any(|slot| slot.tallies != Tallies::default());
        beside.calls += usize::from(!step.call.only_looks());
        beside.counted += usize::from(!step.call.only_looks() && counted);
        let rows = matches!(step.call, Call::Tallies { .. }) || with.0 == plain.0;
        if !rows || uncounted(&with.1) != plain.1 {
            return Err(format!("at `{}`: {:?} with the feature, {:?} without\n{}", step.call, with.0, plain.0, script.text()));
        }
    }
    (with.seen.len() == plain.seen.len()).then_some(()).ok_or_else(|| format!("one panics\n{}", script.text()))
}

/// What stands, but for what was counted.
fn uncounted(sight: &Sight) -> Sight {
    let mut sight = sight.clone();
    let none = Tallies::default();
    sight.view.slots.iter_mut().for_each(|slot| *slot = SlotView { tallies: none, inherited: none, ..slot.clone() });
    sight
}

/// Feeds the calls behind a script's `T`, and keeps what each printed and what stood after it. A panic ends it.
#[derive(Default)]
struct Recorder {
    calls: Vec<Call>,
    rows: Option<Vec<String>>,
    seen: Vec<(Vec<String>, Sight)>,
    down: bool,
}

impl Feed for Recorder {
    fn next(&mut self, eyes: &dyn Eyes) -> Option<Call> {
        self.seen.extend(self.rows.take().map(|rows| (rows, eyes.sight())));
        self.calls.get(self.seen.len() + 1).filter(|_| !self.down).cloned()
    }

    fn answered(&mut self, reply: Reply) {
        self.down = reply.panicked();
        self.rows = Some(reply.lines());
    }
}
