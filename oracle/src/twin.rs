//! Demand 3 by running: the port is given a script twice, the second time with other job octets in one life of one link. Every row has to
//! be equal but for the octets of that link's own jobs, frames and places while that life lasts; after its link-down, all places are.

use crate::port::Port;
use crate::rng::Rng;
use crate::script::{Script, Step};
use language::{Call, HIGHEST_LINK};

/// The link and the steps of one of its lives.
#[derive(Clone, Copy)]
struct Life {
    link: u16,
    first: usize,
    /// The step of its link-down, or past the script's end.
    last: usize,
}

/// Two scripts that may differ in octets only, and of each line whether its octets may differ too.
pub struct Twin {
    first: String,
    second: String,
    /// The rows of each line, and whether their octets are the chosen link's.
    lines: Vec<(Call, usize, bool)>,
}

/// A life of a link of the script, if a link carries any job octet.
fn life(script: &Script, rng: &mut Rng) -> Option<Life> {
    let carries = |step: &Step| match &step.call {
        Call::Frame { link, payload, .. } if !payload.is_empty() && *link <= HIGHEST_LINK => Some(*link),
        Call::Send { sdu, .. } if !sdu.is_empty() => step.owner,
        Call::Portion { octets, .. } if !octets.is_empty() => step.owner,
        _ => None,
    };
    let carrying: Vec<(usize, u16)> =
        script.steps.iter().enumerate().filter_map(|(at, step)| carries(step).map(|link| (at, link))).collect();
    if carrying.is_empty() {
        return None;
    }
    let (at, link) = rng.pick(&carrying);
    let down = |step: &Step| step.call == Call::LinkDown { link };
    let first = script.steps[..at].iter().rposition(down).map_or(0, |before| before + 1);
    let last = script.steps[at..].iter().position(down).map_or(script.steps.len(), |after| at + after);
    Some(Life { link, first, last })
}

fn changed(step: &Step, life: &Life, rng: &mut Rng) -> Call {
    match &step.call {
        Call::Frame { link, cid, payload } if *link == life.link => {
            let public = if step.idle { payload.len().min(2) } else { 0 };
            let octets = rng.octets(payload.len() - public);
            Call::Frame { link: *link, cid: *cid, payload: [&payload[..public], &octets].concat() }
        }
        Call::Send { slot, sdu } if step.owner == Some(life.link) => Call::Send { slot: *slot, sdu: rng.octets(sdu.len()) },
        Call::Portion { slot, size, octets } if step.owner == Some(life.link) => {
            Call::Portion { slot: *slot, size: *size, octets: rng.octets(octets.len()) }
        }
        call => call.clone(),
    }
}

impl Twin {
    pub fn new(script: &Script, rng: &mut Rng) -> Option<Self> {
        let life = life(script, rng)?;
        let n = match script.steps.first()?.call {
            Call::Make { n, .. } => n,
            _ => return None,
        };
        let mut twin = Self { first: String::new(), second: String::new(), lines: Vec::new() };
        for (at, step) in script.steps.iter().enumerate() {
            let lasts = (life.first..life.last).contains(&at);
            let own = lasts && step.owner == Some(life.link);
            let other = if lasts { changed(step, &life, rng) } else { step.call.clone() };
            let octets_differ = own
                && matches!(
                    step.call,
                    Call::Send { .. } | Call::Portion { .. } | Call::OpenJob { .. } | Call::Take { .. } | Call::Room { .. }
                );
            twin.line(&step.call, &other, step.port.len(), octets_differ);
            if at == life.last {
                (0..n).for_each(|slot| twin.line(&Call::Room { slot }, &Call::Room { slot }, 1, false));
            }
        }
        Some(twin)
    }

    fn line(&mut self, first: &Call, second: &Call, rows: usize, octets_differ: bool) {
        self.first += &format!("{first}\n");
        self.second += &format!("{second}\n");
        self.lines.push((second.clone(), rows, octets_differ));
    }

    /// Runs both and gives the first line whose rows may not differ but do.
    pub fn run(&self, port: &mut dyn Port) -> Result<Option<String>, String> {
        let (first, second) = (port.rows(&self.first)?, port.rows(&self.second)?);
        if first.len() != second.len() {
            return Ok(Some(format!("{} rows and {} rows", first.len(), second.len())));
        }
        let mut at = 0;
        for (call, rows, octets_differ) in &self.lines {
            for row in at..at + rows {
                let (Some(one), Some(other)) = (first.get(row), second.get(row)) else {
                    return Ok(Some(format!("no row for `{call}`")));
                };
                if one != other && !(*octets_differ && but_for_octets(one) == but_for_octets(other)) {
                    return Ok(Some(format!("`{call}`: {one} | {other}\n{}", self.second)));
                }
            }
            at += rows;
        }
        Ok(None)
    }

    pub fn calls(&self) -> usize {
        self.lines.iter().filter(|(call, _, _)| !call.only_looks()).count()
    }
}

/// A row with the length of its octets in their place.
fn but_for_octets(row: &str) -> Vec<String> {
    let word = |(at, word): (usize, &str)| if at == 1 { word.len().to_string() } else { word.to_string() };
    row.split(' ').enumerate().map(word).collect()
}
