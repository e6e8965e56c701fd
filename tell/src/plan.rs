//! What the program is given: the script with looking lines put in, so that its rows show what each call left.

use language::{can_be_made, is_played, lines, signals, Call, Wrong, BASE_ID};
use std::collections::BTreeSet;

/// A line of a script.
pub enum Line<'a> {
    /// A comment, or an empty line: told as it is.
    Passed(&'a str),
    Played {
        number: usize,
        line: &'a str,
        asked: Result<Vec<Part>, Wrong>,
    },
}

/// A call, and what is looked at after it; nothing where the call itself only looks.
pub struct Part {
    pub call: Call,
    pub looked_at: Option<Looks>,
}

/// How many slots are looked at; those in which a job in portions was begun since the table was made, whose open job is looked at too, and those that something was sent
/// from or to since then, whose tallies are: no view shows these.
#[derive(Clone, Debug, Default)]
pub struct Looks {
    pub slots: u16,
    pub jobs: BTreeSet<u16>,
    pub counted: BTreeSet<u16>,
}

impl Looks {
    fn note(&mut self, call: &Call) {
        match *call {
            Call::Make { n, d, m } => *self = Self { slots: if can_be_made(n, d, m) { n } else { 0 }, ..Self::default() },
            Call::Start { slot, .. } if slot < self.slots => {
                self.jobs.insert(slot);
            }
            _ => {}
        }
        let counts = match *call {
            Call::Send { slot, .. } | Call::Start { slot, .. } => Some(slot),
            Call::Frame { cid, .. } => cid.checked_sub(BASE_ID),
            _ => None,
        };
        self.counted.extend(counts.filter(|slot| *slot < self.slots));
    }

    /// The lines that look.
    pub fn calls(&self) -> impl Iterator<Item = Call> + '_ {
        let rooms = (0..self.slots).map(|slot| Call::Room { slot });
        let jobs = self.jobs.iter().map(|slot| Call::OpenJob { slot: *slot });
        let tallies = self.counted.iter().map(|slot| Call::Tallies { slot: *slot });
        std::iter::once(Call::View).chain(rooms).chain(jobs).chain(tallies)
    }
}

/// The lines of a script. Where the number of slots is not what is foretold here, the rows say so.
pub fn plan(script: &str) -> impl Iterator<Item = Line<'_>> {
    let mut looks = Looks::default();
    lines(script).map(move |(number, line)| {
        if !is_played(line) {
            return Line::Passed(line);
        }
        let asked = Call::read(line).map(|call| {
            looks.note(&call);
            cut(call).into_iter().map(|call| Part { looked_at: (!call.only_looks()).then(|| looks.clone()), call }).collect()
        });
        Line::Played { number, line, asked }
    })
}

/// An `S` line as one line a signal, so that what stands between two signals of a PDU is seen too. The calls are the same: each call checks
/// all headers of what it is given, handles the first signal, reading no octet behind it, and is called again with the rest. Where the
/// headers of a whole PDU are good, so are those of every rest and of every signal alone. A PDU with a bad header is one call, as it is.
fn cut(call: Call) -> Vec<Call> {
    let Call::Signal { link, listening, central, pdu } = &call else {
        return vec![call];
    };
    match signals(pdu) {
        Some(parts) if parts.len() > 1 => parts
            .into_iter()
            .map(|part| Call::Signal { link: *link, listening: *listening, central: *central, pdu: part.to_vec() })
            .collect(),
        _ => vec![call],
    }
}

/// The script that is given to the program.
pub fn sent(script: &str) -> String {
    let mut sent = String::new();
    let mut send = |line: &str| {
        sent.push_str(line);
        sent.push('\n');
    };
    for line in plan(script) {
        let Line::Played { line, asked, .. } = line else { continue };
        match asked {
            // The program, too, takes one carriage return from a line's end: this one is part of the line.
            Err(_) if line.ends_with('\r') => send(&format!("{line}\r")),
            Err(_) => send(line),
            Ok(parts) => {
                for Part { call, looked_at } in parts {
                    send(&call.to_string());
                    looked_at.iter().flat_map(Looks::calls).for_each(|look| send(&look.to_string()));
                }
            }
        }
    }
    sent
}

#[cfg(test)]
mod tests {
    use super::*;

    #[test]
    fn looking_lines_follow_every_call_that_can_change_something() {
        let script = "# a scene\n\nQ\r\nT 2 1 64\nI\nz\r\r\nW 1\nT 0 1 64\nL 0";
        assert_eq!(sent(script), "Q\nV\nT 2 1 64\nV\nM 0\nM 1\nI\nz\r\r\nW 1\nV\nM 0\nM 1\nT 0 1 64\nV\nL 0\nV\n");
        // From a start on its slot's open job is looked at too, until the next table.
        assert_eq!(
            sent("T 2 1 64\nN 1 5 11\nN 2 5 11\nn 1\nT 1 1 64"),
            "T 2 1 64\nV\nM 0\nM 1\nN 1 5 11\nV\nM 0\nM 1\nn 1\nt 1\nN 2 5 11\nV\nM 0\nM 1\nn 1\nt 1\nn 1\nT 1 1 64\nV\nM 0\n"
        );
        // And from something sent on, from a slot or to it, its tallies.
        assert_eq!(
            sent("T 2 1 64\nF 1 65 -\nt 0\nF 1 66 -\nF 1 63 -\nK 0 -\nT 1 1 64"),
            "T 2 1 64\nV\nM 0\nM 1\nF 1 65 -\nV\nM 0\nM 1\nt 1\nt 0\nF 1 66 -\nV\nM 0\nM 1\nt 1\nF 1 63 -\nV\nM 0\nM 1\nt 1\nK 0 -\nV\nM 0\nM 1\nt 0\nt 1\nT 1 1 64\nV\nM 0\n"
        );
    }

    #[test]
    fn a_pdu_is_cut_where_all_its_headers_are_good() {
        assert_eq!(sent("S 1 0 p 0105010009020600007"), "S 1 0 p 0105010009020600007\n");
        assert_eq!(sent("S 1 0 p 010501000902060000"), "S 1 0 p 0105010009\nV\nS 1 0 p 02060000\nV\n");
        assert_eq!(sent("S 1 0 p 01050100090206"), "S 1 0 p 01050100090206\nV\n");
        assert_eq!(sent("S 1 0 p -"), "S 1 0 p -\nV\n");
    }
}
