//! The service screen: what stands in each slot when a script is at its end, a row a slot, made from the rows of a `V` and of a `t` for each slot.

use crate::plan::{plan, Line};
use crate::telling::{Rows, Trouble};
use crate::words::count;
use language::{can_be_made, Call, SlotView, State, View, Wrong, BASE_ID};
use std::io::{self, Write};

/// The script that is given to the program: its lines as they are, and behind them those that look.
pub fn with_screen(script: &str) -> String {
    let mut lines: Vec<String> = Vec::new();
    for line in plan(script) {
        if let Line::Played { line, .. } = line {
            // The program takes one carriage return from a line's end: this one is part of the line.
            lines.push(if line.ends_with('\r') { format!("{line}\r") } else { line.to_string() });
        }
    }
    let looks = std::iter::once(Call::View).chain((0..slots(script)).map(|slot| Call::Tallies { slot }));
    lines.extend(looks.map(|look| look.to_string()));
    lines.into_iter().map(|line| line + "\n").collect()
}

/// The calls of a script.
fn calls(script: &str) -> impl Iterator<Item = Call> + '_ {
    plan(script).filter_map(|line| match line {
        Line::Passed(_) => None,
        Line::Played { line, .. } => Some(Call::parse(line)),
    })
}

/// The lines of a script that cannot be read, and why: a screen has no place for them.
pub fn unread(script: &str) -> impl Iterator<Item = (usize, Wrong)> + '_ {
    plan(script).filter_map(|line| match line {
        Line::Played { number, asked: Err(wrong), .. } => Some((number, wrong)),
        _ => None,
    })
}

/// The slots of its last table, foretold. Where the program has others, the rows say so.
fn slots(script: &str) -> u16 {
    let made = calls(script).filter_map(|call| match call {
        Call::Make { n, d, m } => Some(if can_be_made(n, d, m) { n } else { 0 }),
        _ => None,
    });
    made.last().unwrap_or(0)
}

/// Writes the screen from the rows that a program printed for what `with_screen` makes of a script. True where every line could be read.
pub fn screen<W: Write>(script: &str, rows: &mut dyn Iterator<Item = io::Result<String>>, out: &mut W) -> Result<bool, Trouble> {
    let mut rows = Rows::new(rows);
    let mut all_read = true;
    rows.begin()?;
    for call in calls(script) {
        for _ in 0..call.rows() {
            let row = rows.any()?;
            all_read &= row.answer != language::Answer::Unread;
            if call == Call::View {
                rows.view(&row)?;
            }
        }
    }
    let row = rows.row()?;
    let mut view = rows.view(&row)?;
    let slots = slots(script);
    if view.n() != slots {
        return Err(Trouble::Rows(format!("the program shows {} at the script's end, where {slots} must be", count(view.n(), "slot"))));
    }
    for slot in 0..slots {
        view.slots[usize::from(slot)].tallies = rows.tallies(slot)?;
    }
    rows.end()?;
    out.write_all(shown(&view).as_bytes())?;
    Ok(all_read)
}

/// What a slot is, in a word or two.
fn state(slot: &SlotView) -> &'static str {
    match slot.state {
        State::Disconnected if slot.hold == 0 => "free",
        State::Disconnected => "ended, still held",
        State::Connecting(_) => "we ask",
        State::PeerConnecting(_) => "phone asks",
        State::Connected => "open",
        State::ConnectFailed(_) => "phone said no",
        State::PeerDisconnecting(_) => "closed by phone",
        State::Disconnecting { announced: false } => "closing",
        State::Disconnecting { announced: true } => "closing, phone told",
    }
}

const COLUMNS: usize = 12;
/// The two lines above the columns: what several columns are of, and each one's name. The second column has words, the others numbers.
const OF: [&str; COLUMNS] = ["", "", "", "our", "phone's", "credits", "credits", "jobs", "frames", "frames", "blocked", "blocked"];
const NAMES: [&str; COLUMNS] = ["slot", "state", "link", "CID", "CID", "phone", "ours", "waiting", "sent", "received", "sends", "frames"];
const WORDS: usize = 1;

const LEGEND: &str = "
credits: the frames that the phone may still send, and those that we may. blocked: sends that had too few
credits (14), and frames that came without one (10). The last four count for one channel and begin at 0
with it. Where we close it they are 0 at once; where the phone does, they stand until the slot is free.
";

fn cells(slot: usize, record: &SlotView) -> [String; COLUMNS] {
    let tallies = record.tallies.numbers().map(|number| number.to_string());
    let [sent, received, blocked_sends, blocked_receives] = tallies;
    // A slot without a channel has no numbers but its own and its tallies, which are zeros; nor has the side of a channel that hasn't said its own yet.
    let of = |known: bool, number: usize| if known && !record.free() { number.to_string() } else { "-".to_string() };
    let ours = !matches!(record.state, State::PeerConnecting(_));
    let its = !matches!(record.state, State::Connecting(_) | State::ConnectFailed(_));
    [
        slot.to_string(),
        state(record).to_string(),
        of(true, record.link.into()),
        of(true, usize::from(BASE_ID) + slot),
        of(its, record.peer_cid.into()),
        of(ours, record.credits.into()),
        of(its, record.peer_credits.into()),
        of(true, record.jobs.len()),
        sent,
        received,
        blocked_sends,
        blocked_receives,
    ]
}

/// The screen of a table. Each column is as wide as its widest word, so that numbers of any length stand below one another.
fn shown(view: &View) -> String {
    if view.slots.is_empty() {
        return "There is no table, and no slot.\n".to_string();
    }
    let mut rows = vec![OF.map(str::to_string), NAMES.map(str::to_string)];
    rows.extend(view.slots.iter().enumerate().map(|(slot, record)| cells(slot, record)));
    let widths: Vec<usize> = (0..COLUMNS).map(|column| rows.iter().map(|row| row[column].len()).max().unwrap_or(0)).collect();
    let free = view.slots.iter().filter(|slot| slot.free() && slot.hold == 0).count();
    let mut text = format!("{}, {free} free; {} can wait at each\n\n", count(view.slots.len(), "slot"), count(view.d, "job"));
    for row in &rows {
        let cell = |(column, (word, width)): (usize, (&String, &usize))| match column {
            WORDS => format!("{word:<width$}"),
            _ => format!("{word:>width$}"),
        };
        let line: Vec<String> = row.iter().zip(&widths).enumerate().map(cell).collect();
        text += line.join("  ").trim_end();
        text += "\n";
    }
    text + LEGEND
}

#[cfg(test)]
mod tests {
    use super::*;

    fn told(script: &str, rows: &str) -> Result<(String, bool), Trouble> {
        let mut out = Vec::new();
        let all_read = screen(script, &mut rows.lines().map(|line| Ok(line.to_string())), &mut out)?;
        Ok((String::from_utf8(out).expect("text"), all_read))
    }

    const TWO: &str =
        "0 - 2 1 29 3\n= 0 connected 1 64 128 25 23 e1 7 2 80 23 100 5 1 0 0 1 2\n= 1 disconnected 0 65 0 0 0 e1 0 0 0 0 0 0 0 0 0 0\n";

    #[test]
    fn looking_lines_stand_behind_the_script() {
        assert_eq!(with_screen(""), "V\n");
        assert_eq!(with_screen("# a scene\n\nT 2 1 64\r\nz\r\r\nV"), "T 2 1 64\nz\r\r\nV\nV\nt 0\nt 1\n");
        assert_eq!(with_screen("T 2 1 64\nT 0 1 64\n"), "T 2 1 64\nT 0 1 64\nV\n");
        // A PDU stays whole.
        assert_eq!(with_screen("T 1 1 64\nS 1 0 p 010501000902060000"), "T 1 1 64\nS 1 0 p 010501000902060000\nV\nt 0\n");
    }

    #[test]
    fn columns_stand_below_one_another_whatever_their_numbers() {
        let most = u64::MAX;
        let rows = format!("answer octets\n0 -\n{TWO}0 - {most} 0 9 {most}\n0 - 0 0 0 0\n");
        let (text, all_read) = told("T 2 1 29", &rows).expect("rows that fit");
        assert!(all_read);
        assert_eq!(
            text.strip_suffix(LEGEND).expect("a legend"),
            "2 slots, 1 free; 1 job can wait at each

                   our  phone's  credits  credits     jobs                frames    frames  blocked               blocked
slot  state  link  CID      CID    phone     ours  waiting                  sent  received    sends                frames
   0  open      1   64       80        7        5        1  18446744073709551615         0        9  18446744073709551615
   1  free      -    -        -        -        -        -                     0         0        0                     0
"
        );
        let (ends, lines) = (|line: &str| line.chars().count(), text.lines().skip(2).take(4).collect::<Vec<_>>());
        assert!(lines.iter().all(|line| ends(line) == ends(lines[0])), "{text}");
        // Every line of the legend fits a terminal.
        assert!(LEGEND.lines().all(|line| line.len() <= 110));
    }

    #[test]
    fn every_state_has_words() {
        let numbers = "1 64 128 25 23 e1 7 2 80 23 100 5";
        for (slot, words) in [
            ("disconnected 0 64 0 0 0 e1 0 0 0 0 0 0 0 0 0 0".to_string(), "free - - - - - -"),
            ("disconnected 0 64 0 0 0 e1 0 0 0 0 0 0 1 0 0 0".to_string(), "ended, still held - - - - - -"),
            (format!("connecting:1 {numbers} 0 0 0 0"), "we ask 1 64 - 7 - 0"),
            (format!("peer-connecting:1 {numbers} 0 0 0 0"), "phone asks 1 64 80 - 5 0"),
            (format!("connected {numbers} 1 0 0 0"), "open 1 64 80 7 5 0"),
            (format!("connect-failed:4 {numbers} 0 0 0 0"), "phone said no 1 64 - 7 - 0"),
            (format!("peer-disconnecting:1 {numbers} 1 0 0 1 3"), "closed by phone 1 64 80 7 5 1"),
            (format!("disconnecting {numbers} 1 0 0 2 3 4"), "closing 1 64 80 7 5 2"),
            (format!("disconnecting:announced {numbers} 1 0 0 0"), "closing, phone told 1 64 80 7 5 0"),
        ] {
            let rows = format!("answer octets\n0 -\n0 - 1 2 29 1\n= 0 {slot}\n0 - 9 8 7 6\n");
            let (text, _) = told("T 1 2 29", &rows).expect("rows that fit");
            let row: Vec<&str> = text.lines().nth(4).expect("a row").split_whitespace().collect();
            assert_eq!(row.join(" "), format!("0 {words} 9 8 7 6"));
        }
    }

    #[test]
    fn the_scripts_own_rows_are_passed_over() {
        let rows = format!("answer octets\n0 -\n{TWO}? -\n0 -\n8 -\n0 - 1 2 3 4\n{TWO}0 - 5 6 7 8\n0 - 0 0 0 0\n");
        let script = "T 2 1 29\nV\nz\nS 1 0 p 010501000902060000\nt 0";
        let (text, all_read) = told(script, &rows).expect("rows that fit");
        assert!(!all_read);
        let first: Vec<&str> = text.lines().nth(4).expect("a row").split_whitespace().collect();
        assert_eq!(first, ["0", "open", "1", "64", "80", "7", "5", "1", "5", "6", "7", "8"]);
        assert_eq!(
            told("", "answer octets\n0 - 0 0 0 1\n").expect("rows that fit"),
            ("There is no table, and no slot.\n".to_string(), true)
        );
    }

    #[test]
    fn rows_that_are_not_the_scripts_are_refused() {
        let trouble = |script: &str, rows: &str| told(script, rows).expect_err("rows that don't fit").to_string();
        assert_eq!(trouble("", ""), "the program's rows end where the head line `answer octets` must stand");
        assert_eq!(trouble("T 2 1 29", "answer octets\n"), "the program's rows end where a row of the script must stand");
        assert_eq!(
            trouble("T 1 1 29", &format!("answer octets\n0 -\n{TWO}")),
            "the program shows 2 slots at the script's end, where 1 must be"
        );
        let made = format!("answer octets\n0 -\n{TWO}0 - 1 2 3 4\n");
        assert_eq!(trouble("T 2 1 29", &made), "the program's rows end where the tallies of slot 1 must stand");
        assert_eq!(trouble("T 2 1 29", &format!("{made}? -\n")), "the program printed `? -` where the tallies of slot 1 must stand");
        assert_eq!(trouble("T 2 1 29", &format!("{made}0 - 0 0 0 0\n0 -\n")), "the program printed more rows than the script asks for");
    }
}
