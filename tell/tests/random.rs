//! No script and no rows bring the telling down: random ones are told, or refused in a sentence.

mod common;

use common::told;
use language::{can_be_made, hex, Call};
use tell::sent;

struct Random(u64);

impl Random {
    fn below(&mut self, limit: usize) -> usize {
        self.0 ^= self.0 << 13;
        self.0 ^= self.0 >> 7;
        self.0 ^= self.0 << 17;
        (self.0 >> 11) as usize % limit.max(1)
    }

    fn pick<'a>(&mut self, words: &[&'a str]) -> &'a str {
        words[self.below(words.len())]
    }

    /// Small numbers mostly, and the largest.
    fn number(&mut self) -> usize {
        match self.below(8) {
            0 => 65_535,
            1 => self.below(65_536),
            2 => 64 + self.below(4),
            _ => self.below(5),
        }
    }

    fn octets(&mut self) -> Vec<u8> {
        let length = self.below(24);
        (0..length).map(|_| self.below(4) as u8 * 85).collect()
    }

    /// One to three signals, some with lengths that don't fit.
    fn pdu(&mut self) -> Vec<u8> {
        let mut pdu = Vec::new();
        for _ in 0..1 + self.below(3) {
            let code = [0x01, 0x06, 0x07, 0x12, 0x13, 0x14, 0x15, 0x16, 0x99][self.below(9)];
            let body: Vec<u8> = (0..[2, 4, 8, 10, self.below(12)][self.below(5)]).map(|_| self.below(256) as u8).collect();
            let length = body.len() + usize::from(self.below(9) == 0);
            pdu.extend([code, self.below(256) as u8, length as u8, 0]);
            pdu.extend(body);
        }
        pdu
    }

    fn line(&mut self) -> String {
        let form = self.pick(&[
            "T n n m",
            "T n n m",
            "R n",
            "S n f r p",
            "S n f r p",
            "P n f",
            "J n",
            "A n c c e c",
            "X n n",
            "Z n",
            "C n n c c e c",
            "O n n f",
            "G n",
            "H n",
            "L n",
            "D n",
            "E n",
            "W n",
            "Q",
            "F n n h",
            "F n n h",
            "K n h",
            "N n n s",
            "N n n s",
            "p n s h",
            "x n",
            "n n",
            "B n n",
            "I",
            "U n",
            "t n",
            "Y n n n n n",
            "y n n",
            "V",
            "M n",
            "# x",
            "",
            "z",
            "n",
            "T n n",
            "Q n",
            "\u{1b}\u{fffd}\r",
        ]);
        let words = form.split(' ').enumerate().map(|(at, word)| match word {
            word if at == 0 => word.to_string(),
            "n" => self.number().to_string(),
            "m" => (29 + self.below(60)).to_string(),
            "c" => [self.number().to_string(), "-".to_string()][self.below(2)].clone(),
            "f" => self.below(2).to_string(),
            "r" => self.pick(&["c", "p"]).to_string(),
            "e" => format!("{}{}", self.pick(&["e", "m"]), self.number()),
            "h" => hex(&self.octets()),
            "s" => self.below(4_098).to_string(),
            "p" => hex(&self.pdu()),
            word => word.to_string(),
        });
        words.collect::<Vec<_>>().join(" ")
    }

    fn script(&mut self) -> String {
        let lines = (0..self.below(12)).map(|_| self.line()).collect::<Vec<_>>();
        lines.join(self.pick(&["\n", "\r\n"]))
    }

    /// A row of any call.
    fn row(&mut self) -> String {
        let mut row = format!("{} {}", if self.below(2) == 0 { 0 } else { self.number() }, hex(&self.octets()));
        for _ in 0..self.below(6) {
            let column = self.number();
            row += &match self.below(6) {
                0 => format!(" {}", hex(&self.octets())),
                1 => format!(" {}", u64::MAX - column as u64),
                _ => format!(" {column}"),
            };
        }
        row
    }

    fn slot(&mut self, slot: usize) -> String {
        let identifier = self.below(256);
        let state = match self.below(8) {
            0 => "disconnected".to_string(),
            1 => format!("connecting:{identifier}"),
            2 => format!("peer-connecting:{identifier}"),
            3 => format!("connect-failed:{identifier}"),
            4 => format!("peer-disconnecting:{identifier}"),
            5 => self.pick(&["disconnecting", "disconnecting:announced"]).to_string(),
            _ => "connected".to_string(),
        };
        let jobs: Vec<usize> = (0..self.below(5)).map(|_| self.number()).collect();
        let mut line = format!(
            "= {slot} {state} {} {} {} {} {} m{}",
            self.number(),
            64 + slot,
            self.number(),
            self.number(),
            self.number(),
            self.number()
        );
        (0..9).for_each(|_| line += &format!(" {}", self.number()));
        line += &format!(" {}", jobs.len());
        jobs.iter().for_each(|job| line += &format!(" {job}"));
        line
    }

    /// Rows of the right forms, with any numbers in them.
    fn rows(&mut self, script: &str) -> String {
        let mut rows = "answer octets\n".to_string();
        let (mut n, mut d, mut m) = (0, 0, 0);
        for line in sent(script).split_terminator('\n') {
            match Call::parse(line) {
                Call::Unread(_) => rows += "? -\n",
                Call::View => {
                    rows += &format!("0 - {n} {d} {m} {}\n", self.below(256));
                    (0..usize::from(n)).for_each(|slot| rows += &format!("{}\n", self.slot(slot)));
                }
                Call::Room { slot } if slot < n => {
                    let octets = (usize::from(d) + 1) * (usize::from(m) - 6);
                    let room: Vec<u8> = (0..octets).map(|_| self.below(2) as u8).collect();
                    rows += &format!("0 {}\n", hex(&room));
                }
                Call::OpenJob { slot } if slot < n => {
                    let numbers: Vec<String> = (0..4).map(|_| self.number().to_string()).collect();
                    rows += &format!("0 {} {}\n", hex(&self.octets()), numbers.join(" "));
                }
                Call::Tallies { slot } if slot < n => {
                    let numbers: Vec<String> = (0..4).map(|_| (u64::MAX >> self.below(64)).to_string()).collect();
                    rows += &format!("0 - {}\n", numbers.join(" "));
                }
                call => {
                    if let Call::Make { n: slots, d: jobs, m: packet } = call {
                        (n, d, m) = if can_be_made(slots, jobs, packet) { (slots, jobs, packet) } else { (0, 0, 0) };
                    }
                    rows += &format!("{}\n", self.row());
                }
            }
        }
        rows
    }
}

#[test]
fn rows_of_the_right_forms_are_told_whatever_they_say() {
    let mut random = Random(0x5EED);
    let mut told_lines = 0;
    for number in 0..4_000 {
        let script = random.script();
        let rows = random.rows(&script);
        match told(&script, &rows) {
            Ok((text, _)) => told_lines += text.lines().count(),
            Err(trouble) => panic!("script {number}: {trouble}\n{script}\n{rows}"),
        }
    }
    assert!(told_lines > 100_000, "only {told_lines} lines were told");
}

#[test]
fn any_rows_are_told_or_refused() {
    let mut random = Random(0xD1CE);
    let (mut fitted, mut refused) = (0, 0);
    for _ in 0..4_000 {
        let script = random.script();
        let mut rows: Vec<String> = random.rows(&script).lines().map(str::to_string).collect();
        // One line is lost, doubled, cut, or another.
        let at = random.below(rows.len());
        match random.below(4) {
            0 => drop(rows.remove(at)),
            1 => rows.insert(at, random.row()),
            2 => rows[at] = rows[at].chars().take(random.below(9)).collect(),
            _ => rows[at] = random.slot(0),
        }
        match told(&script, &rows.join("\n")) {
            Ok(_) => fitted += 1,
            Err(_) => refused += 1,
        }
    }
    assert!(fitted > 0 && refused > 1_000, "{fitted} told, {refused} refused");
}
