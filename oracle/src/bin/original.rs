//! `chanrun` with the original inside: reads a script from standard input and prints a row for each call. Rows that the original was not
//! asked for are named on standard error.

use language::{played, Call, Manner};
use oracle::play::{play, quiet};
use std::io::{BufWriter, Write};

const USAGE: &str = "usage: original [--confirm-at-once] [--quiet] < script
  --confirm-at-once  a disconnect of our own is confirmed when its request is sent, as the original's host does
  --quiet            says nothing about rows that the original was not asked for";

fn main() {
    let (mut manner, mut says) = (Manner::default(), true);
    for word in std::env::args().skip(1) {
        match word.as_str() {
            "--confirm-at-once" => manner.confirm_at_once = true,
            "--quiet" => says = false,
            _ => {
                eprintln!("{USAGE}");
                std::process::exit(2);
            }
        }
    }
    quiet();
    let script = std::io::read_to_string(std::io::stdin()).expect("standard input is text");
    let lines = played(&script).map(|(_, line)| Call::parse(line));
    let mut numbers = played(&script).map(|(number, _)| number);
    let mut out = BufWriter::new(std::io::stdout().lock());
    writeln!(out, "answer octets").expect("standard output takes rows");
    play(lines, manner, |_, reply| {
        let number = numbers.next().unwrap_or_default();
        for line in reply.lines() {
            writeln!(out, "{line}").expect("standard output takes rows");
        }
        for why in reply.rows.iter().filter_map(|row| row.not_run).filter(|_| says) {
            eprintln!("line {number}: not run: {why}");
        }
    });
}
