//! The page that is printed: a line of the script, and under it what is told, in at most 100 columns.

use std::io::{self, Write};

const WIDTH: usize = 100;
/// Where the script's line and the told rows begin, and where what they tell begins.
const MARGIN: usize = 6;
const TOLD: usize = 15;

pub struct Page<W>(W);

impl<W: Write> Page<W> {
    pub fn new(out: W) -> Self {
        Self(out)
    }

    /// A line as it stands in the script, tabs too.
    pub fn plain(&mut self, line: &str) -> io::Result<()> {
        let text: String = line.chars().flat_map(|c| if c == '\t' { vec![c] } else { shown(c) }).collect();
        writeln!(self.0, "{text}")
    }

    /// A line of the script that is played. A long one is cut: what it says is told below.
    pub fn line(&mut self, number: usize, line: &str) -> io::Result<()> {
        let width = WIDTH - MARGIN;
        let mut shown: Vec<char> = line.chars().take(2 * width).flat_map(shown).collect();
        if shown.len() > width {
            shown.truncate(width - 2);
            shown.extend(" …".chars());
        }
        writeln!(self.0, "{number:>4}  {}", shown.into_iter().collect::<String>())
    }

    /// A told row: its name, and text that is broken between words.
    pub fn told(&mut self, name: &str, text: &str) -> io::Result<()> {
        let mut head = format!("{:MARGIN$}{name}", "");
        for line in broken(text, WIDTH - TOLD) {
            writeln!(self.0, "{head:TOLD$}{line}")?;
            head.clear();
        }
        Ok(())
    }

    /// Where the page was written.
    pub fn into_inner(self) -> W {
        self.0
    }
}

/// A character as it is shown: nothing of a script reaches a terminal as a command.
fn shown(c: char) -> Vec<char> {
    if c.is_control() {
        c.escape_debug().collect()
    } else {
        vec![c]
    }
}

/// Text in lines of so many characters, broken between words; a longer word has a line of its own.
fn broken(text: &str, width: usize) -> Vec<String> {
    let mut lines: Vec<String> = Vec::new();
    for word in text.split(' ') {
        match lines.last_mut() {
            Some(line) if line.chars().count() + 1 + word.chars().count() <= width => {
                line.push(' ');
                line.push_str(word);
            }
            _ => lines.push(word.to_string()),
        }
    }
    lines
}

#[cfg(test)]
mod tests {
    use super::*;

    #[test]
    fn text_is_broken_between_words() {
        assert_eq!(broken("", 4), [""]);
        assert_eq!(broken("a bc d", 4), ["a bc", "d"]);
        assert_eq!(broken("abcdef a", 4), ["abcdef", "a"]);
        assert_eq!(broken("→→→ →", 5), ["→→→ →"]);
    }

    #[test]
    fn a_row_stands_under_its_line() {
        let mut page = Page::new(Vec::new());
        page.plain("# a scene").unwrap();
        page.line(3, "Q").unwrap();
        page.told("answer", &["word"; 20].join(" ")).unwrap();
        let words = |count| ["word"; 20][..count].join(" ");
        let expected = format!("# a scene\n   3  Q\n      answer   {}\n               {}\n", words(17), words(3));
        assert_eq!(String::from_utf8(page.0).unwrap(), expected);
    }

    #[test]
    fn a_long_line_is_cut_and_commands_to_a_terminal_are_spelt() {
        let mut page = Page::new(Vec::new());
        page.line(12345, &"é".repeat(95)).unwrap();
        page.line(1, "\u{1b}x").unwrap();
        page.plain("#\t\u{1b}y").unwrap();
        let expected = format!("12345  {} …\n   1  \\u{{1b}}x\n#\t\\u{{1b}}y\n", "é".repeat(92));
        assert_eq!(String::from_utf8(page.0).unwrap(), expected);
    }
}
