//! Why a line cannot be read.

use std::fmt;

/// The first wrong word of a line, from the left.
#[derive(Clone, Debug, PartialEq, Eq)]
pub enum Wrong {
    /// No call has this letter.
    Letter(String),
    /// The line ends where this word must stand; `may` says what can.
    Missing { name: &'static str, may: &'static str },
    /// Another word stands there.
    Word { name: &'static str, word: String, may: &'static str },
    /// A word stands behind the last one.
    More(String),
}

/// A word as it is shown: a long one is cut, and nothing in it reaches a terminal as a command.
fn shown(word: &str) -> String {
    const LONGEST: usize = 24;
    let escaped: String = word.chars().take(LONGEST).flat_map(char::escape_debug).collect();
    match escaped.char_indices().nth(LONGEST) {
        Some((end, _)) => format!("{}…", &escaped[..end]),
        None if word.chars().nth(LONGEST).is_some() => format!("{escaped}…"),
        None => escaped,
    }
}

impl fmt::Display for Wrong {
    fn fmt(&self, f: &mut fmt::Formatter<'_>) -> fmt::Result {
        match self {
            Wrong::Letter(letter) if letter.is_empty() => write!(f, "no letter stands at the start of the line"),
            Wrong::Letter(letter) => write!(f, "`{}` is no call", shown(letter)),
            Wrong::Missing { name, may } => write!(f, "the word `{name}` is missing: {may}"),
            Wrong::Word { name, word, .. } if word.is_empty() => {
                write!(f, "the word `{name}` is empty: one space stands between words")
            }
            Wrong::Word { name, word, may } => write!(f, "`{}` can't be the word `{name}`: {may}", shown(word)),
            Wrong::More(word) if word.is_empty() => write!(f, "a space stands at the end of the line, or two together"),
            Wrong::More(word) => write!(f, "`{}` is a word too many", shown(word)),
        }
    }
}
