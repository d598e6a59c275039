//! A mistake in a script: where, what was expected, what is there.

use std::fmt;

/// A place in a text, both counted from 1; the column in characters.
#[derive(Clone, Copy, Debug, PartialEq, Eq)]
pub struct Place {
    pub line: usize,
    pub column: usize,
}

/// A mistake. [`Display`](fmt::Display) gives the sentence alone.
#[derive(Clone, Debug, PartialEq, Eq)]
pub struct Mistake {
    pub place: Place,
    expected: String,
    found: String,
}

/// The longest word that is repeated whole in a message.
const SHOWN: usize = 40;

impl Mistake {
    pub fn new(place: Place, expected: impl Into<String>, found: impl Into<String>) -> Mistake {
        Mistake {
            place,
            expected: expected.into(),
            found: found.into(),
        }
    }

    /// The message with its place, the line, and a caret under the column.
    pub fn report(&self, file: &str, text: &str) -> String {
        let Place { line, column } = self.place;
        let text = text.lines().nth(line.saturating_sub(1)).unwrap_or("");
        let text = text.strip_prefix('\u{feff}').unwrap_or(text);
        // A tab is one column, so it is shown as one.
        let shown: String = text.trim_end().replace(|c: char| c.is_control(), " ");
        let caret = " ".repeat(column.saturating_sub(1));
        format!("{file}:{line}:{column}: {self}\n    {shown}\n    {caret}^\n")
    }
}

impl fmt::Display for Mistake {
    fn fmt(&self, f: &mut fmt::Formatter<'_>) -> fmt::Result {
        write!(f, "expected {}, found {}", self.expected, self.found)
    }
}

/// A word of the script as a message shows it.
pub fn quoted(word: &str) -> String {
    if word.chars().count() <= SHOWN {
        return format!("'{word}'");
    }
    let start: String = word.chars().take(SHOWN).collect();
    format!("'{start}..'")
}
