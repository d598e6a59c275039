//! Lines and their words.

use crate::mistake::{Mistake, Place};

/// A line that says something.
#[derive(Clone, Debug)]
pub struct Line<'a> {
    /// How many blanks it begins with.
    pub indent: usize,
    pub tokens: Vec<Token<'a>>,
}

/// A word or a sign.
#[derive(Clone, Copy, Debug, PartialEq, Eq)]
pub struct Token<'a> {
    pub sign: Sign,
    pub text: &'a str,
    pub place: Place,
}

/// What a token is.
#[derive(Clone, Copy, Debug, PartialEq, Eq)]
pub enum Sign {
    Word,
    Open,
    Close,
    Comma,
    Equals,
    Slash,
    /// `&&&`
    Mask,
    /// `..`
    To,
}

const SIGNS: [(&str, Sign); 7] = [
    ("(", Sign::Open),
    (")", Sign::Close),
    (",", Sign::Comma),
    ("=", Sign::Equals),
    ("/", Sign::Slash),
    ("&&&", Sign::Mask),
    ("..", Sign::To),
];

impl Token<'_> {
    /// The place right after it.
    pub fn end(&self) -> Place {
        let column = self.place.column + self.text.chars().count();
        Place {
            column,
            ..self.place
        }
    }
}

/// The lines of a text that say something; comments and blank lines are left out.
pub fn lines(text: &str) -> Result<Vec<Line<'_>>, Mistake> {
    let text = text.strip_prefix('\u{feff}').unwrap_or(text);
    let mut lines = Vec::new();
    for (number, text) in (1..).zip(text.lines()) {
        let line = line(number, text)?;
        if !line.tokens.is_empty() {
            lines.push(line);
        }
    }
    Ok(lines)
}

fn line(number: usize, text: &str) -> Result<Line<'_>, Mistake> {
    let mut rest = text.trim_start();
    let indent = text.chars().count() - rest.chars().count();
    let mut column = indent + 1;
    let mut tokens = Vec::new();
    while !rest.is_empty() && !rest.starts_with('#') {
        let place = Place {
            line: number,
            column,
        };
        let (token, behind) = token(rest, place)?;
        tokens.push(token);
        let next = behind.trim_start();
        column += rest.chars().count() - next.chars().count();
        rest = next;
    }
    Ok(Line { indent, tokens })
}

/// The first token, and what follows it.
fn token(rest: &str, place: Place) -> Result<(Token<'_>, &str), Mistake> {
    let sign = SIGNS.iter().find(|(text, _)| rest.starts_with(text));
    let (sign, length) = match sign {
        Some((text, sign)) => (*sign, text.len()),
        None if rest.starts_with('&') => return Err(Mistake::new(place, "'&&&'", "'&'")),
        None => (Sign::Word, word(rest)),
    };
    let (text, behind) = rest.split_at_checked(length).unwrap_or((rest, ""));
    Ok((Token { sign, text, place }, behind))
}

/// The length of the word that a text begins with.
fn word(rest: &str) -> usize {
    let ends = |at: usize, c: char| {
        c.is_whitespace()
            || "(),=/&#".contains(c)
            || rest.get(at..).is_some_and(|rest| rest.starts_with(".."))
    };
    let end = rest.char_indices().find(|&(at, c)| ends(at, c));
    end.map_or(rest.len(), |(at, _)| at)
}
