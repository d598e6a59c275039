//! Reads the text of a trace into facts. It shares nothing with the code that prints traces; a line
//! that it does not know is a mistake.

use crate::facts::{Call, Pair, Role, Told};
use crate::names::{number, Names};

/// How far behind the column of the labels a sentence stands, or any other text of a line.
const SENTENCE: usize = 11;

/// A trace as it was read.
pub struct Trace {
    /// All calls, or those before the first that is not understood.
    pub calls: Vec<Call>,
    /// How many there are by the last line, or the line that is not understood.
    pub end: Result<usize, String>,
}

/// Reads a trace up to a line that is not understood.
pub fn trace(text: &str) -> Trace {
    let (lines, last) = text.trim_end().rsplit_once('\n').unwrap_or(("", text));
    let mut reader = Reader::default();
    for line in lines.lines() {
        if reader.line(line).is_none() {
            return reader.stopped(line);
        }
    }
    let said = last.split_once(" call").and_then(|(n, _)| n.parse().ok());
    Trace {
        calls: reader.calls,
        end: said.ok_or_else(|| format!("last line: '{last}' does not count the calls")),
    }
}

#[derive(Default)]
struct Reader {
    calls: Vec<Call>,
    names: Names,
    /// Where the labels stand under the latest call.
    column: usize,
    /// Did an update fail in the line before? Then a sentence says why.
    failed: bool,
}

impl Reader {
    /// What was read before a line that is not understood. A call that it belongs to is left out.
    fn stopped(mut self, line: &str) -> Trace {
        if line.starts_with(' ') {
            self.calls.pop();
        }
        let call = self.calls.len() + 1;
        Trace {
            calls: self.calls,
            end: Err(format!("call {call}, line: '{line}' is not understood")),
        }
    }

    fn line(&mut self, line: &str) -> Option<()> {
        let text = line.trim_start();
        let column = line.len() - text.len();
        let failed = std::mem::take(&mut self.failed);
        match column {
            0 => self.call(text),
            _ if column == self.column => self.labelled(text),
            _ => (failed && column == self.column + SENTENCE).then_some(()),
        }
    }

    /// `NUMBER  STATEMENT`. A `configure` gives new names, accepted or not.
    fn call(&mut self, line: &str) -> Option<()> {
        let (number, statement) = line.split_once("  ")?;
        let statement = statement.trim_start();
        self.column = line.len() - statement.len() + 2;
        if statement.starts_with("configure") {
            self.names = Names::default();
        }
        self.calls.push(Call {
            number: number.parse().ok()?,
            parts: Some(0),
            ..Call::default()
        });
        Some(())
    }

    /// `LABEL  TEXT` or `LABEL NUMBER  TEXT`.
    fn labelled(&mut self, text: &str) -> Option<()> {
        let call = self.calls.last_mut()?;
        let (label, text) = first_word(text)?;
        if label == "answer" {
            let (head, _) = text.split_once(": ")?;
            call.answers.push(pair(head)?);
            return Some(());
        }
        let (at, text) = first_word(text)?;
        let at: usize = at.parse().ok()?;
        match label {
            "row" => {
                self.names.add_row(text)?;
                count_part(call, at)?;
            }
            "update" => {
                let pair = updated(text)?;
                self.failed = pair.is_some_and(|(reason, _)| reason != 0);
                call.pairs.extend(pair);
                count_part(call, at)?;
            }
            "entry" => {
                call.entries.push(self.names.entry(text)?);
                (call.entries.len() == at).then_some(())?;
            }
            "stream" => call.told.push(told(at, text)?),
            "role" => call.roles.push(role(at, text)?),
            _ => return None,
        }
        Some(())
    }
}

/// The first word, and what follows after blanks.
fn first_word(text: &str) -> Option<(&str, &str)> {
    let (word, rest) = text.split_once(' ')?;
    Some((word, rest.trim_start()))
}

/// A row or an update more, whose number must be the next.
fn count_part(call: &mut Call, at: usize) -> Option<()> {
    let parts = call.parts? + 1;
    call.parts = Some(parts);
    (parts == at).then_some(())
}

/// `REASON (N), CODE (N)`
fn pair(text: &str) -> Option<Pair> {
    let (reason, code) = text.split_once(", ")?;
    let bracketed = |text: &str| {
        let (_, number) = text.strip_suffix(')')?.split_once(" (")?;
        number.parse().ok()
    };
    Some((bracketed(reason)?, bracketed(code)?))
}

/// `UPDATE  -> PAIR`; the inner `None` is an update that was not looked at.
fn updated(text: &str) -> Option<Option<Pair>> {
    match text.rsplit_once(" -> ")? {
        (_, "not looked at") => Some(None),
        (_, text) => pair(text).map(Some),
    }
}

/// `is told: WHO, MARK (status N)`. The words must be those of the status.
fn told(stream: usize, text: &str) -> Option<Told> {
    let text = text.strip_prefix("is told: ")?.strip_suffix(')')?;
    let (text, status) = text.split_once(" (status ")?;
    let (who, mark) = text.split_once(", ")?;
    let status = status.parse().ok()?;
    let role = match status {
        0 => who.strip_prefix("it is primary of role ")?,
        5 => who.strip_prefix("role ")?.strip_suffix(" has no primary")?,
        6 => who.strip_prefix("another stream is primary of role ")?,
        _ => return None,
    };
    Some(Told {
        stream: stream.try_into().ok()?,
        role: role.parse().ok()?,
        status,
        mark: match mark {
            "there is no mark yet" => None,
            mark => Some(the_mark(mark)?),
        },
    })
}

/// `primary is stream S, the mark is ID` or `no primary, the mark is ID`
fn role(role: usize, text: &str) -> Option<Role> {
    let (primary, mark) = text.split_once(", ")?;
    let primary = match primary {
        "no primary" => None,
        primary => Some(primary.strip_prefix("primary is stream ")?.parse().ok()?),
    };
    Some(Role {
        role: role.try_into().ok()?,
        primary,
        mark: the_mark(mark)?,
    })
}

/// `the mark is ID`
fn the_mark(text: &str) -> Option<u128> {
    number(text.strip_prefix("the mark is ")?)
}
