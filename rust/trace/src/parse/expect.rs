//! What is expected of a call: `expect` lines, and its bytes, as lines `>` and `<`.

use savorylatch::Reason;

use crate::input;
use crate::mistake::Mistake;
use crate::notation::hex;
use crate::parse::cursor::Cursor;
use crate::parse::{values, Parser, A_ROLE, A_STREAM};
use crate::script::{Expected, ExpectedState};

const A_REASON: &str = "a reason by number, 0 to 23 or 25, or name";
const WHAT: &str = "a reason by number, 0 to 23 or 25, or name, or \
                    told, pairs, primary, mark, entries, entry or stream";

impl Parser<'_> {
    /// What stands after `expect`.
    pub fn expected(&mut self, cursor: &mut Cursor) -> Result<Expected, Mistake> {
        let expected = if cursor.takes("told") {
            self.told(cursor)?
        } else if cursor.takes("pairs") {
            pairs(cursor)?
        } else if cursor.takes("primary") {
            primary(cursor)?
        } else if cursor.takes("mark") {
            Expected::Mark {
                role: role(cursor)?,
                id: self.id_or_none(cursor)?,
            }
        } else if cursor.takes("entries") {
            Expected::Entries(cursor.number("a number of entries")?)
        } else if cursor.takes("entry") {
            let (entry, action) = self.entry(cursor)?;
            Expected::Entry { entry, action }
        } else if cursor.takes("stream") {
            self.stream(cursor)?
        } else {
            Expected::Reason(reason(cursor, WHAT)?)
        };
        cursor.end("the end of the line")?;
        Ok(expected)
    }

    /// `STREAM status N [mark ID|none]`, `nobody` or `count N`.
    fn told(&mut self, cursor: &mut Cursor) -> Result<Expected, Mistake> {
        if cursor.takes("nobody") {
            return Ok(Expected::ToldCount(0));
        }
        if cursor.takes("count") {
            let count = cursor.number("a number of notifications")?;
            return Ok(Expected::ToldCount(count));
        }
        let stream = cursor.number("a stream, 0 to 255, 'nobody' or 'count'")?;
        cursor.keyword("status")?;
        let status = cursor.number("a status, 0 to 255: 0 primary, 5 none, 6 another")?;
        let mark = match cursor.takes("mark") {
            true => Some(self.id_or_none(cursor)?),
            false => None,
        };
        Ok(Expected::Told {
            stream,
            status,
            mark,
        })
    }

    /// `S closed | open | bound role R [id ID | unset]`
    fn stream(&mut self, cursor: &mut Cursor) -> Result<Expected, Mistake> {
        let stream = cursor.number(A_STREAM)?;
        let state = if cursor.takes("closed") {
            ExpectedState::Closed
        } else if cursor.takes("open") {
            ExpectedState::Open
        } else if cursor.takes("bound") {
            let role = role(cursor)?;
            let id = if cursor.takes("unset") {
                Some(None)
            } else if cursor.takes("id") {
                Some(Some(self.id(cursor)?))
            } else {
                None
            };
            ExpectedState::Bound { role, id }
        } else {
            return Err(cursor.mistake("'closed', 'open' or 'bound'"));
        };
        Ok(Expected::Stream { stream, state })
    }

    fn id_or_none(&mut self, cursor: &mut Cursor) -> Result<Option<u128>, Mistake> {
        match cursor.takes("none") {
            true => Ok(None),
            false => self.id(cursor).map(Some),
        }
    }
}

/// `> HEX ..`: the call's frame.
pub fn frame(cursor: &mut Cursor) -> Result<Expected, Mistake> {
    let mut words = Vec::new();
    while let Some(word) = cursor.peek() {
        words.push(word);
        cursor.advance();
    }
    input::frame(&words).map(Expected::Frame)
}

/// `< ORDINAL REASON CODE COUNT RECORD ..`: the line that `play` prints of the call, kept as it is
/// printed: each record in hex, without dots and repetitions.
pub fn printed(cursor: &mut Cursor) -> Result<Expected, Mistake> {
    let mut line = Vec::new();
    for expected in [
        "the call's ordinal",
        "a reason by number",
        "a status code by number",
        "a number of records",
    ] {
        line.push(cursor.number::<u64>(expected)?.to_string());
    }
    while let Some(record) = cursor.peek() {
        line.push(hex(&input::frame(&[record])?));
        cursor.advance();
    }
    Ok(Expected::Printed(line.join(" ")))
}

fn pairs(cursor: &mut Cursor) -> Result<Expected, Mistake> {
    let mut reasons = Vec::new();
    while cursor.peek().is_some() {
        reasons.push(reason(cursor, A_REASON)?);
    }
    Ok(Expected::Pairs(reasons))
}

/// `role R stream S` or `role R none`.
fn primary(cursor: &mut Cursor) -> Result<Expected, Mistake> {
    let role = role(cursor)?;
    let stream = if cursor.takes("none") {
        None
    } else if cursor.takes("stream") {
        Some(cursor.number(A_STREAM)?)
    } else {
        return Err(cursor.mistake("'stream' and its number, or 'none'"));
    };
    Ok(Expected::Primary { role, stream })
}

/// `role R`
fn role(cursor: &mut Cursor) -> Result<u8, Mistake> {
    cursor.keyword("role")?;
    cursor.number(A_ROLE)
}

/// A reason by number or name.
fn reason(cursor: &mut Cursor, expected: &str) -> Result<Reason, Mistake> {
    let word = cursor.peek().map_or("", |token| token.text);
    let by_name = || Reason::ALL.iter().copied().find(|r| r.name() == word);
    let by_number = match values::number(word) {
        Some((number, _)) => u8::try_from(number).ok(),
        None => None,
    };
    let reason = by_number.and_then(|number| Reason::try_from(number).ok());
    let reason = reason.or_else(by_name);
    let reason = reason.ok_or_else(|| cursor.mistake(expected))?;
    cursor.advance();
    Ok(reason)
}
