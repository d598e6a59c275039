//! Reads a script: statements, the lines indented under them, and what is expected of the calls.

mod cursor;
mod entries;
mod expect;
mod rows;
#[cfg(test)]
mod tests;
pub mod values;

use std::collections::HashMap;
use std::rc::Rc;

use savorylatch::frame::Head;
use savorylatch::wire::{ROWS, UPDATES};

use crate::call::{Call, Wanted};
use crate::input;
use crate::lex::{self, Line, Sign, Token};
use crate::mistake::{quoted, Mistake};
use crate::names::Names;
use crate::notation::Notations;
use crate::script::{self, Expectation, Expected, Script};
use cursor::Cursor;
use values::Literal;

/// Reads a script whole, or says the first mistake.
pub fn script(text: &str) -> Result<Script, Mistake> {
    let mut parser = Parser::default();
    for statement in statements(lex::lines(text)?)? {
        parser.statement(&statement)?;
    }
    Ok(Script {
        device: parser.device.unwrap_or(DEVICE),
        calls: parser.calls,
        notations: parser.notations,
    })
}

/// The device if the script names none, as in `play`.
pub const DEVICE: u64 = 1;

const STATEMENTS: &str = "a statement (device, value, open, close, arbitrate, configure, write, \
                          read, raw, expect, > or <)";

/// A statement and the lines indented under it.
struct Statement<'a> {
    head: Line<'a>,
    below: Vec<Line<'a>>,
}

fn statements(lines: Vec<Line<'_>>) -> Result<Vec<Statement<'_>>, Mistake> {
    let mut statements: Vec<Statement> = Vec::new();
    for line in lines {
        match statements.last_mut() {
            Some(above) if line.indent > 0 => above.below.push(line),
            None if line.indent > 0 => {
                let expected = "a statement at the start of the line";
                return Err(Cursor::new(&line.tokens).mistake(expected));
            }
            _ => statements.push(Statement {
                head: line,
                below: Vec::new(),
            }),
        }
    }
    Ok(statements)
}

/// What was read so far.
#[derive(Default)]
struct Parser<'a> {
    device: Option<u64>,
    calls: Vec<script::Call>,
    notations: Notations,
    values: HashMap<&'a str, Literal>,
    /// Those of the latest `configure`.
    names: Rc<Names>,
}

impl<'a> Parser<'a> {
    fn statement(&mut self, statement: &Statement<'a>) -> Result<(), Mistake> {
        let Statement { head, below } = statement;
        let cursor = &mut Cursor::new(&head.tokens);
        let verb = cursor.word(STATEMENTS)?;
        let frame = match verb.text {
            "configure" => self.configure(cursor, below)?.encode(),
            "write" => self.write(cursor, below)?.encode(),
            "raw" => raw(head, below)?,
            _ => {
                let call = self.line(cursor, verb, head)?;
                nothing_below(below)?;
                match call {
                    Some(call) => call.encode(),
                    None => return Ok(()),
                }
            }
        };
        self.calls.push(script::Call {
            line: verb.place.line,
            frame,
            names: Rc::clone(&self.names),
            expectations: Vec::new(),
        });
        Ok(())
    }

    /// A statement without lines under it, after its first word; some are no calls.
    fn line(
        &mut self,
        cursor: &mut Cursor<'_, 'a>,
        verb: Token,
        line: &Line,
    ) -> Result<Option<Call>, Mistake> {
        Ok(Some(match verb.text {
            "device" => return self.device(cursor, verb).map(|()| None),
            "value" => return self.named_value(cursor).map(|()| None),
            "expect" | ">" | "<" => {
                let what = match verb.text {
                    "expect" => self.expected(cursor)?,
                    ">" => expect::frame(cursor)?,
                    _ => expect::printed(cursor)?,
                };
                return self.expect(what, verb, line).map(|()| None);
            }
            "open" => Call::Open {
                stream: last_stream(cursor)?,
            },
            "close" => Call::Close {
                stream: last_stream(cursor)?,
            },
            "arbitrate" => {
                let stream = cursor.number(A_STREAM)?;
                let (head, _) = self.head(cursor, false)?;
                Call::Arbitrate { stream, head }
            }
            "read" => self.read(cursor)?,
            _ => return Err(unknown(verb)),
        }))
    }

    /// `device N`
    fn device(&mut self, cursor: &mut Cursor, verb: Token) -> Result<(), Mistake> {
        let device = cursor.number(A_DEVICE)?;
        cursor.end("the end of the line")?;
        if !self.calls.is_empty() || self.device.is_some() {
            let expected = "'device' once, before the first call";
            return Err(Mistake::new(verb.place, expected, "it here"));
        }
        self.device = Some(device);
        Ok(())
    }

    /// `value NAME = VALUE`
    fn named_value(&mut self, cursor: &mut Cursor<'_, 'a>) -> Result<(), Mistake> {
        let name = cursor.name("value")?;
        rows::once(name.place, name.text, self.values.keys().copied())?;
        cursor.sign(Sign::Equals, "'='")?;
        let literal = self.literal(cursor)?;
        cursor.end("the end of the line")?;
        self.values.insert(name.text, literal);
        Ok(())
    }

    /// `expect ..`, `> ..` or `< ..`, about the latest call.
    fn expect(&mut self, what: Expected, verb: Token, line: &Line) -> Result<(), Mistake> {
        let Some(call) = self.calls.last_mut() else {
            let expected = format!("a call before {}", quoted(verb.text));
            return Err(Mistake::new(verb.place, expected, "none"));
        };
        call.expectations.push(Expectation {
            line: verb.place.line,
            text: words(line),
            what,
        });
        Ok(())
    }

    /// `configure role R ..` and its rows. Their names hold from here on.
    fn configure(&mut self, cursor: &mut Cursor, below: &[Line]) -> Result<Call, Mistake> {
        let (head, _) = self.head(cursor, false)?;
        let mut rows = Vec::new();
        let mut names = Names::default();
        for item in items(below, &["table"], A_ROW)? {
            let cursor = &mut Cursor::new(&item);
            at_most(rows.len(), ROWS, "rows", cursor)?;
            let place = cursor.place();
            let (row, table) = rows::row(cursor)?;
            let given = names.tables.iter().map(|table| table.name.as_str());
            rows::once(place, &table.name, given)?;
            rows.push(row);
            names.tables.push(table);
        }
        self.names = Rc::new(names);
        Ok(Call::Configure { head, rows })
    }

    /// `write role R ..` and its updates.
    fn write(&mut self, cursor: &mut Cursor, below: &[Line]) -> Result<Call, Mistake> {
        let (head, atomicity) = self.head(cursor, true)?;
        let mut updates = Vec::new();
        let verbs = ["insert", "modify", "delete", "type"];
        for item in items(below, &verbs, AN_UPDATE)? {
            let cursor = &mut Cursor::new(&item);
            at_most(updates.len(), UPDATES, "updates", cursor)?;
            updates.push(self.update(cursor)?);
        }
        Ok(Call::Write {
            head,
            atomicity,
            updates,
        })
    }

    /// `read role R [device N] [table T [only KEY]]`
    fn read(&mut self, cursor: &mut Cursor) -> Result<Call, Mistake> {
        cursor.keyword("role")?;
        let role = cursor.number(A_ROLE)?;
        let names = Rc::clone(&self.names);
        let mut device = None;
        let mut wanted = None;
        loop {
            if device.is_none() && cursor.takes("device") {
                device = Some(cursor.number(A_DEVICE)?);
            } else if wanted.is_none() && cursor.takes("table") {
                let table = entries::table(cursor, &names)?;
                wanted = Some(match cursor.takes("only") {
                    false => Wanted::Table(table.id),
                    true => Wanted::Key {
                        table: table.id,
                        key: self.key(cursor, &table)?,
                    },
                });
            } else {
                break;
            }
        }
        cursor.end(match wanted {
            None => "'table', 'device' or the end of the line",
            Some(Wanted::Key { .. }) => "'priority', a field with '=', or the end of the line",
            Some(_) => "'only', 'device' or the end of the line",
        })?;
        Ok(Call::Read {
            device: device.or(self.device).unwrap_or(DEVICE),
            role,
            wanted: wanted.unwrap_or(Wanted::Everything),
        })
    }

    /// `role R [id ID | unset] [device N] [atomic | atomicity A]` to the end of the line; the latter
    /// is given back beside the head.
    fn head(&mut self, cursor: &mut Cursor, batch: bool) -> Result<(Head, u8), Mistake> {
        cursor.keyword("role")?;
        let role = cursor.number(A_ROLE)?;
        let (mut id, mut device, mut atomicity) = (None, None, None);
        while cursor.peek().is_some() {
            if id.is_none() && cursor.takes("id") {
                id = Some(Some(self.id(cursor)?));
            } else if id.is_none() && cursor.takes("unset") {
                id = Some(None);
            } else if device.is_none() && cursor.takes("device") {
                device = Some(cursor.number(A_DEVICE)?);
            } else if batch && atomicity.is_none() && cursor.takes("atomic") {
                atomicity = Some(1);
            } else if batch && atomicity.is_none() && cursor.takes("atomicity") {
                atomicity = Some(an_atomicity(cursor)?);
            } else {
                return Err(cursor.mistake(match batch {
                    true => "'id', 'unset', 'device', 'atomic' or 'atomicity', each once",
                    false => "'id', 'unset' or 'device', each once",
                }));
            }
        }
        let head = Head {
            device: device.or(self.device).unwrap_or(DEVICE),
            role,
            id: id.flatten(),
        };
        Ok((head, atomicity.unwrap_or(0)))
    }

    /// An election id, whose notation is kept.
    fn id(&mut self, cursor: &mut Cursor) -> Result<u128, Mistake> {
        let word = cursor.peek().map_or("", |token| token.text);
        let id = cursor.number("an election id, up to 128 bits")?;
        if let Some((_, notation)) = values::number(word) {
            self.notations.note_id(id, notation);
        }
        Ok(id)
    }

    /// A value as it is written, or a named one.
    fn literal(&mut self, cursor: &mut Cursor) -> Result<Literal, Mistake> {
        let word = cursor.peek().map_or("", |token| token.text);
        let literal = values::literal(word).or_else(|| self.values.get(word).copied());
        let literal = literal.ok_or_else(|| {
            cursor.mistake(match values::is_too_long(word) {
                true => "a value of at most 16 bytes",
                false => "a value: decimal, 0x hex, MAC, IPv4, or a name given above",
            })
        })?;
        cursor.advance();
        Ok(literal)
    }
}

const A_ROW: &str = "a row: table NAME 0xID owner R size N ..";
const AN_UPDATE: &str = "an update: insert, modify, delete or type N";
const A_ROLE: &str = "a role, 0 to 255";
const A_STREAM: &str = "a stream, 0 to 255";
const A_DEVICE: &str = "a device id, up to 64 bits";

fn last_stream(cursor: &mut Cursor) -> Result<u8, Mistake> {
    let stream = cursor.number(A_STREAM)?;
    cursor.end("the end of the line")?;
    Ok(stream)
}

/// A word that begins no statement; rows and updates that were not indented are told apart.
fn unknown(verb: Token) -> Mistake {
    let expected = match verb.text {
        "table" | "insert" | "modify" | "delete" | "type" => {
            "blanks before it, as rows and updates are indented"
        }
        _ => STATEMENTS,
    };
    Mistake::new(verb.place, expected, quoted(verb.text))
}

fn nothing_below(below: &[Line]) -> Result<(), Mistake> {
    match below.first() {
        None => Ok(()),
        Some(line) => Err(Cursor::new(&line.tokens).mistake(
            "no blanks before it, as only `configure`, `write` and `raw` have lines under them",
        )),
    }
}

/// The lines under a statement as items. One begins with a keyword; deeper lines go on with it.
fn items<'a>(
    below: &[Line<'a>],
    keywords: &[&str],
    expected: &str,
) -> Result<Vec<Vec<Token<'a>>>, Mistake> {
    let mut items: Vec<Vec<Token>> = Vec::new();
    let mut indent = 0;
    for line in below {
        let first = line.tokens.first().map_or("", |token| token.text);
        match items.last_mut() {
            _ if keywords.contains(&first) => {
                indent = line.indent;
                items.push(line.tokens.clone());
            }
            Some(item) if line.indent > indent => item.extend(&line.tokens),
            _ if ["expect", ">", "<"].contains(&first) => {
                let cursor = Cursor::new(&line.tokens);
                return Err(cursor.mistake("no blanks before an expectation"));
            }
            _ => return Err(Cursor::new(&line.tokens).mistake(expected)),
        }
    }
    Ok(items)
}

fn at_most(before: usize, most: usize, what: &str, cursor: &Cursor) -> Result<(), Mistake> {
    if before < most {
        return Ok(());
    }
    let expected = format!("at most {most} {what}");
    Err(Mistake::new(cursor.place(), expected, "one more"))
}

/// An atomicity by its number; 1 is also the word `atomic`.
fn an_atomicity(cursor: &mut Cursor) -> Result<u8, Mistake> {
    let expected = "an atomicity: 0, 1 or 2";
    let place = cursor.place();
    match cursor.number(expected)? {
        number @ 0..=2 => Ok(number),
        number => Err(Mistake::new(place, expected, format!("'{number}'"))),
    }
}

/// `raw HEX..`, with the lines under it.
fn raw(head: &Line, below: &[Line]) -> Result<Vec<u8>, Mistake> {
    let words = head.tokens.iter().skip(1);
    let words: Vec<Token> = words
        .chain(below.iter().flat_map(|l| &l.tokens))
        .copied()
        .collect();
    input::frame(&words)
}

/// A line's words with single blanks, as far as they stood apart.
fn words(line: &Line) -> String {
    let mut text = String::new();
    let mut end = None;
    for token in &line.tokens {
        if end.is_some_and(|end| end != token.place) {
            text.push(' ');
        }
        text.push_str(token.text);
        end = Some(token.end());
    }
    text
}
