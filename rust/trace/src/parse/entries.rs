//! Updates, entries and keys.

use std::rc::Rc;

use savorylatch::wire::{Entry, Key, Slot, Update, Value, PLACES};

use crate::call::TYPES;
use crate::lex::Sign;
use crate::mistake::{quoted, Mistake};
use crate::names::{Action, Names, Table};
use crate::notation::Spot;
use crate::parse::cursor::Cursor;
use crate::parse::{values, Parser, AN_UPDATE};

/// The kinds of slots.
const EXACT: u8 = 1;
const LPM: u8 = 2;
const TERNARY: u8 = 3;
const RANGE: u8 = 4;
const OPTIONAL: u8 = 5;

/// A table as a line names it: its id, and its names if the configuration above has them.
pub struct Named<'n> {
    pub id: u32,
    names: Option<&'n Table>,
}

impl<'a> Parser<'a> {
    /// `insert table ..`
    pub fn update(&mut self, cursor: &mut Cursor) -> Result<Update, Mistake> {
        let verb = cursor.word(AN_UPDATE)?;
        let mut types = (0..).zip(TYPES);
        let named = types.find(|(_, name)| *name == verb.text);
        let kind = match (verb.text, named) {
            ("type", _) => cursor.number("a type, 0 to 255")?,
            (_, Some((kind, _))) => kind,
            _ => return Err(Mistake::new(verb.place, AN_UPDATE, quoted(verb.text))),
        };
        let (entry, _) = self.entry(cursor)?;
        Ok(Update { kind, entry })
    }

    /// `table T [priority N] FIELD=.. ACTION(..)`, and whether an action is named.
    pub fn entry(&mut self, cursor: &mut Cursor) -> Result<(Entry, bool), Mistake> {
        let names = Rc::clone(&self.names);
        cursor.keyword("table")?;
        let table = table(cursor, &names)?;
        let mut entry = Entry {
            table: table.id,
            key: self.key(cursor, &table)?,
            ..Entry::default()
        };
        if cursor.peek().is_none() {
            return Ok((entry, false));
        }
        (entry.action, entry.parameters) = self.action(cursor, &table)?;
        cursor.end("the end of the line after the action")?;
        Ok((entry, true))
    }

    /// `[priority N] FIELD=..`, up to a word that is neither.
    pub fn key(&mut self, cursor: &mut Cursor, table: &Named) -> Result<Key, Mistake> {
        let mut key = Key::default();
        let mut given = [false; PLACES];
        let mut priority = false;
        loop {
            if !priority && cursor.takes("priority") {
                key.priority = cursor.number("a priority, up to 32 bits")?;
                priority = true;
            } else if cursor.sign_behind() == Some(Sign::Equals) {
                let place = cursor.place();
                let field = field(cursor, table)?;
                let slots = key.slots.get_mut(field).zip(given.get_mut(field));
                let (slot, given) = slots.ok_or_else(|| cursor.mistake("a field"))?;
                if *given {
                    return Err(Mistake::new(place, "each field once", "it again"));
                }
                *given = true;
                *slot = self.slot(cursor, table, field)?;
            } else {
                return Ok(key);
            }
        }
    }

    /// What stands after `FIELD=`.
    fn slot(&mut self, cursor: &mut Cursor, table: &Named, field: usize) -> Result<Slot, Mistake> {
        if cursor.takes("*") {
            return Ok(Slot::default());
        }
        let id = table.id;
        let first = self.value(cursor, Spot::First { table: id, field })?;
        let spot = Spot::Second { table: id, field };
        let (kind, second) = if cursor.takes_sign(Sign::Slash) {
            // A count, which is shown as one however it was written.
            (LPM, self.literal(cursor)?.value)
        } else if cursor.takes_sign(Sign::Mask) {
            (TERNARY, self.value(cursor, spot)?)
        } else if cursor.takes_sign(Sign::To) {
            (RANGE, self.value(cursor, spot)?)
        } else {
            let names = table.names.and_then(|table| table.fields.get(field));
            let optional = names.is_some_and(|field| field.kind == OPTIONAL);
            (if optional { OPTIONAL } else { EXACT }, Value::default())
        };
        Ok(Slot {
            kind,
            first,
            second,
        })
    }

    /// `ACTION(..)`
    fn action(
        &mut self,
        cursor: &mut Cursor,
        table: &Named,
    ) -> Result<(u32, [Value; PLACES]), Mistake> {
        let expected = table.words();
        let next = cursor.peek().ok_or_else(|| cursor.mistake(&*expected))?;
        let named = table.action(next.text);
        let number = || values::number(next.text).and_then(|(id, _)| u32::try_from(id).ok());
        let id = named.map(|action| action.id).or_else(number);
        let id = id.ok_or_else(|| cursor.mistake(&*expected))?;
        cursor.advance();
        cursor.sign(Sign::Open, "'(' and the parameters after the action")?;
        // Two names may have one id on purpose.
        let action = named.or_else(|| table.names?.action(id));
        let names = action.map_or(&[][..], |action| &action.parameters);
        Ok((id, self.parameters(cursor, table.id, id, names)?))
    }

    fn parameters(
        &mut self,
        cursor: &mut Cursor,
        table: u32,
        action: u32,
        names: &[String],
    ) -> Result<[Value; PLACES], Mistake> {
        let mut parameters = [Value::default(); PLACES];
        let mut before = 0;
        while !cursor.takes_sign(Sign::Close) {
            if before > 0 {
                cursor.sign(Sign::Comma, "',' or ')'")?;
            }
            let place = cursor.place();
            let at = match cursor.sign_behind() {
                Some(Sign::Equals) => parameter(cursor, names)?,
                _ => before,
            };
            let value = self.value(cursor, Spot::Parameter { table, action, at })?;
            let slot = parameters.get_mut(at);
            let slot =
                slot.ok_or_else(|| Mistake::new(place, "at most 4 parameters", "one more"))?;
            if !slot.is_none() {
                return Err(Mistake::new(place, "each parameter once", "one again"));
            }
            *slot = value;
            before += 1;
        }
        Ok(parameters)
    }

    /// A value, whose notation is kept for its place.
    fn value(&mut self, cursor: &mut Cursor, spot: Spot) -> Result<Value, Mistake> {
        let literal = self.literal(cursor)?;
        self.notations.note(spot, literal.notation);
        Ok(literal.value)
    }
}

impl<'n> Named<'n> {
    fn action(&self, name: &str) -> Option<&'n Action> {
        let mut actions = self.names?.actions.iter();
        actions.find(|action| action.name == name)
    }

    /// What may stand after the table.
    fn words(&self) -> String {
        let (fields, actions): (Vec<_>, Vec<_>) = match self.names {
            Some(table) => (
                table.fields.iter().map(|f| f.name.as_str()).collect(),
                table.actions.iter().map(|a| a.name.as_str()).collect(),
            ),
            None => (vec!["1= to 4="], vec!["a number"]),
        };
        format!(
            "'priority', a field with '=' ({}) or an action with '(' ({})",
            fields.join(", "),
            actions.join(", ")
        )
    }
}

/// A table by its name or its number.
pub fn table<'n>(cursor: &mut Cursor, names: &'n Names) -> Result<Named<'n>, Mistake> {
    let word = cursor.peek().map_or("", |token| token.text);
    let number = || values::number(word).and_then(|(id, _)| u32::try_from(id).ok());
    let id = names.named(word).map(|table| table.id).or_else(number);
    let Some(id) = id else {
        let known: Vec<&str> = names.tables.iter().map(|t| t.name.as_str()).collect();
        return Err(cursor.mistake(match known.is_empty() {
            true => "a table's number, as no `configure` above names one".to_owned(),
            false => format!("a table ({}) or its number", known.join(", ")),
        }));
    };
    // Two names may have one id on purpose.
    let names = names.named(word).or_else(|| names.table(id));
    cursor.advance();
    Ok(Named { id, names })
}

/// The place of `FIELD=`, by its name or place.
fn field(cursor: &mut Cursor, table: &Named) -> Result<usize, Mistake> {
    let names = table.names.map_or(&[][..], |table| &table.fields);
    let names: Vec<&str> = names.iter().map(|field| field.name.as_str()).collect();
    by_name_or_place(cursor, "a field", &names)
}

fn parameter(cursor: &mut Cursor, names: &[String]) -> Result<usize, Mistake> {
    let names: Vec<&str> = names.iter().map(String::as_str).collect();
    by_name_or_place(cursor, "a parameter", &names)
}

fn by_name_or_place(cursor: &mut Cursor, what: &str, names: &[&str]) -> Result<usize, Mistake> {
    let word = cursor.peek().map_or("", |token| token.text);
    let place = || match values::number(word) {
        Some((place @ 1..=4, _)) => usize::try_from(place - 1).ok(),
        _ => None,
    };
    let named = names.iter().position(|&name| name == word);
    let Some(at) = named.or_else(place) else {
        let known = match names.is_empty() {
            true => String::new(),
            false => format!(" ({})", names.join(", ")),
        };
        return Err(cursor.mistake(format!("{what}{known} or a place 1 to 4")));
    };
    cursor.advance();
    cursor.sign(Sign::Equals, "'='")?;
    Ok(at)
}
