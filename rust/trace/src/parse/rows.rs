//! The rows of a `configure`, and the names that they give.

use savorylatch::wire::{Action, Field, Row, PLACES};

use crate::call::KINDS;
use crate::lex::{Sign, Token};
use crate::mistake::{quoted, Mistake, Place};
use crate::names;
use crate::parse::cursor::Cursor;
use crate::parse::values;

/// A row and its names: `table NAME 0xID owner R size N [key FIELD..] [action ..]`.
pub fn row(cursor: &mut Cursor) -> Result<(Row, names::Table), Mistake> {
    cursor.keyword("table")?;
    let name = cursor.name("table")?.text.to_owned();
    let table = cursor.number("the table's id, up to 32 bits")?;
    cursor.keyword("owner")?;
    let owner = cursor.number("a role, 0 to 255")?;
    cursor.keyword("size")?;
    let size = cursor.number("a size, 0 to 65535")?;
    let (fields, field_names) = key(cursor)?;
    let (actions, action_names) = all_actions(cursor)?;
    cursor.end(match action_names.is_empty() && field_names.is_empty() {
        true => "'key', 'action' or the end of the row",
        false => "'action' or the end of the row",
    })?;
    let names = names::Table {
        name,
        id: table,
        fields: field_names,
        actions: action_names,
    };
    let row = Row {
        table,
        owner,
        size,
        field_count: count(names.fields.len()),
        fields,
        action_count: count(names.actions.len()),
        actions,
    };
    Ok((row, names))
}

/// At most four, so it fits.
fn count(parts: usize) -> u8 {
    u8::try_from(parts).unwrap_or(u8::MAX)
}

fn key(cursor: &mut Cursor) -> Result<([Field; PLACES], Vec<names::Field>), Mistake> {
    let mut fields = [Field::default(); PLACES];
    let mut names: Vec<names::Field> = Vec::new();
    if !cursor.takes("key") {
        return Ok((fields, names));
    }
    while !cursor.is_at("action") && (cursor.peek().is_some() || names.is_empty()) {
        let place = cursor.place();
        let (field, name) = field(cursor)?;
        let slot = fields.get_mut(names.len());
        *slot.ok_or_else(|| too_many(place, "fields"))? = field;
        once(place, &name.name, names.iter().map(|n| n.name.as_str()))?;
        names.push(name);
    }
    Ok((fields, names))
}

/// `NAME:KIND:WIDTH`
fn field(cursor: &mut Cursor) -> Result<(Field, names::Field), Mistake> {
    let word = cursor.word("a field as name:kind:width")?;
    let mut parts = Parts::new(word);
    let name = parts.name("field")?.to_owned();
    let kind = parts.kind()?;
    let width = parts.width()?;
    parts.end()?;
    Ok((Field { kind, width }, names::Field { name, kind }))
}

type Actions = ([Action; PLACES], Vec<names::Action>);

fn all_actions(cursor: &mut Cursor) -> Result<Actions, Mistake> {
    let mut actions = [Action::default(); PLACES];
    let mut names: Vec<names::Action> = Vec::new();
    loop {
        let place = cursor.place();
        if !cursor.takes("action") {
            return Ok((actions, names));
        }
        let (action, name) = action(cursor)?;
        let slot = actions.get_mut(names.len());
        *slot.ok_or_else(|| too_many(place, "actions"))? = action;
        once(place, &name.name, names.iter().map(|n| n.name.as_str()))?;
        names.push(name);
    }
}

/// `NAME 0xID (PARAMETER:WIDTH, ..)`
fn action(cursor: &mut Cursor) -> Result<(Action, names::Action), Mistake> {
    let name = cursor.name("action")?.text.to_owned();
    let id = cursor.number("the action's id, up to 32 bits")?;
    let mut widths = [0; PLACES];
    let mut parameters: Vec<String> = Vec::new();
    cursor.sign(Sign::Open, "'(' and the parameters")?;
    while !cursor.takes_sign(Sign::Close) {
        if !parameters.is_empty() {
            cursor.sign(Sign::Comma, "',' or ')'")?;
        }
        let word = cursor.word("a parameter as name:width, or ')'")?;
        let mut parts = Parts::new(word);
        let parameter = parts.name("parameter")?;
        let slot = widths.get_mut(parameters.len());
        *slot.ok_or_else(|| too_many(word.place, "parameters"))? = parts.width()?;
        parts.end()?;
        once(word.place, parameter, parameters.iter().map(String::as_str))?;
        parameters.push(parameter.to_owned());
    }
    let action = Action {
        id,
        count: count(parameters.len()),
        widths,
    };
    let names = names::Action {
        name,
        id,
        parameters,
    };
    Ok((action, names))
}

fn too_many(place: Place, what: &str) -> Mistake {
    Mistake::new(place, format!("at most {PLACES} {what}"), "one more")
}

/// A name that was not given yet in its place.
pub fn once<'n>(
    place: Place,
    name: &str,
    mut given: impl Iterator<Item = &'n str>,
) -> Result<(), Mistake> {
    match given.any(|other| other == name) {
        false => Ok(()),
        true => {
            let found = format!("{} again", quoted(name));
            Err(Mistake::new(place, "each name once", found))
        }
    }
}

/// The parts of a word between colons.
struct Parts<'a> {
    word: Token<'a>,
    /// What is left, and where it begins.
    rest: Option<&'a str>,
    place: Place,
}

impl<'a> Parts<'a> {
    fn new(word: Token<'a>) -> Parts<'a> {
        Parts {
            word,
            rest: Some(word.text),
            place: word.place,
        }
    }

    /// The next part and its place.
    fn next(&mut self, expected: &str) -> Result<(&'a str, Place), Mistake> {
        let Some(rest) = self.rest else {
            let after = format!("the end of {}", quoted(self.word.text));
            return Err(Mistake::new(
                self.word.end(),
                format!("':' and {expected}"),
                after,
            ));
        };
        let place = self.place;
        let (part, rest) = match rest.split_once(':') {
            Some((part, rest)) => (part, Some(rest)),
            None => (rest, None),
        };
        self.rest = rest;
        self.place.column += part.chars().count() + 1;
        Ok((part, place))
    }

    fn name(&mut self, of: &str) -> Result<&'a str, Mistake> {
        let expected = format!("a name for the {of}: a letter, then letters, digits, '_' or '-'");
        let (part, place) = self.next(&expected)?;
        match values::is_name(part) {
            true => Ok(part),
            false => Err(Mistake::new(place, expected, quoted(part))),
        }
    }

    fn kind(&mut self) -> Result<u8, Mistake> {
        let expected = "a kind: exact, lpm, ternary, range, optional, or a number 0 to 255";
        let (part, place) = self.next(expected)?;
        let mut kinds = (0..).zip(KINDS).skip(1);
        let named = kinds.find(|(_, name)| *name == part);
        let number = named.map(|(kind, _)| kind);
        number
            .or_else(|| byte(part))
            .ok_or_else(|| Mistake::new(place, expected, quoted(part)))
    }

    fn width(&mut self) -> Result<u8, Mistake> {
        let expected = "a width in bits, 0 to 255";
        let (part, place) = self.next(expected)?;
        byte(part).ok_or_else(|| Mistake::new(place, expected, quoted(part)))
    }

    fn end(&self) -> Result<(), Mistake> {
        match self.rest {
            None => Ok(()),
            Some(rest) => Err(Mistake::new(self.place, "no further part", quoted(rest))),
        }
    }
}

fn byte(text: &str) -> Option<u8> {
    let (number, _) = values::number(text)?;
    u8::try_from(number).ok()
}
