//! Rows and entries of a trace's text: the names that rows give, and the numbers that entries mean
//! by them.

use crate::facts::{Entry, Match};

/// The rows of the latest `configure`.
#[derive(Default)]
pub struct Names(Vec<Row>);

struct Row {
    table: String,
    id: u32,
    fields: Vec<String>,
    actions: Vec<Action>,
}

struct Action {
    name: String,
    id: u32,
    parameters: Vec<String>,
}

impl Names {
    /// `table NAME 0xID owner R size N [key FIELD:KIND:WIDTH ..] [action ..]`
    pub fn add_row(&mut self, text: &str) -> Option<()> {
        let words: Vec<&str> = text.split_whitespace().collect();
        let ["table", table, id, "owner", _, "size", _, rest @ ..] = words.as_slice() else {
            return None;
        };
        let end = rest.iter().position(|&word| word == "action");
        let (key, actions) = rest.split_at(end.unwrap_or(rest.len()));
        let fields = match key {
            [] => Vec::new(),
            ["key", fields @ ..] => fields.iter().map(|field| before_colon(field)).collect(),
            _ => return None,
        };
        self.0.push(Row {
            table: (*table).to_owned(),
            id: small(id)?,
            fields,
            actions: row_actions(actions)?,
        });
        Some(())
    }

    /// `table T [priority N] FIELD=MATCH .. ACTION(PARAMETER, ..)`. What has no name stands there by
    /// its number or place.
    pub fn entry(&self, text: &str) -> Option<Entry> {
        let (head, parameters) = text.strip_suffix(')')?.split_once('(')?;
        let words: Vec<&str> = head.split(' ').collect();
        let ["table", table, key @ .., action] = words.as_slice() else {
            return None;
        };
        let (priority, key) = match key {
            ["priority", priority, key @ ..] => (small(priority)?, key),
            key => (0, key),
        };
        let row = self.0.iter().find(|row| row.table == *table);
        let known = row.and_then(|row| row.actions.iter().find(|known| known.name == *action));
        Some(Entry {
            table: row.map(|row| row.id).or_else(|| small(table))?,
            priority,
            fields: fields(key, row.map_or(&[], |row| &row.fields))?,
            action: known.map(|known| known.id).or_else(|| small(action))?,
            parameters: parameter_values(parameters, known.map_or(&[], |k| &k.parameters))?,
        })
    }
}

/// `action NAME 0xID (PARAMETER:WIDTH, ..)`, any number of times.
fn row_actions(mut words: &[&str]) -> Option<Vec<Action>> {
    let mut actions = Vec::new();
    while let ["action", name, id, rest @ ..] = words {
        let end = rest.iter().position(|word| word.ends_with(')'))?;
        let (parameters, behind) = rest.split_at(end + 1);
        let inner = parameters.concat();
        let inner = inner.strip_prefix('(')?.strip_suffix(')')?;
        let parameters = inner.split(',').filter(|word| !word.is_empty());
        actions.push(Action {
            name: (*name).to_owned(),
            id: small(id)?,
            parameters: parameters.map(before_colon).collect(),
        });
        words = behind;
    }
    words.is_empty().then_some(actions)
}

fn before_colon(word: &str) -> String {
    let name = word.split(':').next();
    name.unwrap_or_default().to_owned()
}

/// `FIELD=MATCH ..` in the fields' places.
fn fields(key: &[&str], names: &[String]) -> Option<[Option<Match>; 4]> {
    let mut fields = [None; 4];
    for word in key {
        let (name, text) = word.split_once('=')?;
        let place = match names.iter().position(|known| known == name) {
            Some(place) => place,
            None => name.parse::<usize>().ok()?.checked_sub(1)?,
        };
        let before = fields.get_mut(place)?.replace(matched(text)?);
        before.is_none().then_some(())?;
    }
    Some(fields)
}

/// `V`, `V/PREFIX`, `V&&&MASK` or `LOW..HIGH`
fn matched(text: &str) -> Option<Match> {
    let two = |(first, second)| Some((value(first)?, value(second)?));
    if let Some(parts) = text.split_once('/') {
        two(parts).map(|(value, prefix)| Match::Prefix(value, prefix))
    } else if let Some(parts) = text.split_once("&&&") {
        two(parts).map(|(value, mask)| Match::Mask(value, mask))
    } else if let Some(parts) = text.split_once("..") {
        two(parts).map(|(low, high)| Match::Range(low, high))
    } else {
        value(text).map(Match::Value)
    }
}

/// `NAME=V, ..`, or `V` for a parameter without a name; each in its place.
fn parameter_values(text: &str, names: &[String]) -> Option<Vec<u128>> {
    let given = text.split(", ").filter(|text| !text.is_empty());
    let values = given.enumerate().map(|(place, text)| {
        let text = match names.get(place) {
            Some(name) => text.strip_prefix(name.as_str())?.strip_prefix('=')?,
            None => text,
        };
        value(text)
    });
    values.collect()
}

/// A value of an entry. Hex shows the bytes that are stored, so it is in shortest form here.
fn value(text: &str) -> Option<u128> {
    match text.strip_prefix("0x") {
        Some(digits) if digits.len() % 2 == 1 => None,
        Some(digits) if digits.len() > 2 && digits.starts_with("00") => None,
        None if text.contains(':') => grouped(text, ':', 16, 6),
        None if text.contains('.') => grouped(text, '.', 10, 4),
        _ => number(text),
    }
}

/// A MAC or IPv4 address: bytes with a sign between them.
fn grouped(text: &str, between: char, radix: u32, count: usize) -> Option<u128> {
    let bytes = text
        .split(between)
        .map(|byte| u8::from_str_radix(byte, radix));
    let bytes: Vec<u8> = bytes.collect::<Result<_, _>>().ok()?;
    let number = bytes.iter().fold(0, |n, &byte| n << 8 | u128::from(byte));
    (bytes.len() == count).then_some(number)
}

/// A number in decimal, or in hex after 0x.
pub fn number(text: &str) -> Option<u128> {
    match text.strip_prefix("0x") {
        Some(digits) => u128::from_str_radix(digits, 16).ok(),
        None => text.parse().ok(),
    }
}

/// An id or a priority.
fn small(text: &str) -> Option<u32> {
    u32::try_from(number(text)?).ok()
}
