//! What is wrong with an update or a key, whatever is stored: reasons 15 to 19.
//!
//! As in document 01, all of 17 is looked at before all of 18, and that before 19. Of a DELETE, as in
//! document 02, only table and key are looked at.

use savorylatch::frame::{Action, Field, Kind, Row};
use savorylatch::wire::{Entry, Key, Slot, Update, Value};
use savorylatch::Reason;

use crate::call::DELETE;
use crate::explain::Finding;
use crate::words::{self, some, Words};

/// The highest priority.
const PRIORITY: u32 = 0x7fff_ffff;

/// The first thing that is wrong with an update.
pub fn update(update: &Update, role: u8, rows: &[Row], words: &Words) -> Option<Finding> {
    if !(1..=3).contains(&update.kind) {
        let kind = update.kind;
        let text = format!("type {kind} is none of 1 insert, 2 modify, 3 delete");
        return Some(Finding::new(Reason::BadForm, text));
    }
    let entry = &update.entry;
    let row = match row(entry.table, role, rows, words) {
        Ok(row) => row,
        Err(finding) => return Some(finding),
    };
    if update.kind == DELETE {
        return key(row, &entry.key, words);
    }
    let part = Part { row, words };
    part.key_form(&entry.key)
        .or_else(|| part.action_form(entry))
        .map(|text| Finding::new(Reason::BadForm, text))
        .or_else(|| {
            let wide = part.key_width(&entry.key);
            let text = wide.or_else(|| part.action_width(entry))?;
            Some(Finding::new(Reason::TooWide, text))
        })
        .or_else(|| Some(Finding::new(Reason::RuleBroken, part.rules(&entry.key)?)))
}

/// The first thing that is wrong with the key of a READ or a DELETE.
pub fn key(row: &Row, key: &Key, words: &Words) -> Option<Finding> {
    let part = Part { row, words };
    let form = part.key_form(key).map(|t| (Reason::BadForm, t));
    form.or_else(|| Some((Reason::TooWide, part.key_width(key)?)))
        .or_else(|| Some((Reason::RuleBroken, part.rules(key)?)))
        .map(|(reason, text)| Finding::new(reason, text))
}

/// The row of a table that the role may use.
pub fn row<'r>(table: u32, role: u8, rows: &'r [Row], words: &Words) -> Result<&'r Row, Finding> {
    let name = words.table(table);
    let Some(row) = rows.iter().find(|row| row.table == table) else {
        let known: Vec<String> = rows
            .iter()
            .map(|row| format!("0x{:08x}", row.table))
            .collect();
        let text = format!(
            "the configuration has no table 0x{table:08x}; it has {}",
            known.join(", ")
        );
        return Err(Finding::new(Reason::NoSuchTable, text));
    };
    if role != 0 && row.owner != role {
        let text = format!(
            "{name} is owned by role {}, and role {role} may use only its own tables",
            row.owner
        );
        return Err(Finding::new(Reason::NotTheRoles, text));
    }
    Ok(row)
}

/// What the parts of an entry are looked at with.
struct Part<'r> {
    row: &'r Row,
    words: &'r Words<'r>,
}

impl Part<'_> {
    /// A field in words: `field dst (exact, 32 bits)`.
    fn field(&self, at: usize, field: &Field) -> String {
        let name = self.words.field(self.row.table, at);
        let kind = words::kind(field.kind as u8);
        format!("field {name} ({kind}, {} bits)", field.width)
    }

    fn key_form(&self, key: &Key) -> Option<String> {
        key.slots
            .iter()
            .enumerate()
            .find_map(|(at, slot)| match self.row.fields.get(at) {
                Some(field) => self.slot_form(at, field, slot),
                None if *slot == Slot::default() => None,
                None => {
                    let fields = some(self.row.fields.len(), "field", "fields");
                    let table = self.words.table(self.row.table);
                    Some(format!("{table} has {fields}, but slot {} is used", at + 1))
                }
            })
    }

    fn slot_form(&self, at: usize, field: &Field, slot: &Slot) -> Option<String> {
        let name = self.field(at, field);
        match (slot.kind, field.kind) {
            (0, Kind::Exact) => {
                return Some(format!("{name} is left out; an exact field may not be"))
            }
            (0, _) if *slot == Slot::default() => return None,
            (0, _) => return Some(format!("{name} is left out, but its slot is not all zero")),
            (kind, own) if kind == own as u8 => {}
            (kind, _) => {
                let kind = words::kind(kind);
                return Some(format!("{name} is given a slot of kind {kind}"));
            }
        }
        let first = ill_formed(&slot.first).map(|what| format!("the value of {name} {what}"));
        first.or_else(|| match field.kind {
            Kind::Exact | Kind::Optional => (!slot.second.is_none())
                .then(|| format!("{name} has one value, but the second is not all zero")),
            Kind::Lpm => {
                ill_formed(&slot.second).map(|what| format!("the prefix length of {name} {what}"))
            }
            Kind::Ternary => {
                ill_formed(&slot.second).map(|what| format!("the mask of {name} {what}"))
            }
            Kind::Range => {
                ill_formed(&slot.second).map(|what| format!("the upper bound of {name} {what}"))
            }
        })
    }

    fn action_form(&self, entry: &Entry) -> Option<String> {
        let table = self.words.table(self.row.table);
        let Some(action) = self.action(entry) else {
            let known = self.row.actions.iter();
            let known: Vec<String> = known
                .map(|a| self.words.action(entry.table, a.id))
                .collect();
            let known = known.join(", ");
            return Some(match entry.action {
                0 => format!("no action is named; {table} has {known}"),
                id => format!("{table} has no action 0x{id:08x}; it has {known}"),
            });
        };
        let name = self.words.action(entry.table, entry.action);
        let due = action.widths.len();
        entry.parameters.iter().enumerate().find_map(|(at, value)| {
            let parameter = self.words.parameter(entry.table, entry.action, at);
            if at < due {
                let what = ill_formed(value)?;
                return Some(format!("parameter {parameter} of {name} {what}"));
            }
            let takes = some(due, "parameter", "parameters");
            let stray = || format!("{name} takes {takes}, but parameter {} is given", at + 1);
            (!value.is_none()).then(stray)
        })
    }

    fn action(&self, entry: &Entry) -> Option<&Action> {
        let mut actions = self.row.actions.iter();
        actions.find(|action| action.id == entry.action)
    }

    fn key_width(&self, key: &Key) -> Option<String> {
        self.present(key).find_map(|(at, field, slot)| {
            let name = self.field(at, field);
            let table = self.row.table;
            let first = || self.words.first(table, at, &slot.first);
            let second = || self.words.second(table, at, slot);
            if is_wide(&slot.first, field.width) {
                let most = self.words.first(table, at, &Value::new(most(field.width)));
                return Some(format!(
                    "{} does not fit {name}; the highest is {most}",
                    first()
                ));
            }
            let counts = field.kind == Kind::Lpm;
            (!counts && is_wide(&slot.second, field.width)).then(|| {
                let what = match field.kind {
                    Kind::Ternary => "mask",
                    _ => "upper bound",
                };
                format!("the {what} {} does not fit {name}", second())
            })
        })
    }

    fn action_width(&self, entry: &Entry) -> Option<String> {
        let widths = &self.action(entry)?.widths;
        let mut values = entry.parameters.iter().zip(widths).enumerate();
        values.find_map(|(at, (value, &width))| {
            let shown = self.words.parameter_value(entry, at, value);
            let most = self.words.parameter_value(entry, at, &Value::new(most(width)));
            let parameter = self.words.parameter(entry.table, entry.action, at);
            is_wide(value, width).then(|| {
                format!(
                    "{shown} does not fit parameter {parameter} ({width} bits); the highest is {most}"
                )
            })
        })
    }

    /// The rules of the kinds, then that of the priority.
    fn rules(&self, key: &Key) -> Option<String> {
        let slots = self.present(key);
        let broken = |(at, field, slot): (usize, &Field, &Slot)| {
            let what = rule(field, slot)?;
            Some(format!("{}: {what}", self.field(at, field)))
        };
        let mut slots = slots.map(broken);
        slots
            .find_map(|broken| broken)
            .or_else(|| self.priority(key.priority))
    }

    fn priority(&self, priority: u32) -> Option<String> {
        let asks =
            |field: &&Field| matches!(field.kind, Kind::Ternary | Kind::Range | Kind::Optional);
        let table = self.words.table(self.row.table);
        let Some(field) = self.row.fields.iter().find(asks) else {
            return (priority != 0).then(|| {
                format!(
                    "{table} has no ternary, range or optional field, so the priority must be 0"
                )
            });
        };
        let kind = words::kind(field.kind as u8);
        (priority == 0 || priority > PRIORITY).then(|| {
            format!(
                "the priority is {priority}; {table} has a field of kind {kind}, \
                 so it must be 1 to {PRIORITY}"
            )
        })
    }

    /// The slots that are not omitted, with their fields.
    fn present<'k>(
        &'k self,
        key: &'k Key,
    ) -> impl Iterator<Item = (usize, &'k Field, &'k Slot)> + 'k {
        let slots = self.row.fields.iter().zip(&key.slots).enumerate();
        slots
            .filter(|(_, (_, slot))| slot.kind != 0)
            .map(|(at, (field, slot))| (at, field, slot))
    }
}

/// What is wrong with the form of a value that is due.
fn ill_formed(value: &Value) -> Option<String> {
    match value.length {
        0 => Some("is empty".to_owned()),
        length @ 17.. => Some(format!("has length {length}, over 16")),
        _ if value.digits().is_none() => {
            Some("has a byte after its length that is not 0".to_owned())
        }
        _ => None,
    }
}

/// The highest number of a width.
fn most(width: u8) -> u128 {
    u128::MAX
        .checked_shr(128 - u32::from(width.min(128)))
        .unwrap_or(0)
}

/// Is a well-formed value not below 2 to the width?
fn is_wide(value: &Value, width: u8) -> bool {
    value.number().is_some_and(|number| number > most(width))
}

/// The rule of its kind that a slot breaks.
fn rule(field: &Field, slot: &Slot) -> Option<String> {
    let (first, second) = (slot.first.number()?, slot.second.number());
    match field.kind {
        Kind::Exact | Kind::Optional => None,
        Kind::Lpm => prefix(first, second?, field.width),
        Kind::Ternary => {
            let mask = second?;
            let outside = first & !mask != 0;
            let zero = (mask == 0).then_some("the mask is 0; leave the field out instead");
            zero.or(outside.then_some("the value has a bit outside the mask"))
                .map(str::to_owned)
        }
        Kind::Range => {
            let high = second?;
            let turned = (first > high).then_some("the lower bound is above the upper");
            let whole = first == 0 && high == most(field.width);
            turned
                .or(whole.then_some("it is the whole range; leave the field out instead"))
                .map(str::to_owned)
        }
    }
}

fn prefix(number: u128, length: u128, width: u8) -> Option<String> {
    if length == 0 || length > u128::from(width) {
        return Some(format!("prefix length {length} is not 1 to {width}"));
    }
    let below = u8::try_from(length).map_or(0, |length| width - length);
    (number & most(below) != 0).then(|| format!("a bit below prefix length {length} is not 0"))
}
