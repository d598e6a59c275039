//! Calls, rows, updates and entries in the script's language, with the script's names and notations.

use savorylatch::frame::Head;
use savorylatch::wire::{Action, Entry, Key, Row, Slot, Update, Value};

use crate::call::{Call, Wanted, KINDS, TYPES};
use crate::names::{self, Names};
use crate::notation::{show, Notation, Notations, Spot};

/// What is needed to say something as the script does.
#[derive(Clone, Copy)]
pub struct Words<'s> {
    pub names: &'s Names,
    pub notations: &'s Notations,
    /// The device that need not be named.
    pub device: u64,
}

impl Words<'_> {
    /// A call without its rows or updates.
    pub fn statement(&self, call: &Call) -> String {
        match call {
            Call::Open { stream } => format!("open {stream}"),
            Call::Close { stream } => format!("close {stream}"),
            Call::Arbitrate { stream, head } => {
                format!("arbitrate {stream} {}", self.head(head))
            }
            Call::Configure { head, .. } => format!("configure {}", self.head(head)),
            Call::Write {
                head, atomicity, ..
            } => match atomicity {
                0 => format!("write {}", self.head(head)),
                1 => format!("write {} atomic", self.head(head)),
                _ => format!("write {} atomicity {atomicity}", self.head(head)),
            },
            Call::Read {
                device,
                role,
                wanted,
            } => {
                let device = self.device(*device);
                format!("read role {role}{device}{}", self.wanted(wanted))
            }
        }
    }

    fn head(&self, head: &Head) -> String {
        let id = match head.id {
            Some(id) => format!("id {}", self.id(id)),
            None => "unset".to_owned(),
        };
        format!("role {} {id}{}", head.role, self.device(head.device))
    }

    fn device(&self, device: u64) -> String {
        match device == self.device {
            true => String::new(),
            false => format!(" device {device}"),
        }
    }

    fn wanted(&self, wanted: &Wanted) -> String {
        match wanted {
            Wanted::Everything => String::new(),
            Wanted::Table(table) => format!(" {}", self.table(*table)),
            Wanted::Key { table, key } => {
                format!(" {} only{}", self.table(*table), self.key(*table, key))
            }
        }
    }

    /// A row, by its place in the CONFIGURE; names that it has not are made from places.
    pub fn row(&self, at: usize, row: &Row) -> String {
        let names = self.names.tables.get(at).filter(|t| t.id == row.table);
        let name = named("t", at, names.map(|table| &table.name));
        let mut text = format!(
            "table {name} 0x{:08x} owner {} size {}",
            row.table, row.owner, row.size
        );
        let fields = row.fields.iter().take(usize::from(row.field_count));
        for (at, field) in fields.enumerate() {
            let names = names.and_then(|table| table.fields.get(at));
            let name = named("f", at, names.map(|field| &field.name));
            let key = if at == 0 { " key" } else { "" };
            // A slot may be omitted, a field not.
            let kind = match field.kind {
                0 => "0".to_owned(),
                number => kind(number),
            };
            text += &format!("{key} {name}:{kind}:{}", field.width);
        }
        let actions = row.actions.iter().take(usize::from(row.action_count));
        for (at, action) in actions.enumerate() {
            let names = names.and_then(|table| table.actions.get(at));
            text += &format!(" action {}", row_action(at, action, names));
        }
        text
    }

    pub fn update(&self, update: &Update) -> String {
        let entry = self.entry(&update.entry);
        format!("{} {entry}", update_type(update.kind))
    }

    pub fn entry(&self, entry: &Entry) -> String {
        let table = self.table(entry.table);
        let key = self.key(entry.table, &entry.key);
        let action = match self.does(entry) {
            text if text.is_empty() => text,
            text => format!(" {text}"),
        };
        format!("{table}{key}{action}")
    }

    /// The action of an entry and its parameters; nothing if all of it is zero.
    pub fn does(&self, entry: &Entry) -> String {
        let (table, action) = (entry.table, entry.action);
        let given = entry.parameters.iter().rposition(|value| !value.is_none());
        if action == 0 && given.is_none() {
            return String::new();
        }
        let names = self.action_names(table, action);
        let parameters: Vec<String> = entry
            .parameters
            .iter()
            .take(given.map_or(0, |last| last + 1))
            .enumerate()
            .map(|(at, value)| {
                let value = self.parameter_value(entry, at, value);
                match names.and_then(|names| names.parameters.get(at)) {
                    Some(name) => format!("{name}={value}"),
                    None => value,
                }
            })
            .collect();
        format!("{}({})", self.action(table, action), parameters.join(", "))
    }

    /// A key's priority and fields, each after a blank.
    pub fn key(&self, table: u32, key: &Key) -> String {
        let mut text = match key.priority {
            0 => String::new(),
            priority => format!(" priority {priority}"),
        };
        for (at, slot) in key.slots.iter().enumerate() {
            if *slot != Slot::default() {
                let field = self.field(table, at);
                text += &format!(" {field}={}", self.slot(table, at, slot));
            }
        }
        text
    }

    /// What a slot asks for, as it stands after `FIELD=`.
    pub fn slot(&self, table: u32, at: usize, slot: &Slot) -> String {
        let first = self.first(table, at, &slot.first);
        let second = self.second(table, at, slot);
        let due = slot.first.digits().is_some();
        let both = due && slot.second.digits().is_some();
        match slot.kind {
            1 | 5 if due && slot.second.is_none() => first,
            2 if both => format!("{first}/{second}"),
            3 if both => format!("{first}&&&{second}"),
            4 if both => format!("{first}..{second}"),
            other => format!("[kind {}: {first} {second}]", kind(other)),
        }
    }

    /// A field's first value.
    pub fn first(&self, table: u32, field: usize, value: &Value) -> String {
        self.notations.value(Spot::First { table, field }, value)
    }

    /// A field's second value; a prefix length is a count.
    pub fn second(&self, table: u32, field: usize, slot: &Slot) -> String {
        match slot.kind {
            2 => show(&slot.second, Notation::Decimal),
            _ => {
                let spot = Spot::Second { table, field };
                self.notations.value(spot, &slot.second)
            }
        }
    }

    /// A parameter's value.
    pub fn parameter_value(&self, entry: &Entry, at: usize, value: &Value) -> String {
        let spot = Spot::Parameter {
            table: entry.table,
            action: entry.action,
            at,
        };
        self.notations.value(spot, value)
    }

    /// `table NAME`, or its number.
    pub fn table(&self, id: u32) -> String {
        match self.names.table(id) {
            Some(table) => format!("table {}", table.name),
            None if id == 0 => "table 0".to_owned(),
            None => format!("table 0x{id:08x}"),
        }
    }

    /// A field's name, or its place.
    pub fn field(&self, table: u32, at: usize) -> String {
        let names = self.names.table(table);
        let name = names.and_then(|table| table.fields.get(at));
        name.map_or((at + 1).to_string(), |field| field.name.clone())
    }

    /// An action's name, or its number.
    pub fn action(&self, table: u32, id: u32) -> String {
        let names = self.action_names(table, id);
        names.map_or(format!("0x{id:08x}"), |action| action.name.clone())
    }

    /// A parameter's name, or its place.
    pub fn parameter(&self, table: u32, action: u32, at: usize) -> String {
        let names = self.action_names(table, action);
        let name = names.and_then(|action| action.parameters.get(at));
        name.map_or((at + 1).to_string(), String::clone)
    }

    fn action_names(&self, table: u32, id: u32) -> Option<&names::Action> {
        self.names.table(table)?.action(id)
    }

    pub fn id(&self, id: u128) -> String {
        self.notations.id(id)
    }
}

/// An action of a row: name, id, parameters.
fn row_action(at: usize, action: &Action, names: Option<&names::Action>) -> String {
    let name = named("a", at, names.map(|action| &action.name));
    let widths = action.widths.iter().take(usize::from(action.count));
    let parameters: Vec<String> = widths
        .enumerate()
        .map(|(at, width)| {
            let name = names.and_then(|action| action.parameters.get(at));
            format!("{}:{width}", named("p", at, name))
        })
        .collect();
    format!("{name} 0x{:08x} ({})", action.id, parameters.join(", "))
}

/// A name, or one made from the place.
fn named(letter: &str, at: usize, name: Option<&String>) -> String {
    name.map_or_else(|| format!("{letter}{}", at + 1), String::clone)
}

/// A kind by name, or by number if there is none.
pub fn kind(kind: u8) -> String {
    let name = KINDS.get(usize::from(kind));
    name.map_or(kind.to_string(), |name| (*name).to_owned())
}

/// A type by name, or by number if there is none.
pub fn update_type(kind: u8) -> String {
    let name = TYPES.get(usize::from(kind));
    name.map_or(format!("type {kind}"), |name| (*name).to_owned())
}

/// A number of things, the word in its form.
pub fn some(count: usize, one: &str, many: &str) -> String {
    match count {
        0 => format!("no {one}"),
        1 => format!("1 {one}"),
        _ => format!("{count} {many}"),
    }
}
