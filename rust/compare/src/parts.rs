//! Parts of a frame in the types of the second implementation.
//!
//! The generator builds its frames from those. What is found in a frame by
//! [`savorylatch::wire`] is put into them here, number by number.

use reference::bytes::{Action, Entry, Head, Key, Row, Slot, Update, Value};
use savorylatch::wire;

pub fn head(head: wire::Head) -> Head {
    let wire::Head {
        device,
        role,
        flag,
        id,
    } = head;
    Head {
        device,
        role,
        flag,
        id,
    }
}

pub fn row(row: &wire::Row) -> Row {
    Row {
        table: row.table,
        owner: row.owner,
        size: row.size,
        field_count: row.field_count,
        fields: row.fields.map(|field| (field.kind, field.width)),
        action_count: row.action_count,
        actions: row.actions.map(|action| Action {
            id: action.id,
            count: action.count,
            widths: action.widths,
        }),
    }
}

pub fn update(update: &wire::Update) -> Update {
    Update {
        kind: update.kind,
        entry: entry(&update.entry),
    }
}

fn entry(entry: &wire::Entry) -> Entry {
    Entry {
        table: entry.table,
        key: key(&entry.key),
        action: entry.action,
        params: entry.parameters.map(value),
    }
}

pub fn key(key: &wire::Key) -> Key {
    Key {
        priority: key.priority,
        slots: key.slots.map(slot),
    }
}

fn slot(slot: wire::Slot) -> Slot {
    Slot {
        kind: slot.kind,
        first: value(slot.first),
        second: value(slot.second),
    }
}

fn value(value: wire::Value) -> Value {
    let wire::Value { length, bytes } = value;
    Value { length, bytes }
}
