//! Frames and lists in words, for whoever looks into a difference.

use std::fmt::Write;

use savorylatch::wire::{Action, Entry, Frame, Head, Key, Row, Slot, Update, Value};

use crate::bench::{Call, List, Poison};

/// Lowercase hexadecimal.
pub fn hex(bytes: &[u8]) -> String {
    bytes.iter().fold(String::new(), |mut text, byte| {
        let _ = write!(text, "{byte:02x}");
        text
    })
}

/// A whole list: for each call its words, then its frame.
pub fn list(list: &List) -> String {
    let mut text = format!(
        "device {}, a store of {} bytes (noise {})\n",
        list.device, list.store, list.fill
    );
    for (at, call) in list.calls.iter().enumerate() {
        let _ = writeln!(text, "{:>4} {}", at + 1, frame(&call.frame));
        let _ = writeln!(text, "     {}{}", hex(&call.frame), circumstances(call));
    }
    text
}

/// What is not as usual about a call's buffers.
fn circumstances(call: &Call) -> String {
    let usual = Call::new(Vec::new());
    let mut text = String::new();
    if call.answer_len != usual.answer_len {
        let _ = write!(text, "  [answer buffer {}]", call.answer_len);
    }
    if call.store_len != usual.store_len {
        let _ = write!(text, "  [store {}]", call.store_len);
    }
    match call.poison {
        None => {}
        Some(Poison::Noise(seed)) => {
            let _ = write!(text, "  [free bytes: noise {seed}]");
        }
        Some(Poison::Byte(byte)) => {
            let _ = write!(text, "  [free bytes: {byte:02x}]");
        }
        Some(Poison::Entries) => text.push_str("  [free bytes: copies of the entries]"),
    }
    text
}

/// One frame in words.
pub fn frame(bytes: &[u8]) -> String {
    let Ok(frame) = Frame::decode(bytes) else {
        return match bytes {
            [] => "an empty frame".to_owned(),
            [command @ 1..=6, ..] => format!(
                "{} in {} bytes, a wrong length",
                COMMANDS[usize::from(*command)],
                bytes.len()
            ),
            [command, ..] => format!("command {command:02x} in {} bytes", bytes.len()),
        };
    };
    match frame {
        Frame::Open { stream } => format!("OPEN stream {stream}"),
        Frame::Close { stream } => format!("CLOSE stream {stream}"),
        Frame::Arbitrate { stream, head } => {
            format!("ARBITRATE stream {stream}, {}", who(&head))
        }
        Frame::Configure { head, rows } => {
            let rows: Vec<String> = rows.iter().map(row).collect();
            format!("CONFIGURE {}: {}", who(&head), rows.join("; "))
        }
        Frame::Write {
            head,
            atomicity,
            updates,
        } => {
            let updates: Vec<String> = updates.iter().map(update).collect();
            let head = who(&head);
            format!(
                "WRITE {head}, atomicity {atomicity}: {}",
                updates.join("; ")
            )
        }
        Frame::Read {
            device,
            role,
            table,
            only,
            key: wanted,
        } => format!(
            "READ device {device}, role {role}, table {table:08x}, only {only}, {}",
            key(&wanted)
        ),
    }
}

/// The names of the commands, by their bytes.
pub const COMMANDS: [&str; 7] = [
    "none",
    "OPEN",
    "CLOSE",
    "ARBITRATE",
    "CONFIGURE",
    "WRITE",
    "READ",
];

fn who(head: &Head) -> String {
    let id = match (head.flag, head.id) {
        (0, 0) => "unset".to_owned(),
        (1, id) => id.to_string(),
        (flag, id) => format!("{id} under flag {flag}"),
    };
    format!("device {}, role {}, id {id}", head.device, head.role)
}

fn row(row: &Row) -> String {
    let fields: Vec<String> = counted(&row.fields, row.field_count)
        .map(|field| format!("{} {}", kind(field.kind), field.width))
        .collect();
    let actions: Vec<String> = counted(&row.actions, row.action_count)
        .map(|action: &Action| {
            let widths: Vec<u8> = counted(&action.widths, action.count).copied().collect();
            format!("{:08x} {widths:?}", action.id)
        })
        .collect();
    format!(
        "table {:08x} of role {}, size {}, {} fields [{}], {} actions [{}]",
        row.table,
        row.owner,
        row.size,
        row.field_count,
        fields.join(", "),
        row.action_count,
        actions.join(", ")
    )
}

/// The items within a count, which may be too high.
fn counted<T>(items: &[T], count: u8) -> impl Iterator<Item = &T> {
    items.iter().take(usize::from(count))
}

fn update(update: &Update) -> String {
    let kind = match update.kind {
        1 => "INSERT".to_owned(),
        2 => "MODIFY".to_owned(),
        3 => "DELETE".to_owned(),
        kind => format!("type {kind}"),
    };
    format!("{kind} {}", entry(&update.entry))
}

fn entry(entry: &Entry) -> String {
    let params: Vec<String> = entry
        .parameters
        .iter()
        .filter(|p| is_used(p))
        .map(value)
        .collect();
    format!(
        "{:08x} {}, action {:08x} ({})",
        entry.table,
        key(&entry.key),
        entry.action,
        params.join(", ")
    )
}

fn key(key: &Key) -> String {
    let used = key.slots.iter().rposition(|slot| *slot != Slot::default());
    let slots: Vec<String> = key.slots[..used.map_or(0, |at| at + 1)]
        .iter()
        .map(slot)
        .collect();
    format!("priority {} [{}]", key.priority, slots.join(", "))
}

fn slot(slot: &Slot) -> String {
    let mut text = kind(slot.kind);
    for part in [slot.first, slot.second].iter().filter(|v| is_used(v)) {
        let _ = write!(text, " {}", value(part));
    }
    text
}

fn kind(number: u8) -> String {
    match number {
        0 => "omitted".to_owned(),
        1 => "exact".to_owned(),
        2 => "lpm".to_owned(),
        3 => "ternary".to_owned(),
        4 => "range".to_owned(),
        5 => "optional".to_owned(),
        number => format!("kind {number}"),
    }
}

fn is_used(value: &Value) -> bool {
    !value.is_none()
}

/// The bytes within the length; what is wrong with it stands behind.
fn value(value: &Value) -> String {
    let length = usize::from(value.length);
    match value.bytes.get(..length) {
        Some(number) if value.bytes[length..].iter().all(|&byte| byte == 0) => hex(number),
        _ => format!("{} in length {length}", hex(&value.bytes)),
    }
}
