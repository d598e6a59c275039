//! What is not allowed about the rows of a CONFIGURE: the first part that breaks reason 14's list.

use savorylatch::wire::{Action, Field, Row, PLACES};
use savorylatch::Reason;

use crate::explain::Finding;
use crate::words::Words;

/// The most entries that all tables together may be given.
const ENTRIES: u32 = 256;

pub fn finding(rows: &[Row], words: &Words) -> Option<Finding> {
    let text = rows
        .iter()
        .enumerate()
        .find_map(|(at, row)| {
            let before = rows.get(..at).unwrap_or_default();
            broken(row, before, words).map(|what| format!("row {}: {what}", at + 1))
        })
        .or_else(|| {
            let sum: u32 = rows.iter().map(|row| u32::from(row.size)).sum();
            (sum > ENTRIES)
                .then(|| format!("the sizes add to {sum}, and the store holds {ENTRIES}"))
        })?;
    let text = format!("{text}; what was configured before stays");
    Some(Finding::new(Reason::RowsNotAllowed, text))
}

fn broken(row: &Row, before: &[Row], words: &Words) -> Option<String> {
    let table = row.table;
    if table >> 24 != 2 {
        return Some(format!("table id 0x{table:08x} has not 02 in its top byte"));
    }
    if before.iter().any(|other| other.table == table) {
        return Some(format!("table id 0x{table:08x} is there twice"));
    }
    if row.owner > 7 {
        return Some(format!("owner {} is over 7", row.owner));
    }
    if row.size == 0 {
        return Some("the size is 0".to_owned());
    }
    fields(row, words).or_else(|| actions(row, words))
}

fn fields(row: &Row, words: &Words) -> Option<String> {
    let count = usize::from(row.field_count);
    if count == 0 || count > PLACES {
        return Some(format!("it has {count} fields; there may be 1 to {PLACES}"));
    }
    let (used, unused) = row.fields.split_at_checked(count)?;
    let broken = used.iter().enumerate().find_map(|(at, field)| {
        let name = words.field(row.table, at);
        let Field { kind, width } = *field;
        match (kind, width) {
            (1..=5, 1..=128) => None,
            (1..=5, _) => Some(format!(
                "field {name} has width {width}; it may be 1 to 128"
            )),
            _ => Some(format!("field {name} has kind {kind}; it may be 1 to 5")),
        }
    });
    broken.or_else(|| {
        let stray = unused.iter().any(|&field| field != Field::default());
        stray.then(|| "a field past the count is not zero".to_owned())
    })
}

fn actions(row: &Row, words: &Words) -> Option<String> {
    let count = usize::from(row.action_count);
    if count == 0 || count > PLACES {
        return Some(format!(
            "it has {count} actions; there may be 1 to {PLACES}"
        ));
    }
    let (used, unused) = row.actions.split_at_checked(count)?;
    let broken = used.iter().enumerate().find_map(|(at, action)| {
        let before = used.get(..at).unwrap_or_default();
        broken_action(row.table, action, before, words)
    });
    broken.or_else(|| {
        let stray = unused.iter().any(|&action| action != Action::default());
        stray.then(|| "an action past the count is not zero".to_owned())
    })
}

fn broken_action(table: u32, action: &Action, before: &[Action], words: &Words) -> Option<String> {
    let id = action.id;
    if id >> 24 != 1 {
        return Some(format!("action id 0x{id:08x} has not 01 in its top byte"));
    }
    if before.iter().any(|other| other.id == id) {
        return Some(format!("action id 0x{id:08x} is there twice"));
    }
    let name = words.action(table, id);
    let count = usize::from(action.count);
    let Some((used, unused)) = action.widths.split_at_checked(count) else {
        return Some(format!(
            "action {name} has {count} parameters; there may be 0 to {PLACES}"
        ));
    };
    let broken = used
        .iter()
        .enumerate()
        .find(|(_, width)| !(1..=128).contains(*width));
    if let Some((at, width)) = broken {
        let parameter = words.parameter(table, id, at);
        return Some(format!(
            "parameter {parameter} of action {name} has width {width}; it may be 1 to 128"
        ));
    }
    let stray = unused.iter().any(|&width| width != 0);
    stray.then(|| format!("a width past the parameters of action {name} is not zero"))
}
