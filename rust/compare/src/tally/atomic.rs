//! What there is to see in a batch with atomicity 1.

use reference::bytes::{Entry, Update};

use crate::lists::maker::Aim;
use crate::lists::view::{held, place, short_entry, View};

/// The reason of an update that was rolled back or never tried.
const BATCH_FAILED: u8 = 25;

/// Situations that a run has to come by.
pub const SIGHTS: &[&str] = &[
    "an atomic batch without updates",
    "an atomic batch with a DELETE that is done",
    "an atomic batch of several tables that is done",
    "a batch of one update that is rolled back",
    "a batch that fails at its first update",
    "a batch that fails at a middle update",
    "a batch that fails at its last update",
    "a batch that fails at its 64th update",
    "a batch of several tables that is rolled back",
    "an INSERT rolled back",
    "a MODIFY rolled back",
    "a DELETE rolled back",
    "a DELETE rolled back whose entry has others after it",
    "a DELETE rolled back in a store of 256 entries",
    "an INSERT rolled back in a table that was full",
    "the same key changed twice and rolled back",
    "INSERT, DELETE and INSERT of a key rolled back",
    "MODIFY and DELETE of a key rolled back",
    "MODIFY, DELETE and INSERT of a key rolled back",
    "an update that fails only by those before it",
    "an update that passes only by those before it",
    "a malformed update after the failed one",
    "an update after the failed one that would pass alone",
    "16 in the middle of a batch",
    "22 in the middle of a batch",
];

/// What is seen in an accepted batch with the reasons of its updates; the view
/// is from before it.
pub fn sights(view: &View, updates: &[Update], reasons: &[u8], aims: &[Aim]) -> Vec<&'static str> {
    let updates: Vec<Update> = updates.iter().map(short).collect();
    match failed_at(reasons) {
        None => done(view, &updates),
        Some(failed) => {
            let mut seen = place_of_failure(updates.len(), failed, reasons[failed]);
            seen.extend(rolled_back(view, &updates[..failed]));
            if depends(view, &updates[failed], reasons[failed]) {
                seen.push("an update that fails only by those before it");
            }
            if aims.iter().any(|aim| aim.update > Some(failed)) {
                seen.push("a malformed update after the failed one");
            }
            if updates[failed + 1..]
                .iter()
                .any(|update| passes(view, update))
            {
                seen.push("an update after the failed one that would pass alone");
            }
            seen
        }
    }
}

/// The place of the update that failed, if one did.
pub fn failed_at(reasons: &[u8]) -> Option<usize> {
    reasons.iter().position(|&reason| !is_other(reason))
}

/// The reason that ended the batch, if one did.
pub fn ended_by(reasons: &[u8]) -> Option<u8> {
    failed_at(reasons).map(|at| reasons[at])
}

/// Is it that of an update which did not fail itself?
fn is_other(reason: u8) -> bool {
    reason == 0 || reason == BATCH_FAILED
}

fn short(update: &Update) -> Update {
    Update {
        kind: update.kind,
        entry: short_entry(update.entry),
    }
}

fn done(view: &View, updates: &[Update]) -> Vec<&'static str> {
    let mut seen = Vec::new();
    if updates.is_empty() {
        seen.push("an atomic batch without updates");
    }
    if updates.iter().any(|update| update.kind == 3) {
        seen.push("an atomic batch with a DELETE that is done");
    }
    if are_of_several_tables(updates) {
        seen.push("an atomic batch of several tables that is done");
    }
    if updates.iter().any(|update| !passes(view, update)) {
        seen.push("an update that passes only by those before it");
    }
    seen
}

fn place_of_failure(count: usize, failed: usize, reason: u8) -> Vec<&'static str> {
    let mut seen = Vec::new();
    let middle = failed > 0 && failed + 1 < count;
    seen.push(match failed {
        0 if count == 1 => "a batch of one update that is rolled back",
        0 => "a batch that fails at its first update",
        _ if middle => "a batch that fails at a middle update",
        _ => "a batch that fails at its last update",
    });
    match reason {
        16 if middle => seen.push("16 in the middle of a batch"),
        22 if middle => seen.push("22 in the middle of a batch"),
        _ => {}
    }
    if failed == 63 {
        seen.push("a batch that fails at its 64th update");
    }
    seen
}

/// What was undone, from the updates before the failed one.
fn rolled_back(view: &View, undone: &[Update]) -> Vec<&'static str> {
    let mut seen = Vec::new();
    for (at, update) in undone.iter().enumerate() {
        seen.push(match update.kind {
            1 => "an INSERT rolled back",
            2 => "a MODIFY rolled back",
            _ => "a DELETE rolled back",
        });
        match update.kind {
            1 if is_full(view, update.entry.table) => {
                seen.push("an INSERT rolled back in a table that was full");
            }
            3 if has_others_after(view, &update.entry) => {
                seen.push("a DELETE rolled back whose entry has others after it");
            }
            _ => {}
        }
        if update.kind == 3 && view.entries.len() == 256 {
            seen.push("a DELETE rolled back in a store of 256 entries");
        }
        if !passes(view, update) {
            seen.push("an update that passes only by those before it");
        }
        let again = undone[..at].iter().any(|before| same_key(before, update));
        if again {
            seen.push("the same key changed twice and rolled back");
        }
        let kinds: Vec<u8> = undone[..=at]
            .iter()
            .filter(|before| same_key(before, update))
            .map(|before| before.kind)
            .collect();
        match kinds[..] {
            [.., 1, 3, 1] => seen.push("INSERT, DELETE and INSERT of a key rolled back"),
            [.., 2, 3] => seen.push("MODIFY and DELETE of a key rolled back"),
            [.., 2, 3, 1] => seen.push("MODIFY, DELETE and INSERT of a key rolled back"),
            _ => {}
        }
    }
    if are_of_several_tables(undone) {
        seen.push("a batch of several tables that is rolled back");
    }
    seen
}

fn same_key(one: &Update, other: &Update) -> bool {
    (one.entry.table, one.entry.key) == (other.entry.table, other.entry.key)
}

fn are_of_several_tables(updates: &[Update]) -> bool {
    let mut tables = updates.iter().map(|update| update.entry.table);
    let first = tables.next();
    tables.any(|table| Some(table) != first)
}

fn has_others_after(view: &View, entry: &Entry) -> bool {
    let after = place(&view.entries, entry).map(|at| &view.entries[at + 1..]);
    after.is_some_and(|after| held(after, entry.table) > 0)
}

/// Would an update that is in order pass by the entries in view?
fn passes(view: &View, update: &Update) -> bool {
    match (update.kind, view.place(&update.entry)) {
        (1, None) => !is_full(view, update.entry.table),
        (2 | 3, Some(_)) => true,
        _ => false,
    }
}

/// Does the table hold its size? One that there is not does.
fn is_full(view: &View, table: u32) -> bool {
    let size = view.row(table).map_or(0, |row| usize::from(row.size));
    view.held(table) >= size
}

/// Does the reason come of what those before it would have done?
fn depends(view: &View, update: &Update, reason: u8) -> bool {
    (20..=22).contains(&reason) && passes(view, update)
}

#[cfg(test)]
mod tests {
    use super::*;
    use reference::bytes::{kind, Action, Key, Row, Slot, Value};

    const TABLE: u32 = 0x0200_0001;

    fn entry(field: u128) -> Entry {
        let key = Key::new(0, &[Slot::exact(field)]);
        Entry::new(TABLE, key, 0x0100_0001, &[Value::of(1)])
    }

    /// Room for three; 1 and 2 are there.
    fn view() -> View {
        let actions = [Action::new(0x0100_0001, &[16])];
        let mut view = View::new(1);
        view.rows = vec![Row::new(TABLE, 0, 3, &[(kind::EXACT, 16)], &actions)];
        view.entries = vec![entry(1), entry(2)];
        view
    }

    fn seen(updates: &[Update], reasons: &[u8]) -> Vec<&'static str> {
        let mut seen = sights(&view(), updates, reasons, &[]);
        assert!(seen.iter().all(|sight| SIGHTS.contains(sight)), "{seen:?}");
        seen.sort_unstable();
        seen.dedup();
        seen
    }

    #[test]
    fn a_batch_that_is_done() {
        assert_eq!(seen(&[], &[]), ["an atomic batch without updates"]);
        assert!(seen(&[Update::insert(entry(3))], &[0]).is_empty());
        let updates = [Update::delete(entry(1)), Update::insert(entry(1))];
        assert_eq!(
            seen(&updates, &[0, 0]),
            [
                "an atomic batch with a DELETE that is done",
                "an update that passes only by those before it",
            ]
        );
    }

    #[test]
    fn a_batch_that_is_rolled_back() {
        let insert = Update::insert(entry(3));
        assert_eq!(
            seen(&[Update::insert(entry(1))], &[20]),
            ["a batch of one update that is rolled back"]
        );
        assert_eq!(
            seen(&[insert, insert], &[17, 25]),
            [
                "a batch that fails at its first update",
                "an update after the failed one that would pass alone",
            ]
        );
        assert_eq!(
            seen(&[insert, insert], &[25, 20]),
            [
                "a batch that fails at its last update",
                "an INSERT rolled back",
                "an update that fails only by those before it",
            ]
        );
        let [modify, delete] = [Update::modify(entry(1)), Update::delete(entry(1))];
        assert_eq!(
            seen(&[modify, delete, modify, insert], &[25, 25, 21, 25]),
            [
                "MODIFY and DELETE of a key rolled back",
                "a DELETE rolled back",
                "a DELETE rolled back whose entry has others after it",
                "a MODIFY rolled back",
                "a batch that fails at a middle update",
                "an update after the failed one that would pass alone",
                "an update that fails only by those before it",
                "the same key changed twice and rolled back",
            ]
        );
    }

    #[test]
    fn what_ended_a_batch() {
        assert_eq!(ended_by(&[25, 25, 22, 25]), Some(22));
        assert_eq!(ended_by(&[0, 0]), None);
        assert_eq!(ended_by(&[]), None);
    }
}
