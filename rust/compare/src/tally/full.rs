//! What there is to see where the store is full.
//!
//! Document 02, request Five: nothing tests for a full store. The sizes add to
//! at most 256, so in a full store every table is full, and 22 is what an
//! INSERT of a new key meets there.

use reference::bytes::Update;

use super::atomic::failed_at;
use crate::lists::view::View;

/// The entries of a full store.
const FULL: usize = 256;

const INSERT: u8 = 1;
const DELETE: u8 = 3;

/// Situations that a run has to come by. A full store is one of several tables
/// here, and a gap is what a DELETE makes in it.
pub const SIGHTS: &[&str] = &[
    "an INSERT that stores the 256th entry",
    "22 in a full store",
    "a gap in a full store: 22 in another table, then filled, by one WRITE",
    "a gap in a full store: 22 in another table, then filled, by several WRITEs",
    "an atomic batch that stores the 256th entry",
    "an atomic batch in a full store ended by 22",
    "an atomic batch in a full store ended by 22, with a gap in another table",
    "an atomic batch in a full store that makes a gap and fills it",
];

/// A gap, until it is filled.
struct Gap {
    table: u32,
    /// Has an INSERT into another table been refused since?
    refused: bool,
    /// Was all of this in one WRITE?
    at_once: bool,
}

/// Follows a list from WRITE to WRITE.
#[derive(Default)]
pub struct Watch {
    gap: Option<Gap>,
}

impl Watch {
    /// What is seen in an accepted batch with the reasons of its updates; the
    /// view is from before it.
    pub fn sights(
        &mut self,
        view: &View,
        atomicity: u8,
        updates: &[Update],
        reasons: &[u8],
    ) -> Vec<&'static str> {
        // Another list, or other changes in between.
        if view.entries.len() != FULL - 1 {
            self.gap = None;
        }
        if let Some(gap) = &mut self.gap {
            gap.at_once = false;
        }
        if atomicity == 0 {
            return self.alone(view, updates, reasons);
        }
        if reasons.contains(&0) {
            self.gap = None;
        }
        together(view, updates, reasons)
    }

    fn alone(&mut self, view: &View, updates: &[Update], reasons: &[u8]) -> Vec<&'static str> {
        let mut stored = view.entries.len();
        let mut seen = Vec::new();
        for (update, &reason) in updates.iter().zip(reasons) {
            let full = is_full(view, stored);
            match (update.kind, reason) {
                (INSERT, 0) => {
                    stored += 1;
                    if stored == FULL {
                        seen.push("an INSERT that stores the 256th entry");
                    }
                    seen.extend(self.gap.take().and_then(Gap::filled));
                }
                (INSERT, 22) => {
                    if full {
                        seen.push("22 in a full store");
                    }
                    if let Some(gap) = &mut self.gap {
                        gap.refused |= gap.table != update.entry.table;
                    }
                }
                (DELETE, 0) => {
                    stored -= 1;
                    self.gap = full.then_some(Gap {
                        table: update.entry.table,
                        refused: false,
                        at_once: true,
                    });
                }
                _ => {}
            }
        }
        seen
    }
}

impl Gap {
    /// What is seen when it is filled.
    fn filled(self) -> Option<&'static str> {
        self.refused.then_some(if self.at_once {
            "a gap in a full store: 22 in another table, then filled, by one WRITE"
        } else {
            "a gap in a full store: 22 in another table, then filled, by several WRITEs"
        })
    }
}

/// Is this the number of entries of a full store, and are they of several
/// tables?
fn is_full(view: &View, stored: usize) -> bool {
    stored == FULL && view.rows.len() > 1
}

/// A batch with atomicity 1.
fn together(view: &View, updates: &[Update], reasons: &[u8]) -> Vec<&'static str> {
    let full = is_full(view, view.entries.len());
    let mut seen = Vec::new();
    let Some(failed) = failed_at(reasons) else {
        if stores_the_last(view, updates) {
            seen.push("an atomic batch that stores the 256th entry");
        }
        let any = |kind| updates.iter().any(|update| update.kind == kind);
        if full && any(INSERT) && any(DELETE) {
            seen.push("an atomic batch in a full store that makes a gap and fills it");
        }
        return seen;
    };
    if full && reasons[failed] == 22 {
        seen.push("an atomic batch in a full store ended by 22");
        // The table is full, so the gap is in another.
        if stored_after(view, &updates[..failed]) < FULL {
            seen.push("an atomic batch in a full store ended by 22, with a gap in another table");
        }
    }
    seen
}

/// Does one of the updates, all of which pass, store the 256th entry?
fn stores_the_last(view: &View, updates: &[Update]) -> bool {
    let mut inserts = (0..updates.len()).filter(|&at| updates[at].kind == INSERT);
    view.entries.len() + updates.len() >= FULL
        && inserts.any(|at| stored_after(view, &updates[..=at]) == FULL)
}

/// How many entries there are after updates that pass.
fn stored_after(view: &View, updates: &[Update]) -> usize {
    let count = |kind| updates.iter().filter(|update| update.kind == kind).count();
    view.entries.len() + count(INSERT) - count(DELETE)
}

#[cfg(test)]
mod tests {
    use super::*;
    use reference::bytes::{kind, Action, Entry, Key, Row, Slot};

    const ONE: u32 = 0x0200_0001;
    const TWO: u32 = 0x0200_0002;

    fn entry(table: u32, field: u128) -> Entry {
        Entry::new(table, Key::new(0, &[Slot::exact(field)]), 0x0100_0001, &[])
    }

    fn insert(table: u32) -> Update {
        Update::insert(entry(table, 999))
    }

    fn delete(table: u32) -> Update {
        Update::delete(entry(table, 0))
    }

    /// So many entries in all, one of them in the second table, which has room
    /// for no more.
    fn view(stored: u128) -> View {
        let actions = [Action::new(0x0100_0001, &[])];
        let row = |table, size| Row::new(table, 0, size, &[(kind::EXACT, 16)], &actions);
        let mut view = View::new(1);
        view.rows = vec![row(ONE, 255), row(TWO, 1)];
        view.entries = (1..stored).map(|field| entry(ONE, field)).collect();
        view.entries.push(entry(TWO, 0));
        view
    }

    /// What a WRITE of updates with their reasons shows.
    fn seen(watch: &mut Watch, stored: u128, updates: &[(Update, u8)]) -> Vec<&'static str> {
        seen_under(0, watch, stored, updates)
    }

    /// The same of an atomic batch.
    fn seen_at_once(stored: u128, updates: &[(Update, u8)]) -> Vec<&'static str> {
        seen_under(1, &mut Watch::default(), stored, updates)
    }

    fn seen_under(
        atomicity: u8,
        watch: &mut Watch,
        stored: u128,
        updates: &[(Update, u8)],
    ) -> Vec<&'static str> {
        let (updates, reasons): (Vec<Update>, Vec<u8>) = updates.iter().copied().unzip();
        let seen = watch.sights(&view(stored), atomicity, &updates, &reasons);
        assert!(seen.iter().all(|sight| SIGHTS.contains(sight)), "{seen:?}");
        seen
    }

    #[test]
    fn each_alone() {
        let last = "an INSERT that stores the 256th entry";
        let refused = "22 in a full store";
        let filled = "a gap in a full store: 22 in another table, then filled, by one WRITE";
        let (no_room, done) = ((insert(TWO), 22), (insert(ONE), 0));
        let gap = (delete(ONE), 0);
        let watch = &mut Watch::default();
        assert_eq!(seen(watch, 255, &[done]), [last]);
        assert!(seen(watch, 254, &[done]).is_empty());
        assert!(seen(watch, 255, &[no_room]).is_empty());
        assert_eq!(seen(watch, 256, &[no_room, (insert(ONE), 20)]), [refused]);
        assert_eq!(seen(watch, 256, &[gap, no_room, done]), [last, filled]);
        // Not full before; no other table; not one entry alone.
        assert_eq!(seen(watch, 255, &[gap, no_room, done, done]), [last]);
        assert_eq!(seen(watch, 256, &[gap, done]), [last]);
        assert_eq!(seen(watch, 256, &[gap, no_room, gap, done, done]), [last]);
        // One table alone is full or not, as the store is.
        let mut one = view(256);
        one.rows.truncate(1);
        assert!(watch.sights(&one, 0, &[insert(ONE)], &[22]).is_empty());
    }

    #[test]
    fn from_write_to_write() {
        let last = "an INSERT that stores the 256th entry";
        let filled = "a gap in a full store: 22 in another table, then filled, by several WRITEs";
        let (no_room, done) = ((insert(TWO), 22), (insert(ONE), 0));
        let gap = (delete(ONE), 0);
        let watch = &mut Watch::default();
        assert!(seen(watch, 256, &[gap]).is_empty());
        assert!(seen(watch, 255, &[no_room]).is_empty());
        assert_eq!(seen(watch, 255, &[done]), [last, filled]);
        assert_eq!(seen(watch, 255, &[done]), [last]);
        // Other changes in between, and another list.
        for atomicity in [0, 1] {
            assert!(seen(watch, 256, &[gap, no_room]).is_empty());
            seen_under(atomicity, watch, 255, &[gap, done]);
            assert_eq!(seen(watch, 255, &[done]), [last]);
        }
        assert!(seen(watch, 256, &[gap, no_room]).is_empty());
        assert!(seen(watch, 1, &[]).is_empty());
        assert_eq!(seen(watch, 255, &[done]), [last]);
    }

    #[test]
    fn all_or_none() {
        let last = "an atomic batch that stores the 256th entry";
        let ended = "an atomic batch in a full store ended by 22";
        let beside = "an atomic batch in a full store ended by 22, with a gap in another table";
        let filled = "an atomic batch in a full store that makes a gap and fills it";
        let (no_room, done) = ((insert(TWO), 22), (insert(ONE), 0));
        let (gap, undone) = ((delete(ONE), 0), (delete(ONE), 25));
        assert_eq!(seen_at_once(255, &[done]), [last]);
        assert!(seen_at_once(255, &[(insert(ONE), 25), no_room]).is_empty());
        assert_eq!(seen_at_once(256, &[no_room, undone]), [ended]);
        assert_eq!(seen_at_once(256, &[undone, no_room]), [ended, beside]);
        assert!(seen_at_once(256, &[undone, (delete(ONE), 21)]).is_empty());
        assert_eq!(seen_at_once(256, &[gap, done]), [last, filled]);
        assert!(seen_at_once(256, &[gap]).is_empty());
    }
}
