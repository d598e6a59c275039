//! Keys with padded values, and what becomes of them.
//!
//! Document 02, request Four: a key is that of a stored entry exactly when
//! their shortest forms are the same. So every value of a key has to be met
//! padded by every number of bytes, whatever a call does by that key, and as
//! many values padded at once as a key has.

use std::borrow::Cow;
use std::collections::BTreeMap;
use std::fmt;

use reference::bytes::{Entry, Key, Update};

use super::atomic::failed_at;
use super::nearly;
use crate::lists::digits::padding;
use crate::lists::view::{short_entry, take_effect, View};

/// What a call did by a key.
#[derive(Clone, Copy, Debug, PartialEq, Eq, PartialOrd, Ord)]
pub enum Act {
    Inserted,
    /// 20.
    Stored,
    Modified,
    Deleted,
    /// 21.
    Absent,
    Shown,
    NotShown,
}

const ACTS: [(Act, &str); 7] = [
    (Act::Inserted, "INSERT done"),
    (Act::Stored, "INSERT with 20"),
    (Act::Modified, "MODIFY done"),
    (Act::Deleted, "DELETE done"),
    (Act::Absent, "MODIFY or DELETE with 21"),
    (Act::Shown, "READ that shows its entry"),
    (Act::NotShown, "READ that shows nothing"),
];

/// The values of a key, by slot, and the bytes that one may be padded by.
const VALUES: [[usize; 2]; 4] = [[0, 1], [2, 3], [4, 5], [6, 7]];
const COUNT: usize = 8;
const BYTES: usize = 15;

/// One thing to be met, of a key by which a call did something.
#[derive(Clone, Copy, Debug, PartialEq, Eq, PartialOrd, Ord)]
pub enum Cell {
    /// One of its values is padded by so many bytes.
    By(Act, usize, usize),
    /// So many of its values are padded.
    Together(Act, usize),
}

/// How often each was met, and what keys nearly are.
#[derive(Default)]
pub struct Counts {
    met: BTreeMap<Cell, u64>,
    pub nearly: nearly::Counts,
}

impl Counts {
    /// Counts the updates of an accepted batch with their reasons; the view is
    /// from before it.
    pub fn count(&mut self, view: &View, atomicity: u8, updates: &[Update], reasons: &[u8]) {
        // An update is judged as those before it leave the entries, also where
        // they are rolled back.
        let failed = failed_at(reasons).unwrap_or(0);
        let mut entries = Cow::Borrowed(&view.entries);
        for (at, (update, &reason)) in updates.iter().zip(reasons).enumerate() {
            let short = short_entry(update.entry);
            if let Some(act) = act(update.kind, reason) {
                self.add(act, &update.entry.key);
            }
            let asker = usize::from(update.kind);
            let found = is_found(update.kind, reason);
            self.nearly
                .count(asker, found, &entries, &update.entry, &short);
            if reason == 0 || atomicity == 1 && at < failed {
                take_effect(entries.to_mut(), update.kind, short);
            }
        }
    }

    /// Counts an accepted READ of a key; the entry has its table.
    pub fn count_read(&mut self, view: &View, entry: &Entry, shown: bool) {
        let act = if shown { Act::Shown } else { Act::NotShown };
        self.add(act, &entry.key);
        let short = short_entry(*entry);
        self.nearly
            .count(nearly::READ, Some(shown), &view.entries, entry, &short);
    }

    fn add(&mut self, act: Act, key: &Key) {
        let mut together = 0;
        for (at, bytes) in paddings(key).into_iter().enumerate() {
            if bytes > 0 {
                together += 1;
                *self.met.entry(Cell::By(act, at, bytes)).or_default() += 1;
            }
        }
        if together > 0 {
            let cell = Cell::Together(act, together);
            *self.met.entry(cell).or_default() += 1;
        }
    }

    pub fn of(&self, cell: Cell) -> u64 {
        self.met.get(&cell).copied().unwrap_or(0)
    }
}

/// What an update did by its key; nothing where that shows nothing.
fn act(kind: u8, reason: u8) -> Option<Act> {
    match (kind, reason) {
        (1, 0) => Some(Act::Inserted),
        (1, 20) => Some(Act::Stored),
        (2, 0) => Some(Act::Modified),
        (3, 0) => Some(Act::Deleted),
        (2 | 3, 21) => Some(Act::Absent),
        _ => None,
    }
}

/// Was the key of an update found? Nothing where the reason does not tell.
fn is_found(kind: u8, reason: u8) -> Option<bool> {
    match (kind, reason) {
        (1, 20) | (2 | 3, 0) => Some(true),
        (1, 0 | 22) | (2 | 3, 21) => Some(false),
        _ => None,
    }
}

/// By how many bytes each value of a key is padded.
pub fn paddings(key: &Key) -> [usize; COUNT] {
    let mut all = [0; COUNT];
    for (slot, [first, second]) in key.slots.iter().zip(VALUES) {
        all[first] = padding(&slot.first);
        all[second] = padding(&slot.second);
    }
    all
}

/// All that a run has to come by.
pub fn cells() -> impl Iterator<Item = Cell> {
    ACTS.into_iter().flat_map(|(act, _)| {
        let by = (0..COUNT).flat_map(move |at| (1..=BYTES).map(move |by| Cell::By(act, at, by)));
        by.chain((1..=COUNT).map(move |values| Cell::Together(act, values)))
    })
}

impl fmt::Display for Act {
    fn fmt(&self, f: &mut fmt::Formatter<'_>) -> fmt::Result {
        let name = ACTS.iter().find(|(act, _)| act == self);
        f.pad(name.map_or("", |(_, name)| name))
    }
}

impl fmt::Display for Cell {
    fn fmt(&self, f: &mut fmt::Formatter<'_>) -> fmt::Result {
        match *self {
            Cell::By(act, at, bytes) => {
                let value = ["first", "second"][at % 2];
                let slot = 1 + at / 2;
                write!(
                    f,
                    "{act}, the {value} value of slot {slot} padded by {bytes}"
                )
            }
            Cell::Together(act, values) => write!(f, "{act}, {values} values padded"),
        }
    }
}

/// The table of the values that were padded, by any number of bytes.
impl fmt::Display for Counts {
    fn fmt(&self, f: &mut fmt::Formatter<'_>) -> fmt::Result {
        write!(f, "{:26}", "padded, by slot and value")?;
        for slot in 1..=VALUES.len() {
            write!(f, " {:>7}.1 {:>7}.2", slot, slot)?;
        }
        for (act, _) in ACTS {
            write!(f, "\n{act:26}")?;
            for at in 0..COUNT {
                let counts = (1..=BYTES).map(|bytes| self.of(Cell::By(act, at, bytes)));
                write!(f, " {:>9}", counts.sum::<u64>())?;
            }
        }
        Ok(())
    }
}

#[cfg(test)]
mod tests {
    use super::*;
    use reference::bytes::{Slot, Value};

    /// A key whose first slot has its first value padded by 2 and whose third
    /// one has its second value padded by 15.
    fn entry() -> Entry {
        let slots = [
            Slot::exact(Value::string(&[0, 0, 1])),
            Slot::OMITTED,
            Slot::range(0, Value::string(&[0; 16])),
        ];
        Entry::new(0x0200_0001, Key::new(1, &slots), 0x0100_0001, &[])
    }

    fn met(counts: &Counts) -> Vec<String> {
        let met = cells().filter(|&cell| counts.of(cell) > 0);
        met.map(|cell| cell.to_string()).collect()
    }

    fn after(atomicity: u8, updates: &[Update], reasons: &[u8]) -> Vec<String> {
        let mut counts = Counts::default();
        counts.count(&View::new(1), atomicity, updates, reasons);
        met(&counts)
    }

    #[test]
    fn what_became_of_a_key() {
        let entry = entry();
        for (update, reason, act) in [
            (Update::insert(entry), 0, "INSERT done"),
            (Update::insert(entry), 20, "INSERT with 20"),
            (Update::modify(entry), 0, "MODIFY done"),
            (Update::modify(entry), 21, "MODIFY or DELETE with 21"),
            (Update::delete(entry), 0, "DELETE done"),
            (Update::delete(entry), 21, "MODIFY or DELETE with 21"),
        ] {
            let expected = [
                format!("{act}, the first value of slot 1 padded by 2"),
                format!("{act}, the second value of slot 3 padded by 15"),
                format!("{act}, 2 values padded"),
            ];
            for atomicity in [0, 1] {
                assert_eq!(after(atomicity, &[update], &[reason]), expected);
            }
        }
        for (shown, act) in [
            (true, "READ that shows its entry"),
            (false, "READ that shows nothing"),
        ] {
            let mut counts = Counts::default();
            counts.count_read(&View::new(1), &entry, shown);
            assert_eq!(
                met(&counts).last(),
                Some(&format!("{act}, 2 values padded"))
            );
        }
    }

    #[test]
    fn what_shows_nothing() {
        let (entry, short) = (entry(), short_entry(entry()));
        assert!(after(0, &[Update::insert(short)], &[0]).is_empty());
        for reason in [15, 16, 17, 18, 19, 22, 25] {
            assert!(after(1, &[Update::insert(entry)], &[reason]).is_empty());
        }
    }

    #[test]
    fn how_much_has_to_be_met() {
        assert_eq!(cells().count(), 7 * 4 * 2 * 15 + 7 * 8);
    }
}
