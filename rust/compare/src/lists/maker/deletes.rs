//! What follows the keys of DELETEs, and batches that clean up.
//!
//! Document 02, request One: none of the bytes after the key of a DELETE is
//! looked at, so anything may be there.

use reference::bytes::{write, Entry, Head, Row, Update};

use super::{Aim, Maker};
use crate::lists::entries::{self, Spread};
use crate::lists::view::View;

impl Maker {
    /// The update; more than half of the DELETEs with something after their keys
    /// that no entry could have there.
    pub(super) fn littered(&mut self, view: &View, mut update: Update) -> Update {
        let row = view.row(update.entry.table);
        if let (3, Some(&row), true) = (update.kind, row, self.dice.percent(60)) {
            self.litter(view, &row, &mut update.entry);
        }
        update
    }

    fn litter(&mut self, view: &View, row: &Row, entry: &mut Entry) {
        if self.dice.percent(12) && self.borrow_action(view, row, entry) {
            return;
        }
        self.spoil(row, entry, |way| !way.is_of_key());
    }

    /// Gives the entry an action of another table that is not one of its own,
    /// with parameters that are in order there; false where none is found.
    pub(super) fn borrow_action(&mut self, view: &View, row: &Row, entry: &mut Entry) -> bool {
        for _ in 0..6 {
            let mut borrowed = *entry;
            if let Some(other) = self.dice.choose(&view.rows) {
                entries::act(&mut self.dice, other, &mut borrowed);
            }
            let own = entries::actions(row);
            if own.iter().all(|action| action.id != borrowed.action) {
                *entry = borrowed;
                return true;
            }
        }
        false
    }

    /// A WRITE of DELETEs, as a controller sends it that cleans up. Mostly one
    /// of them fails, in whatever way a DELETE can.
    pub(super) fn clean_up(&mut self, view: &View, aims: &mut Vec<Aim>) -> Vec<u8> {
        let head = self.cleaner(view);
        let is_own = |row: &Row| head.role == 0 || row.owner == head.role;
        let stored = view.entries.iter();
        let stored = stored.filter(|entry| view.row(entry.table).is_some_and(is_own));
        let mut stored: Vec<Entry> = stored.copied().collect();
        self.dice.shuffle(&mut stored);
        stored.truncate(self.dice.below(5));
        let deletes = stored.into_iter().map(Update::delete);
        let mut updates: Vec<Update> = deletes.map(|delete| self.littered(view, delete)).collect();
        if self.dice.percent(80) {
            let at = self.dice.below(updates.len() + 1);
            let failing = self.failing_delete(view, head.role, at, aims);
            updates.insert(at, failing);
        }
        write(head, self.dice.below(2) as u8, &updates)
    }

    /// Often a head of a role that does not own every table.
    fn cleaner(&mut self, view: &View) -> Head {
        let live: Vec<u8> = (1..8)
            .filter(|&role| view.primary(role).is_some())
            .collect();
        match self.dice.choose(&live) {
            Some(&role) if self.dice.percent(60) => self.primary_head(view, role),
            _ => self.speaker(view),
        }
    }

    /// A DELETE that fails by its table, by its key, or because no entry has it.
    fn failing_delete(&mut self, view: &View, role: u8, at: usize, aims: &mut Vec<Aim>) -> Update {
        let others = self.others_row(view, role);
        let own = self
            .own_row(view, role)
            .unwrap_or_else(|| self.row(view, role));
        let reason = self.dice.pick(&[15, 16, 16, 17, 18, 18, 19, 21]);
        let row = match others {
            Some(others) if reason == 16 => others,
            _ => own,
        };
        let mut entry = match reason {
            21 => entries::entry(&mut self.dice, &row, Spread::Wide),
            _ => self.entry(view, &row),
        };
        let aim = self.spoil(&row, &mut entry, |way| {
            way.is_of_key() && way.reason == reason
        });
        aims.extend(aim.map(|aim| aim.of(at)));
        let mut update = self.littered(view, Update::delete(entry));
        if reason == 15 {
            update.entry.table = self.unknown_table(entry.table);
        }
        update
    }
}
