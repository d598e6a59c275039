//! Keys that are padded, and keys that are nearly those of a stored entry.
//!
//! Document 02, request Four: a key is compared with a stored one where they
//! lie, and is the same exactly when their shortest forms are. So keys are
//! looked up with any number of zero bytes before any of their values, and
//! keys that differ from a stored one in as little as possible.

use reference::bytes::{kind, read_one, write, Entry, Row, Slot, Update, Value};

use super::writing::of_table;
use super::Maker;
use crate::lists::digits::{move_digit, nearly, number, pad_key, WAYS};
use crate::lists::entries::{self, Spread};
use crate::lists::view::View;

/// How likely it is that a key differs in its table, its priority, a slot that
/// is omitted, one that is not, the place of a digit, and a value in each of
/// its [`WAYS`].
const CHANGES: [usize; 5 + WAYS] = [2, 2, 2, 5, 3, 2, 3, 2, 2, 2, 2, 2, 6, 8];

impl Maker {
    /// A WRITE of updates whose keys are padded; READs of such keys are due
    /// after it.
    pub(super) fn padded(&mut self, view: &View) -> Vec<u8> {
        let head = self.speaker(view);
        let updates: Vec<Update> = (0..self.dice.between(1, 12))
            .filter_map(|_| self.padded_update(view, head.role))
            .collect();
        let reads: Vec<Vec<u8>> = (0..self.dice.below(4))
            .filter_map(|_| self.padded_read(view, view.device, head.role))
            .collect();
        self.due.extend(reads);
        let atomic = self.dice.percent(10);
        write(head, u8::from(atomic), &updates)
    }

    /// A READ of a key that is padded; none where the role has no table.
    pub(super) fn padded_read(&mut self, view: &View, device: u64, role: u8) -> Option<Vec<u8>> {
        let mut entry = self.looked_up(view, role)?;
        pad_key(&mut self.dice, &mut entry.key);
        Some(read_one(device, role, entry.table, entry.key))
    }

    fn padded_update(&mut self, view: &View, role: u8) -> Option<Update> {
        let mut entry = self.looked_up(view, role)?;
        let kind = self.dice.between(1, 3) as u8;
        entries::act(&mut self.dice, view.row(entry.table)?, &mut entry);
        pad_key(&mut self.dice, &mut entry.key);
        Some(self.littered(view, Update { kind, entry }))
    }

    /// An entry to be looked up: one that is stored, one that nearly is, or a
    /// new one; mostly of a table whose keys have many values. Its key is in
    /// shortest form.
    fn looked_up(&mut self, view: &View, role: u8) -> Option<Entry> {
        let drawn: Vec<Row> = (0..3).filter_map(|_| self.own_row(view, role)).collect();
        let row = drawn.into_iter().max_by_key(values)?;
        let held = of_table(&view.entries, row.table);
        let stored = self.dice.choose(&held).map(|entry| **entry);
        Some(match (stored, self.dice.below(100)) {
            (Some(stored), 0..=44) => stored,
            (Some(stored), 45..=89) => self.nearly(view, &row, stored),
            _ => entries::entry(&mut self.dice, &row, Spread::Long),
        })
    }

    /// An entry that differs in its table, or in one part of its key; as it is
    /// where none is found that is allowed.
    fn nearly(&mut self, view: &View, row: &Row, entry: Entry) -> Entry {
        for _ in 0..6 {
            let change = self.dice.weighted(&CHANGES);
            // What is meant may be allowed for few of the values.
            for _ in 0..6 {
                let mut other = entry;
                let place = self.dice.below(entries::fields(row).len());
                let (field, slot) = (row.fields[place], &mut other.key.slots[place]);
                match change {
                    0 => other.table = self.twin_table(view, row),
                    1 => other.key.priority ^= 1 << self.dice.below(31),
                    2 => *slot = Slot::OMITTED,
                    3 => self.fill(field, slot),
                    4 => move_digit(&mut self.dice, &mut other.key),
                    _ => self.alter(slot, change - 5),
                }
                if other != entry && entries::allows(row, &other.key) {
                    return other;
                }
            }
        }
        entry
    }

    /// A table with the same fields, if there is one beside the row's own.
    fn twin_table(&mut self, view: &View, row: &Row) -> u32 {
        let twins = view.rows.iter().filter(|other| other.fields == row.fields);
        let twins: Vec<&Row> = twins.filter(|other| other.table != row.table).collect();
        self.dice.choose(&twins).map_or(row.table, |row| row.table)
    }

    /// Fills a slot that is omitted, with zeros where the field allows them.
    fn fill(&mut self, (kind, width): (u8, u8), slot: &mut Slot) {
        *slot = match kind {
            _ if *slot != Slot::OMITTED => return,
            kind::OPTIONAL if self.dice.percent(70) => Slot::optional(0),
            kind::RANGE if self.dice.percent(70) => Slot::range(0, 0),
            _ => entries::present_slot(&mut self.dice, (kind, width), Spread::Narrow),
        };
    }

    /// Gives a slot that is present another value, close to the one it has.
    fn alter(&mut self, slot: &mut Slot, way: usize) {
        let value = if self.dice.percent(30) {
            &mut slot.first
        } else {
            &mut slot.second
        };
        if *value != Value::NONE {
            *value = Value::of(nearly(&mut self.dice, way, number(value)));
        }
    }
}

/// How many values the keys of a row have.
fn values(row: &Row) -> usize {
    let paired = |kind| matches!(kind, kind::LPM | kind::TERNARY | kind::RANGE);
    let fields = entries::fields(row).iter();
    fields.map(|&(kind, _)| 1 + usize::from(paired(kind))).sum()
}
