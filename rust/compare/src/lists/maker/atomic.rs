//! Batches with atomicity 1, planned so that they get as far as they are meant
//! to.
//!
//! A batch drawn at random fails early. A [`Plan`] keeps the entries as its
//! updates so far would leave them, so that a batch has updates that pass, one
//! after the other and mostly of few keys, then mostly one that fails, then
//! any.

use reference::bytes::{write, Entry, Row, Update};

use super::{Aim, Maker};
use crate::lists::entries::{self, Spread};
use crate::lists::view::{held, place, short_entry, take_effect, View};

/// A batch in the making.
pub(super) struct Plan {
    pub(super) updates: Vec<Update>,
    /// Where it is meant to fail.
    pub(super) fails_at: Option<usize>,
    /// The entries as the updates so far would leave them.
    entries: Vec<Entry>,
}

impl Plan {
    fn has(&self, entry: &Entry) -> bool {
        place(&self.entries, entry).is_some()
    }

    fn is_full(&self, row: &Row) -> bool {
        held(&self.entries, row.table) >= usize::from(row.size)
    }
}

impl Maker {
    /// A WRITE with atomicity 1.
    pub(super) fn atomic(&mut self, view: &View, aims: &mut Vec<Aim>) -> Vec<u8> {
        let head = self.speaker(view);
        let fails = self.dice.percent(70);
        let plan = self.plan(view, head.role, fails, aims);
        write(head, 1, &plan.updates)
    }

    /// The updates of such a batch.
    pub(super) fn plan(&mut self, view: &View, role: u8, fails: bool, aims: &mut Vec<Aim>) -> Plan {
        let mut plan = Plan {
            updates: Vec::new(),
            fails_at: None,
            entries: view.entries.clone(),
        };
        self.passing(view, role, &mut plan);
        if !fails {
            return plan;
        }
        let at = plan.updates.len();
        let failing = self.failing(view, role, &plan, aims);
        let failing = self.littered(view, failing);
        plan.updates.push(failing);
        plan.fails_at = Some(at);
        let after = match self.dice.below(40) {
            0 => 63 - at,
            1..=12 => 0,
            _ => self.dice.between(1, 4).min(63 - at),
        };
        for at in at + 1..=at + after {
            let update = self.untried(view, role, at, aims);
            plan.updates.push(update);
        }
        plan
    }

    /// Updates that pass, each after those before it.
    fn passing(&mut self, view: &View, role: u8, plan: &mut Plan) {
        let count = match self.dice.below(100) {
            0..=19 => 0,
            20..=84 => self.dice.between(1, 6),
            85..=96 => self.dice.between(7, 20),
            _ => 63,
        };
        let keys: Vec<(Row, Entry)> = (0..self.dice.between(1, 4))
            .filter_map(|_| {
                let row = self.own_row(view, role)?;
                Some((row, self.entry(view, &row)))
            })
            .collect();
        for _ in 0..count {
            let Some(&(row, mut entry)) = self.dice.choose(&keys) else {
                return;
            };
            let kind = match (plan.has(&entry), plan.is_full(&row)) {
                (true, _) => self.dice.pick(&[2, 2, 3]),
                (false, false) => 1,
                (false, true) => {
                    // One goes, so that there is room.
                    let held = plan.entries.iter().filter(|e| e.table == row.table);
                    let held: Vec<Entry> = held.copied().collect();
                    entry = self.dice.pick(&held);
                    3
                }
            };
            if self.dice.percent(70) {
                entries::act(&mut self.dice, &row, &mut entry);
            }
            take_effect(&mut plan.entries, kind, entry);
            if self.dice.percent(30) {
                entries::pad(&mut self.dice, &mut entry);
            }
            let update = self.littered(view, Update { kind, entry });
            plan.updates.push(update);
        }
    }

    /// A row that the role may write.
    pub(super) fn own_row(&mut self, view: &View, role: u8) -> Option<Row> {
        let own = view.rows.iter();
        let own: Vec<&Row> = own.filter(|row| role == 0 || row.owner == role).collect();
        self.dice.choose(&own).map(|row| **row)
    }

    /// An update that fails after those of the plan: by the entries, by its
    /// form, by its table.
    fn failing(&mut self, view: &View, role: u8, plan: &Plan, aims: &mut Vec<Aim>) -> Update {
        let at = plan.updates.len();
        let Some(row) = self.own_row(view, role) else {
            return self.update(view, role, at, aims);
        };
        let fresh = entries::entry(&mut self.dice, &row, Spread::Wide);
        let touched = self.touched(view, plan).unwrap_or(fresh);
        let others = self.others_row(view, role);
        match (self.dice.below(10), others) {
            // There already, or not there: often by what the plan did.
            (0..=2, _) if plan.has(&touched) => Update::insert(touched),
            (0..=2, _) => Update {
                kind: self.dice.pick(&[2, 3]),
                entry: touched,
            },
            (3..=4, _) => self.one_too_many(view, role, plan).unwrap_or_else(|| {
                let stored = self.dice.choose(&plan.entries);
                Update::insert(stored.copied().unwrap_or(fresh))
            }),
            (5..=6, Some(row)) => Update {
                kind: self.dice.between(1, 3) as u8,
                entry: entries::entry(&mut self.dice, &row, self.spread),
            },
            (6, None) => self.untried(view, role, at, aims),
            _ => {
                let kind = self.dice.between(1, 3) as u8;
                let entry = if plan.has(&touched) { touched } else { fresh };
                self.spoilt(view, Update { kind, entry }, at, aims)
            }
        }
    }

    /// An entry of a key that the plan has changed, with an action of its row.
    fn touched(&mut self, view: &View, plan: &Plan) -> Option<Entry> {
        let mut entry = short_entry(self.dice.choose(&plan.updates)?.entry);
        entries::act(&mut self.dice, view.row(entry.table)?, &mut entry);
        Some(entry)
    }

    /// A row that the role may not write.
    pub(super) fn others_row(&mut self, view: &View, role: u8) -> Option<Row> {
        let others = view.rows.iter();
        let others: Vec<&Row> = others
            .filter(|row| role != 0 && row.owner != role)
            .collect();
        self.dice.choose(&others).map(|row| **row)
    }

    /// An INSERT into a table that the plan has left full.
    fn one_too_many(&mut self, view: &View, role: u8, plan: &Plan) -> Option<Update> {
        let rows = view.rows.iter();
        let full: Vec<&Row> = rows
            .filter(|row| (role == 0 || row.owner == role) && plan.is_full(row))
            .collect();
        let row = self.dice.choose(&full)?;
        let entry = entries::entry(&mut self.dice, row, Spread::Wide);
        Some(Update::insert(entry))
    }

    /// An update for after the failed one, often malformed.
    fn untried(&mut self, view: &View, role: u8, at: usize, aims: &mut Vec<Aim>) -> Update {
        let mut update = self.update(view, role, at, aims);
        match self.dice.below(10) {
            0 => self.mistype(&mut update, at, aims),
            1 => update.entry.table = self.unknown_table(update.entry.table),
            2..=4 => update = self.spoilt(view, update, at, aims),
            _ => {}
        }
        update
    }

    /// The update with one rule of its entry broken; as it is where its table is
    /// unknown.
    fn spoilt(&mut self, view: &View, update: Update, at: usize, aims: &mut Vec<Aim>) -> Update {
        let Update { kind, mut entry } = update;
        let Some(&row) = view.row(entry.table) else {
            return update;
        };
        aims.retain(|aim| aim.update != Some(at));
        let aim = self.spoil_for(view, kind, &row, &mut entry);
        aims.extend(aim.map(|aim| aim.of(at)));
        Update { kind, entry }
    }
}
