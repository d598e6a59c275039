//! Stories: several calls that belong together.

use reference::bytes::{
    arbitrate, close, configure, open, read_all, read_one, write, Head, Row, Update,
};

use super::writing::of_table;
use super::Maker;
use crate::lists::entries::{self, Spread};
use crate::lists::view::View;

impl Maker {
    /// The first frame of a story; the others are due after it.
    pub(super) fn story(&mut self, view: &View) -> Vec<u8> {
        let role = self.dice.pick(&self.roles);
        let frames = match self.dice.below(8) {
            0 | 1 => self.old_primary_comes_back(view, role),
            2 => self.failover(view, role),
            3 => self.crowd(view, role),
            4 => self.same_rows_again(view),
            5 => self.full_table(view),
            _ => self.rolled_back(view, role),
        };
        self.tell(frames).unwrap_or_else(|| self.open(view))
    }

    /// The first of some frames, if there is one; the others are due after it.
    pub(super) fn tell(&mut self, frames: Vec<Vec<u8>>) -> Option<Vec<u8>> {
        self.due.extend(frames);
        self.due.pop_front()
    }

    /// A new controller takes over, writes, steps back and leaves; the old
    /// one sends its last batch again.
    fn old_primary_comes_back(&mut self, view: &View, role: u8) -> Vec<Vec<u8>> {
        let (Some(old), Some(&stream)) = (view.primary(role), self.dice.choose(&view.closed()))
        else {
            return Vec::new();
        };
        let device = view.device;
        let mark = view.mark(role).unwrap_or(1);
        let higher = mark.saturating_add(1);
        let (head, new) = (
            Head::set(device, role, mark),
            Head::set(device, role, higher),
        );
        let updates: Vec<Update> = (0..2)
            .map(|at| self.update(view, role, at, &mut Vec::new()))
            .collect();
        let batch = write(head, 0, &updates);
        let mut frames = vec![batch.clone(), open(stream), arbitrate(stream, new)];
        frames.push(batch.clone());
        let changed: Vec<Update> = updates
            .iter()
            .map(|update| Update { kind: 2, ..*update })
            .collect();
        frames.push(write(new, 0, &changed));
        if self.dice.percent(70) {
            let lower = mark.saturating_sub(1).max(1);
            frames.push(arbitrate(stream, Head::set(device, role, lower)));
        }
        if self.dice.percent(70) {
            frames.push(close(stream));
        }
        frames.push(batch.clone());
        frames.push(write(new, 0, &changed));
        if self.dice.percent(50) {
            frames.push(arbitrate(old, new));
            frames.push(batch);
            frames.push(write(new, 0, &updates));
        }
        frames.push(read_all(device, 0, 0));
        frames
    }

    /// The primary leaves; a backup asks for less, then for enough.
    fn failover(&mut self, view: &View, role: u8) -> Vec<Vec<u8>> {
        let Some(primary) = view.primary(role) else {
            return Vec::new();
        };
        let device = view.device;
        let mark = view.mark(role).unwrap_or(1);
        let others: Vec<u8> = view
            .bound(role)
            .into_iter()
            .filter(|&stream| stream != primary)
            .collect();
        let head = Head::set(device, role, mark);
        let mut frames = vec![close(primary), write(head, 0, &[])];
        if let Some(&backup) = self.dice.choose(&others) {
            let lower = mark.saturating_sub(1).max(1);
            frames.push(arbitrate(backup, Head::set(device, role, lower)));
            frames.push(arbitrate(backup, head));
            frames.push(write(head, 0, &[]));
        }
        frames.push(open(primary));
        frames.push(arbitrate(primary, Head::unset(device, role)));
        frames.push(arbitrate(primary, head));
        frames
    }

    /// Nine streams for a role, with and without ids.
    fn crowd(&mut self, view: &View, role: u8) -> Vec<Vec<u8>> {
        let device = view.device;
        let missing = 9usize.saturating_sub(view.bound(role).len());
        let mark = view.mark(role).unwrap_or(0);
        let mut frames = Vec::new();
        for &stream in view.closed().iter().take(missing) {
            frames.push(open(stream));
            let lower = 1 + self.dice.wide() % mark.saturating_add(1);
            let head = match self.dice.below(4) {
                0 => Head::set(device, role, lower),
                1 => Head::set(device, role, mark.saturating_add(1)),
                _ => Head::unset(device, role),
            };
            frames.push(arbitrate(stream, head));
        }
        frames
    }

    /// The rows in force are sent again.
    fn same_rows_again(&mut self, view: &View) -> Vec<Vec<u8>> {
        if view.rows.is_empty() {
            return Vec::new();
        }
        let head = self.primary_head(view, 0);
        let mut frames = vec![configure(head, &view.rows), read_all(view.device, 0, 0)];
        if let Some(batch) = view.batches.last() {
            frames.push(batch.clone());
        }
        frames
    }

    /// A table at its size: one too many, one out, one in, one too many.
    fn full_table(&mut self, view: &View) -> Vec<Vec<u8>> {
        let full: Vec<&Row> = view
            .rows
            .iter()
            .filter(|row| view.held(row.table) == usize::from(row.size))
            .collect();
        let Some(&&row) = self.dice.choose(&full) else {
            return Vec::new();
        };
        let held = of_table(&view.entries, row.table);
        let Some(&&stored) = self.dice.choose(&held) else {
            return Vec::new();
        };
        let fresh = entries::entry(&mut self.dice, &row, Spread::Wide);
        let other = entries::entry(&mut self.dice, &row, Spread::Wide);
        let updates = [
            Update::insert(fresh),
            Update::insert(stored),
            Update::delete(stored),
            Update::insert(fresh),
            Update::insert(other),
            Update::delete(fresh),
            Update::insert(stored),
        ];
        let head = self.primary_head(view, 0);
        vec![
            write(head, 0, &updates),
            read_all(view.device, 0, row.table),
        ]
    }

    /// A full store of several tables: one out, one too many in another table,
    /// one in. In one WRITE, in several, and in atomic batches, which are rolled
    /// back but for that without the one too many.
    pub(super) fn full_store(&mut self, view: &View) -> Vec<Vec<u8>> {
        let Some(&stored) = self.dice.choose(&view.entries) else {
            return Vec::new();
        };
        let others = view.rows.iter().filter(|row| row.table != stored.table);
        let others: Vec<Row> = others.copied().collect();
        let (Some(row), Some(other)) = (view.row(stored.table), self.dice.choose(&others)) else {
            return Vec::new();
        };
        let fresh = entries::entry(&mut self.dice, row, Spread::Wide);
        let too_many = entries::entry(&mut self.dice, other, Spread::Wide);
        let (out, one_in) = (Update::delete(stored), Update::insert(fresh));
        let too_many = Update::insert(too_many);
        let head = self.primary_head(view, 0);
        let batches: [(u8, &[Update]); 7] = [
            (0, &[too_many, out, too_many, one_in]),
            // And back.
            (0, &[Update::delete(fresh)]),
            (0, &[too_many]),
            (0, &[Update::insert(stored)]),
            (1, &[too_many]),
            (1, &[out, too_many, one_in]),
            (1, &[out, one_in]),
        ];
        let mut frames: Vec<Vec<u8>> = batches
            .iter()
            .map(|(atomicity, updates)| write(head, *atomicity, updates))
            .collect();
        frames.push(read_all(view.device, 0, 0));
        frames
    }

    /// READs, a batch that is rolled back, the same READs; then the batch as
    /// far as it came, or under another atomicity.
    fn rolled_back(&mut self, view: &View, role: u8) -> Vec<Vec<u8>> {
        if view.rows.is_empty() || view.primary(role).is_none() {
            return Vec::new();
        }
        let head = self.primary_head(view, role);
        let plan = self.plan(view, role, true, &mut Vec::new());
        let mut reads = vec![read_all(view.device, 0, 0)];
        for update in plan.updates.iter().take(3) {
            let entry = update.entry;
            reads.push(read_one(view.device, role, entry.table, entry.key));
            reads.push(read_all(view.device, role, entry.table));
        }
        let mut frames = reads.clone();
        frames.push(write(head, 1, &plan.updates));
        frames.extend(reads.iter().cloned());
        let passing = plan.fails_at.unwrap_or(0);
        match self.dice.below(4) {
            0 => return frames,
            1 => frames.push(write(head, 0, &plan.updates)),
            2 => frames.push(write(head, 2, &plan.updates)),
            _ => frames.push(write(head, 1, &plan.updates[..passing])),
        }
        frames.extend(reads);
        frames
    }
}
