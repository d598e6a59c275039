//! Configuring, writing and reading.

use reference::bytes::{configure, read_all, read_one, write, Entry, Head, Row, Update};

use super::{Aim, Maker, Mood};
use crate::lists::entries::{self, Sizes, Spread};
use crate::lists::view::View;
use crate::lists::ways::{self, EntryWay, ENTRY_WAYS, ROWS_WAYS};

impl Maker {
    /// Mostly the head of a live primary.
    pub(super) fn speaker(&mut self, view: &View) -> Head {
        let live: Vec<u8> = (0..8)
            .filter(|&role| view.primary(role).is_some())
            .filter(|&role| role == 0 || view.rows.iter().any(|row| row.owner == role))
            .collect();
        let role = match self.dice.below(10) {
            0..=5 if view.primary(0).is_some() => 0,
            0..=8 => self.dice.choose(&live).copied().unwrap_or(0),
            _ => self.dice.below(8) as u8,
        };
        if self.dice.percent(14) {
            return self.pretender(view, role);
        }
        self.primary_head(view, role)
    }

    /// A head that is close to that of the role's primary, and mostly not it.
    fn pretender(&mut self, view: &View, role: u8) -> Head {
        let head = self.primary_head(view, role);
        let mark = head.id;
        let backups: Vec<u128> = view
            .bound(role)
            .into_iter()
            .filter_map(|stream| view.id_of(stream))
            .collect();
        match self.dice.below(10) {
            0 => Head::unset(view.device, role),
            1 => Head {
                id: self.dice.choose(&backups).copied().unwrap_or(1),
                ..head
            },
            2 => Head {
                id: mark.saturating_add(1),
                ..head
            },
            3 => Head {
                id: (mark - 1).max(1),
                ..head
            },
            // The same low word, another high one.
            4 => Head {
                id: (mark ^ 1 << 64).max(1),
                ..head
            },
            5 => Head {
                role: self.dice.below(8) as u8,
                ..head
            },
            6 => {
                let role = self.dice.pick(&[8, 9, 128 | role, 255]);
                let device = self.device(view, role);
                Head {
                    device,
                    role,
                    ..head
                }
            }
            7 => Head {
                device: self.dice.pick(&[0, 1, 2, !view.device, view.device ^ 1]),
                ..head
            },
            _ => match self.dice.choose(&view.spoke) {
                Some(&once) => once,
                None => head,
            },
        }
    }

    pub(super) fn configure(&mut self, view: &View, aims: &mut Vec<Aim>) -> Vec<u8> {
        let head = match self.dice.below(8) {
            0 => self.pretender(view, 0),
            1 => {
                let role = self.dice.between(1, 7) as u8;
                self.primary_head(view, role)
            }
            _ => self.primary_head(view, 0),
        };
        let mut rows = self.rows(view);
        let spoilt = match self.mood {
            Mood::Ledger | Mood::Flood => 85,
            _ => 60,
        };
        if self.dice.percent(spoilt) {
            let way = &ROWS_WAYS[self.dice.below(ROWS_WAYS.len())];
            if (way.spoil)(&mut self.dice, &mut rows) {
                aims.push(Aim {
                    reason: 14,
                    name: way.name,
                    update: None,
                });
            }
        }
        configure(head, &rows)
    }

    /// New rows, or those in force, or those in force with a small change.
    pub(super) fn rows(&mut self, view: &View) -> Vec<Row> {
        if view.rows.is_empty() || self.dice.percent(50) {
            return entries::rows(&mut self.dice, self.sizes, &self.roles);
        }
        let mut rows = view.rows.clone();
        let at = self.dice.below(rows.len());
        match self.dice.below(6) {
            0 => rows[at].owner = self.dice.pick(&self.roles),
            1 => rows[at].size = self.dice.between(1, usize::from(rows[at].size)) as u16,
            2 => self.dice.shuffle(&mut rows),
            3 if rows.len() > 1 => {
                rows.remove(at);
            }
            _ => {}
        }
        rows
    }

    pub(super) fn write(&mut self, view: &View, aims: &mut Vec<Aim>) -> Vec<u8> {
        // The first time that the store is full, and now and then later.
        if view.entries.len() == 256 && (!self.was_full || self.dice.percent(12)) {
            self.was_full = true;
            let frames = self.full_store(view);
            if let Some(frame) = self.tell(frames) {
                return frame;
            }
        }
        if let Some(frame) = self.planned(view, aims) {
            return frame;
        }
        let head = self.speaker(view);
        let plain = if view.rows.is_empty() { 4 } else { 40 };
        let atomicity = match self.dice.below(plain) {
            0 => 2,
            1 | 2 => 1,
            _ => 0,
        };
        let count = match atomicity {
            2 if self.dice.percent(20) => 0,
            _ => self.batch(view),
        };
        let updates: Vec<Update> = (0..count)
            .map(|at| self.update(view, head.role, at, aims))
            .collect();
        write(head, atomicity, &updates)
    }

    /// A WRITE that is planned as a whole, if it is to be one.
    fn planned(&mut self, view: &View, aims: &mut Vec<Aim>) -> Option<Vec<u8>> {
        if view.rows.is_empty() {
            return None;
        }
        let flood = self.mood == Mood::Flood;
        let filling = flood && view.entries.len() <= 200;
        if self.dice.percent(if filling { 8 } else { 25 }) {
            return Some(self.atomic(view, aims));
        }
        if filling {
            return None;
        }
        if flood && self.dice.percent(10) {
            return Some(self.fill_up(view));
        }
        if self.dice.percent(15) {
            return Some(self.clean_up(view, aims));
        }
        // Few in a list that is to fill the store: they take entries out of it.
        let padded = if flood { 8 } else { 25 };
        self.dice.percent(padded).then(|| self.padded(view))
    }

    /// A WRITE of new entries for all the room that there is, up to 64.
    fn fill_up(&mut self, view: &View) -> Vec<u8> {
        let mut updates = Vec::new();
        for row in &view.rows {
            let room = usize::from(row.size).saturating_sub(view.held(row.table));
            for _ in 0..room.min(64 - updates.len()) {
                let entry = entries::entry(&mut self.dice, row, Spread::Wide);
                updates.push(Update::insert(entry));
            }
        }
        write(self.primary_head(view, 0), 0, &updates)
    }

    /// How many updates a WRITE has.
    fn batch(&mut self, view: &View) -> usize {
        let full = view.entries.len() > 200;
        match (self.mood, self.dice.below(100)) {
            (Mood::Flood, 0..=50) if !full => 64,
            (_, 0..=2) => 0,
            (_, 3..=40) => 1,
            (_, 41..=75) => self.dice.between(2, 4),
            (_, 76..=96) => self.dice.between(5, 12),
            (_, 97..=98) => self.dice.between(13, 40),
            _ => 64,
        }
    }

    pub(super) fn update(
        &mut self,
        view: &View,
        role: u8,
        at: usize,
        aims: &mut Vec<Aim>,
    ) -> Update {
        let row = self.row(view, role);
        let mut entry = self.entry(view, &row);
        let kind = self.kind(view, &entry);
        if self.dice.percent(16) {
            let aim = self.spoil_for(view, kind, &row, &mut entry);
            aims.extend(aim.map(|aim| aim.of(at)));
            // Two at once: the order of refusals shows.
            if self.dice.percent(25) {
                self.spoil_for(view, kind, &row, &mut entry);
                aims.retain(|aim| aim.update != Some(at));
            }
        } else {
            self.remember(entry);
            if self.dice.percent(40) {
                entries::pad(&mut self.dice, &mut entry);
            }
        }
        let mut update = self.littered(view, Update { kind, entry });
        match self.dice.below(40) {
            0 => self.mistype(&mut update, at, aims),
            1 => update.entry.table = self.unknown_table(update.entry.table),
            _ => {}
        }
        update
    }

    /// Gives the update a type that there is not.
    pub(super) fn mistype(&mut self, update: &mut Update, at: usize, aims: &mut Vec<Aim>) {
        update.kind = self.dice.pick(&ways::TYPES);
        aims.retain(|aim| aim.update != Some(at));
        aims.push(Aim {
            reason: 17,
            name: ways::TYPE_WAY,
            update: Some(at),
        });
    }

    /// Mostly a row that the role may write.
    pub(super) fn row(&mut self, view: &View, role: u8) -> Row {
        let own: Vec<Row> = view
            .rows
            .iter()
            .filter(|row| role == 0 || row.owner == role)
            .copied()
            .collect();
        let from = if self.dice.percent(85) {
            &own
        } else {
            &view.rows
        };
        match self.dice.choose(from).or(view.rows.first()) {
            Some(&row) => row,
            None => entries::rows(&mut self.dice, Sizes::Tiny, &[0])[0],
        }
    }

    /// An entry of the row: one that is present, that was, that was made
    /// lately, or a new one.
    pub(super) fn entry(&mut self, view: &View, row: &Row) -> Entry {
        let present: Vec<&Entry> = of_table(&view.entries, row.table);
        let gone: Vec<&Entry> = of_table(&view.gone, row.table);
        let known = match (self.mood, self.dice.below(100)) {
            (Mood::Flood, 0..=69) if present.len() < usize::from(row.size) => None,
            (_, 0..=44) => self.dice.choose(&present).map(|entry| **entry),
            (_, 45..=54) => self.dice.choose(&gone).map(|entry| **entry),
            (_, 55..=69) => {
                let lately: Vec<&Entry> = self
                    .recent
                    .iter()
                    .filter(|entry| entry.table == row.table)
                    .collect();
                self.dice.choose(&lately).map(|entry| **entry)
            }
            _ => None,
        };
        match known {
            Some(mut entry) => {
                if self.dice.percent(70) {
                    entries::act(&mut self.dice, row, &mut entry);
                }
                // One that differs in its priority only.
                if entries::is_prioritised(row) && self.dice.percent(8) {
                    entry.key.priority = self.dice.pick(&[1, 2, 3, 0x7fff_ffff]);
                }
                entry
            }
            None => entries::entry(&mut self.dice, row, self.spread),
        }
    }

    /// INSERT what is not there, change what is; sometimes the other way round.
    fn kind(&mut self, view: &View, entry: &Entry) -> u8 {
        let weights = match (view.place(entry).is_some(), self.mood) {
            (true, Mood::Flood) => [30, 50, 20],
            (true, _) => [25, 40, 35],
            (false, Mood::Flood) => [96, 2, 2],
            (false, _) => [80, 10, 10],
        };
        1 + self.dice.weighted(&weights) as u8
    }

    fn remember(&mut self, entry: Entry) {
        if self.recent.len() == 24 {
            self.recent.pop_front();
        }
        self.recent.push_back(entry);
    }

    /// Breaks one rule of an update's entry, if one is found that applies. Of a
    /// DELETE only the key has rules.
    pub(super) fn spoil_for(
        &mut self,
        view: &View,
        kind: u8,
        row: &Row,
        entry: &mut Entry,
    ) -> Option<Aim> {
        if kind == 3 {
            return self.spoil(row, entry, EntryWay::is_of_key);
        }
        if self.dice.percent(5) && self.borrow_action(view, row, entry) {
            return None;
        }
        self.spoil(row, entry, |_| true)
    }

    /// Breaks one rule of an entry, if one is found that applies.
    pub(super) fn spoil(
        &mut self,
        row: &Row,
        entry: &mut Entry,
        wanted: impl Fn(&EntryWay) -> bool,
    ) -> Option<Aim> {
        let wanted: Vec<&EntryWay> = ENTRY_WAYS.iter().filter(|way| wanted(way)).collect();
        for _ in 0..12 {
            let way = self.dice.choose(&wanted)?;
            if let Some(spoilt) = way.spoil(&mut self.dice, row, entry) {
                *entry = spoilt;
                return Some(Aim {
                    reason: way.reason,
                    name: way.name,
                    update: None,
                });
            }
        }
        None
    }

    pub(super) fn unknown_table(&mut self, table: u32) -> u32 {
        let low = table & 0x00ff_ffff;
        self.dice
            .pick(&[0, low, 0x0100_0000 | low, 0x0200_0099, table ^ 0x0001_0000])
    }

    pub(super) fn read(&mut self, view: &View, aims: &mut Vec<Aim>) -> Vec<u8> {
        let role = match self.dice.below(10) {
            0..=5 => 0,
            _ => self.any_role(),
        };
        let device = self.device(view, role);
        let row = self.row(view, role);
        let table = if self.dice.percent(4) {
            self.unknown_table(row.table)
        } else {
            row.table
        };
        match self.dice.below(100) {
            0..=24 => read_all(device, role, 0),
            25..=44 => read_all(device, role, table),
            45..=62 => self
                .padded_read(view, device, role)
                .unwrap_or_else(|| read_all(device, role, table)),
            63..=79 => {
                let mut entry = self.entry(view, &row);
                if self.dice.percent(50) {
                    entries::pad(&mut self.dice, &mut entry);
                }
                read_one(device, role, table, entry.key)
            }
            _ => {
                let mut entry = self.entry(view, &row);
                aims.extend(self.spoil(&row, &mut entry, EntryWay::is_of_key));
                if self.dice.percent(25) {
                    self.spoil(&row, &mut entry, EntryWay::is_of_key);
                    aims.clear();
                }
                read_one(device, role, table, entry.key)
            }
        }
    }
}

/// The entries of one table.
pub(super) fn of_table(entries: &[Entry], table: u32) -> Vec<&Entry> {
    entries
        .iter()
        .filter(|entry| entry.table == table)
        .collect()
}
