//! What is stored: one list of entries for each configured table.
//!
//! An entry gets a number when it is inserted, higher than any before it. A
//! table's list is in order of these numbers, and its index leads from a key to
//! the number rather than to a place, so that closing the gap of a DELETE
//! leaves the index alone.

use std::collections::hash_map;
use std::collections::HashMap;

use crate::answer::Answer;
use crate::entry::{self, Deed, Key, ENTRY};
use crate::frame::{KEY, UPDATE};
use crate::reason::Reason;
use crate::rows::Row;

/// What an update does.
#[derive(Clone, Copy, Debug, PartialEq, Eq)]
pub enum Change {
    Insert,
    Modify,
    Delete,
}

impl Change {
    fn read(number: u8) -> Result<Change, Reason> {
        match number {
            1 => Ok(Change::Insert),
            2 => Ok(Change::Modify),
            3 => Ok(Change::Delete),
            _ => Err(Reason::BadForm),
        }
    }
}

/// A stored entry, in shortest form.
#[derive(Clone, Debug)]
struct Stored {
    number: u64,
    image: [u8; ENTRY],
}

/// One table with its entries in order of insertion.
#[derive(Clone, Debug)]
pub struct Table {
    row: Row,
    entries: Vec<Stored>,
    index: HashMap<Key, u64>,
}

impl Table {
    fn new(row: Row) -> Table {
        Table {
            entries: Vec::with_capacity(row.size),
            index: HashMap::with_capacity(row.size),
            row,
        }
    }

    /// 20, then 22. The sizes of all tables add to at most 256, so what passes
    /// has room in the store (document 02, request Five).
    fn insert(&mut self, key: Key, deed: &Deed, number: u64) -> Result<(), Reason> {
        let hash_map::Entry::Vacant(place) = self.index.entry(key) else {
            return Err(Reason::KeyPresent);
        };
        if self.entries.len() >= self.row.size {
            return Err(Reason::TableFull);
        }
        place.insert(number);
        self.entries.push(Stored {
            number,
            image: entry::image(self.row.table, &key, deed),
        });
        Ok(())
    }

    /// Replaces action and parameters in the entry's place.
    fn modify(&mut self, key: &Key, deed: &Deed) -> Result<(), Reason> {
        let number = *self.index.get(key).ok_or(Reason::KeyAbsent)?;
        let place = self.place(number);
        entry::replace_deed(&mut self.entries[place].image, deed);
        Ok(())
    }

    /// Removes the entry and closes the gap.
    fn delete(&mut self, key: &Key) -> Result<(), Reason> {
        let number = self.index.remove(key).ok_or(Reason::KeyAbsent)?;
        let place = self.place(number);
        self.entries.remove(place);
        Ok(())
    }

    fn place(&self, number: u64) -> usize {
        self.entries
            .binary_search_by_key(&number, |stored| stored.number)
            .expect("the index names stored entries only")
    }

    /// Writes all entries as records.
    fn write_all(&self, answer: &mut Answer<'_>) {
        for stored in &self.entries {
            answer.record(&stored.image);
        }
    }

    /// Writes the entry of the key as a record, if there is one.
    fn write_one(&self, key: &Key, answer: &mut Answer<'_>) {
        if let Some(&number) = self.index.get(key) {
            answer.record(&self.entries[self.place(number)].image);
        }
    }
}

/// All tables of a configuration, by row.
#[derive(Clone, Debug)]
pub struct Tables {
    tables: Vec<Table>,
    next_number: u64,
}

impl Tables {
    /// Empty tables for the rows.
    pub fn new(rows: Vec<Row>) -> Tables {
        Tables {
            tables: rows.into_iter().map(Table::new).collect(),
            next_number: 0,
        }
    }

    /// Carries out one update for a role, or says why not. The order: 17 for
    /// the type, 15, 16, 17, 18, 19, then 20 and 22, or 21.
    ///
    /// INSERT and MODIFY are checked as whole entries. Of a DELETE nothing is
    /// looked at but table and key (document 02, request One).
    pub fn update(&mut self, role: u8, update: &[u8; UPDATE]) -> Result<(), Reason> {
        let change = Change::read(update[0])?;
        let bytes: &[u8; ENTRY] = update[1..]
            .first_chunk()
            .expect("an entry follows the type");
        let number = self.next_number;
        let at = self.find(role, entry::table_of(bytes))?;
        let table = &mut self.tables[at];
        match change {
            Change::Insert => {
                let (key, deed) = entry::judge(&table.row, bytes)?;
                table.insert(key, &deed, number)?;
                self.next_number += 1;
                Ok(())
            }
            Change::Modify => {
                let (key, deed) = entry::judge(&table.row, bytes)?;
                table.modify(&key, &deed)
            }
            Change::Delete => {
                let key = Key::judge(&table.row, entry::key_of(bytes))?;
                table.delete(&key)
            }
        }
    }

    /// Writes the entries of every table the role may write.
    pub fn read_every_table(&self, role: u8, answer: &mut Answer<'_>) {
        for table in self.tables.iter().filter(|table| table.row.open_to(role)) {
            table.write_all(answer);
        }
    }

    /// Writes the entries of a named table.
    pub fn read_table(&self, role: u8, id: u32, answer: &mut Answer<'_>) -> Result<(), Reason> {
        self.tables[self.find(role, id)?].write_all(answer);
        Ok(())
    }

    /// Writes the entry of a key in a named table; an absent key gives none.
    pub fn read_entry(
        &self,
        role: u8,
        id: u32,
        key: &[u8; KEY],
        answer: &mut Answer<'_>,
    ) -> Result<(), Reason> {
        let table = &self.tables[self.find(role, id)?];
        let key = Key::judge(&table.row, key)?;
        table.write_one(&key, answer);
        Ok(())
    }

    /// 15, then 16; otherwise where the table stands.
    fn find(&self, role: u8, id: u32) -> Result<usize, Reason> {
        let at = self
            .tables
            .iter()
            .position(|table| table.row.table == id)
            .ok_or(Reason::UnknownTable)?;
        if !self.tables[at].row.open_to(role) {
            return Err(Reason::NotOwned);
        }
        Ok(at)
    }

    /// All entries in order of insertion, over all tables.
    pub fn image(&self) -> Vec<u8> {
        let mut all: Vec<&Stored> = self
            .tables
            .iter()
            .flat_map(|table| &table.entries)
            .collect();
        all.sort_unstable_by_key(|stored| stored.number);
        all.iter().flat_map(|stored| stored.image).collect()
    }
}
