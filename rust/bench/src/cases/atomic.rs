//! Batches with atomicity 1 (document 02, request Two), each beside the plain one with the same
//! updates.

use reference::bytes::{self, Entry, Update};

use super::keys::TABLE;
use super::state::{batch, primary, stored, BATCH};
use super::{Case, Frame, Keys, FULL};

/// The port of the stored entries, and the one that a MODIFY gives them.
const OLD: u128 = 7;
const NEW: u128 = 8;

/// A batch: a row of the table of atomic batches.
#[derive(Clone, Copy, Debug, PartialEq, Eq)]
pub struct Batch {
    pub name: &'static str,
    kind: Kind,
    /// Updates in it.
    updates: usize,
    /// Entries that are stored before it.
    stored: usize,
}

/// How a batch is sent, and how it ends.
#[derive(Clone, Copy, Debug, PartialEq, Eq)]
pub enum Way {
    /// With atomicity 0, accepted.
    Plain,
    /// With atomicity 1, accepted.
    Accepted,
    /// With atomicity 1, rolled back at its last update.
    LastFails,
    /// With atomicity 1, rolled back at its second update.
    SecondFails,
}

/// What all updates of a batch do.
#[derive(Clone, Copy, Debug, PartialEq, Eq)]
enum Kind {
    /// INSERT of what comes after the stored entries.
    Insert,
    /// MODIFY of entries all over the store, at even distances, the last of them the last entry.
    Modify,
    /// DELETE of what is then the first entry.
    DeleteFirst,
    /// DELETE of what is then the last entry.
    DeleteLast,
}

/// Every way of every batch, for keys that differ early and for those that differ late.
pub fn all() -> Vec<Case> {
    let mut cases = Vec::new();
    for keys in [Keys::Early, Keys::Late] {
        for batch in Batch::ALL {
            cases.extend(batch.ways().iter().map(|&way| batch.case(keys, way)));
        }
    }
    cases
}

impl Batch {
    /// The rows. For up to 4 updates the agent has a shorter log of what it would have to undo.
    pub const ALL: [Batch; 9] = [
        Batch::new("64 INSERTs, store empty", Kind::Insert, BATCH, 0),
        Batch::new("64 MODIFYs, every fourth of 256", Kind::Modify, BATCH, FULL),
        Batch::new(
            "64 DELETEs, each the first, of 256",
            Kind::DeleteFirst,
            BATCH,
            FULL,
        ),
        Batch::new(
            "64 DELETEs, each the last, of 256",
            Kind::DeleteLast,
            BATCH,
            FULL,
        ),
        Batch::new("5 INSERTs, store empty", Kind::Insert, 5, 0),
        Batch::new("4 INSERTs, store empty", Kind::Insert, 4, 0),
        Batch::new("1 INSERT, store empty", Kind::Insert, 1, 0),
        Batch::new("1 MODIFY, last of 192", Kind::Modify, 1, 192),
        Batch::new("1 DELETE, first of 256", Kind::DeleteFirst, 1, FULL),
    ];

    const fn new(name: &'static str, kind: Kind, updates: usize, stored: usize) -> Batch {
        Batch {
            name,
            kind,
            updates,
            stored,
        }
    }

    /// The ways that are measured; only full batches are rolled back.
    pub fn ways(self) -> &'static [Way] {
        if self.updates == BATCH {
            &[Way::Plain, Way::Accepted, Way::LastFails, Way::SecondFails]
        } else {
            &[Way::Plain, Way::Accepted]
        }
    }

    fn case(self, keys: Keys, way: Way) -> Case {
        let case = match way {
            Way::Plain => self.accepted(keys, 0, "plain"),
            Way::Accepted => self.accepted(keys, 1, "accepted"),
            Way::LastFails => self.rolled_back(keys, self.updates - 1, "64th"),
            Way::SecondFails => self.rolled_back(keys, 1, "2nd"),
        };
        Case {
            atomic: Some((self, way)),
            ..case
        }
    }

    fn on(self, keys: Keys, end: &str) -> Case {
        let name = format!("{}: {end}", self.name);
        Case::new("atomic", &name, stored(keys, self.stored)).keys(keys)
    }

    /// All updates take effect.
    fn accepted(self, keys: Keys, atomicity: u8, end: &str) -> Case {
        let case = self.on(keys, end).pairs(self.updates, 0);
        let numbers = self.numbers();
        let write = |numbers: &[usize], port| self.write(keys, atomicity, numbers, port);
        let backward = || numbers.iter().rev().copied();
        match self.kind {
            Kind::Insert => case.step(
                vec![write(&numbers, OLD)],
                vec![batch(keys, Update::delete, backward())],
            ),
            Kind::Modify => case.timed(vec![write(&numbers, NEW), write(&numbers, OLD)]),
            Kind::DeleteLast => case.step(
                vec![write(&numbers, OLD)],
                vec![batch(keys, Update::insert, backward())],
            ),
            // They are inserted again at the end, so that the next step has others in front.
            Kind::DeleteFirst => (0..self.stored)
                .step_by(self.updates)
                .fold(case, |case, from| {
                    let next: Vec<usize> = numbers.iter().map(|number| from + number).collect();
                    let undo = batch(keys, Update::insert, next.iter().copied());
                    case.step(vec![write(&next, OLD)], vec![undo])
                }),
        }
    }

    /// The update at one place fails: an INSERT or DELETE because it is the first one again, a
    /// MODIFY because its key is absent.
    fn rolled_back(self, keys: Keys, at: usize, place: &str) -> Case {
        let mut numbers = self.numbers();
        let (reason, wrong) = match self.kind {
            Kind::Insert => (20, numbers[0]),
            Kind::Modify => (21, self.stored),
            Kind::DeleteFirst | Kind::DeleteLast => (21, numbers[0]),
        };
        numbers[at] = wrong;
        self.on(keys, &format!("{reason} at the {place}"))
            .pairs_rolled_back(self.updates, at, reason)
            .timed(vec![self.write(keys, 1, &numbers, NEW)])
    }

    /// The entries of the updates, by number.
    fn numbers(self) -> Vec<usize> {
        let Batch {
            updates, stored, ..
        } = self;
        match self.kind {
            Kind::Insert => (stored..stored + updates).collect(),
            Kind::Modify => (1..=updates)
                .map(|nth| nth * stored / updates - 1)
                .collect(),
            Kind::DeleteFirst => (0..updates).collect(),
            Kind::DeleteLast => (stored - updates..stored).rev().collect(),
        }
    }

    /// A WRITE of an update for each number, of an entry to a port.
    fn write(self, keys: Keys, atomicity: u8, numbers: &[usize], port: u128) -> Frame {
        let update: fn(Entry) -> Update = match self.kind {
            Kind::Insert => Update::insert,
            Kind::Modify => Update::modify,
            Kind::DeleteFirst | Kind::DeleteLast => Update::delete,
        };
        let updates: Vec<Update> = numbers
            .iter()
            .map(|&number| update(keys.entry_in(TABLE, number, port)))
            .collect();
        bytes::write(primary(), atomicity, &updates)
    }
}
