//! The series: what is measured as the number of entries grows.

use reference::bytes;

use super::entries::insert;
use super::keys::TABLE;
use super::state::{modifies, stored, DEVICE};
use super::{Case, Keys, ENTRY};

/// A series.
#[derive(Clone, Copy, Debug, PartialEq, Eq)]
pub enum Growth {
    Insert,
    Modify,
    ReadKey,
    ReadAll,
}

/// The points of all series, for keys that differ early and for those that differ late.
pub fn all() -> Vec<Case> {
    let mut cases = Vec::new();
    for growth in Growth::ALL {
        for keys in [Keys::Early, Keys::Late] {
            cases.extend(Growth::COUNTS.map(|count| growth.case(keys, count)));
        }
    }
    cases
}

impl Growth {
    pub const ALL: [Growth; 4] = [
        Growth::Insert,
        Growth::Modify,
        Growth::ReadKey,
        Growth::ReadAll,
    ];

    /// The numbers of entries.
    pub const COUNTS: [usize; 11] = [1, 2, 4, 8, 16, 32, 64, 96, 128, 192, 256];

    /// As a title.
    pub fn title(self) -> &'static str {
        match self {
            Growth::Insert => "INSERT of a new key, as the last entry",
            Growth::Modify => "MODIFY of the last entry",
            Growth::ReadKey => "READ of one key, the last entry's",
            Growth::ReadAll => "READ of all entries",
        }
    }

    /// As the name of a file.
    pub fn file(self) -> &'static str {
        match self {
            Growth::Insert => "insert.svg",
            Growth::Modify => "modify.svg",
            Growth::ReadKey => "read-key.svg",
            Growth::ReadAll => "read-all.svg",
        }
    }

    /// With `count` entries; those of an INSERT include the new one.
    fn case(self, keys: Keys, count: usize) -> Case {
        let last = count - 1;
        let name = format!("{}, {count} entries", self.title());
        let full = || Case::new("series", &name, stored(keys, count)).keys(keys);
        let case = match self {
            Growth::Insert => insert(&name, keys, last),
            Growth::Modify => full().pairs(1, 0).timed(modifies(keys, last)),
            Growth::ReadKey => full()
                .timed(vec![bytes::read_one(DEVICE, 0, TABLE, keys.key(last))])
                .records(1),
            Growth::ReadAll => full()
                .timed(vec![bytes::read_all(DEVICE, 0, 0)])
                .records(count)
                .beside_copy(count * ENTRY),
        };
        Case {
            command: "series",
            growth: Some((self, count)),
            ..case
        }
    }
}
