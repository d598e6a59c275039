//! What is compared: the facts of a call that a trace states and an answer holds, as numbers.

use std::fmt::Debug;

/// A reason and its status code.
pub type Pair = (u8, u8);

/// A call. Its lists are in the order in which they stand.
#[derive(Debug, Default)]
pub struct Call {
    pub number: usize,
    /// The head of the answer; a trace may lack it or have it twice.
    pub answers: Vec<Pair>,
    /// How many rows or updates there are; `None` if the frame cannot be taken apart.
    pub parts: Option<usize>,
    /// Those of the updates that were looked at.
    pub pairs: Vec<Pair>,
    pub entries: Vec<Entry>,
    pub told: Vec<Told>,
    /// The roles that have a mark after the call.
    pub roles: Vec<Role>,
}

/// A notification.
#[derive(Debug, PartialEq, Eq)]
pub struct Told {
    pub stream: u8,
    pub role: u8,
    pub status: u8,
    pub mark: Option<u128>,
}

/// Primary and mark of a role.
#[derive(Debug, PartialEq, Eq)]
pub struct Role {
    pub role: u8,
    pub primary: Option<u8>,
    pub mark: u128,
}

/// An entry that a READ shows.
#[derive(Debug, PartialEq, Eq)]
pub struct Entry {
    pub table: u32,
    pub priority: u32,
    pub fields: [Option<Match>; 4],
    pub action: u32,
    pub parameters: Vec<u128>,
}

/// A field that is not omitted. A trace writes exact and optional alike.
#[derive(Clone, Copy, Debug, PartialEq, Eq)]
pub enum Match {
    Value(u128),
    Prefix(u128, u128),
    Mask(u128, u128),
    Range(u128, u128),
}

impl Call {
    /// The first fact in which a trace and the second implementation differ, with both sides.
    pub fn difference(&self, second: &Call) -> Option<String> {
        // Also of a frame that cannot be taken apart a trace may show rows or updates: those that
        // the script wrote.
        let parts = second.parts.or(self.parts);
        differ("number", &self.number, &second.number)
            .or_else(|| differ("answer", &self.answers, &second.answers))
            .or_else(|| differ("parts", &self.parts, &parts))
            .or_else(|| differ("pairs", &self.pairs, &second.pairs))
            .or_else(|| differ("entries", &self.entries, &second.entries))
            .or_else(|| differ("told", &self.told, &second.told))
            .or_else(|| differ("roles", &self.roles, &second.roles))
    }
}

/// A fact that is not the same on both sides.
pub fn differ<T: Debug + PartialEq>(fact: &str, trace: &T, second: &T) -> Option<String> {
    (trace != second)
        .then(|| format!("{fact}: the trace has {trace:?}, the second implementation {second:?}"))
}
