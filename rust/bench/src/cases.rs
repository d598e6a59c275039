//! What is measured: for each case a state, the calls that are timed, and what undoes them.
//!
//! A case whose calls leave the state as it was is *looped*: it has nothing to undo, and many calls
//! are timed at once. Any other is brought back after each step by calls that are not timed. No
//! state is copied: a copied `Vec` has no room to spare, and would be charged for it.

mod atomic;
mod entries;
mod growth;
mod keys;
mod padded;
mod refusals;
mod state;
mod streams;

pub use atomic::{Batch, Way};
pub use growth::Growth;
pub use keys::Keys;
pub use padded::{Form, Narrow, Task};
pub use state::DEVICE;

/// Entries that a store holds.
pub const FULL: usize = 256;
/// Bytes of an entry.
pub const ENTRY: usize = 220;

/// The bytes of a call.
pub type Frame = Vec<u8>;

/// Calls that are timed, and those that bring the state back.
pub struct Step {
    pub timed: Vec<Frame>,
    pub undo: Vec<Frame>,
}

/// What each timed call must answer.
#[derive(Clone, Copy, Default)]
pub struct Expect {
    pub reason: u8,
    pub records: usize,
    /// The reasons in the pairs of a WRITE.
    pub pairs: Option<Pairs>,
}

/// The reasons in the pairs of a WRITE.
#[derive(Clone, Copy, Debug)]
pub enum Pairs {
    /// The same in each.
    Each(u8),
    /// This one at this place, 25 in every other.
    RolledBack { at: usize, reason: u8 },
}

impl Pairs {
    /// The reason in the pair at a place.
    pub fn reason(self, place: usize) -> u8 {
        match self {
            Pairs::Each(reason) => reason,
            Pairs::RolledBack { at, reason } if at == place => reason,
            Pairs::RolledBack { .. } => 25,
        }
    }
}

/// One case.
#[derive(Default)]
pub struct Case {
    pub command: &'static str,
    pub name: String,
    /// The keys of the entries, where that matters.
    pub keys: Option<Keys>,
    /// Calls on a fresh agent, all of which are accepted.
    pub setup: Vec<Frame>,
    /// Taken in order, over and over.
    pub steps: Vec<Step>,
    pub expect: Expect,
    /// Bytes of the plain copy that is timed beside the call.
    pub copy: Option<usize>,
    /// The series that the case is a point of, and the number of entries there.
    pub growth: Option<(Growth, usize)>,
    /// The row of the table of atomic batches that the case is in, and the way it goes.
    pub atomic: Option<(Batch, Way)>,
    /// What the case does with a key, if it is in the table of padded keys.
    pub task: Option<Task>,
}

/// Every case of the table, in its order.
pub fn table() -> Vec<Case> {
    [
        streams::open_and_close(),
        streams::arbitrate(),
        streams::configure(),
        entries::write(Keys::Early),
        entries::write(Keys::Late),
        entries::write_four_slots(),
        entries::write_full(),
        atomic::all(),
        entries::read_many(),
        entries::read_key(),
        padded::all(),
        refusals::calls(),
        refusals::updates(),
    ]
    .into_iter()
    .flatten()
    .collect()
}

/// Every point of the series.
pub fn series() -> Vec<Case> {
    growth::all()
}

impl Case {
    /// Is it in the table of all commands? The series are not, nor the plain batches that are
    /// measured again beside atomic ones, nor the cases of padded keys.
    pub fn in_commands(&self) -> bool {
        let plain = matches!(self.atomic, Some((_, Way::Plain)));
        self.growth.is_none() && self.task.is_none() && !plain
    }

    /// Is there nothing to undo?
    pub fn looped(&self) -> bool {
        self.steps.iter().all(|step| step.undo.is_empty())
    }

    /// Command, name and keys.
    pub fn full_name(&self) -> String {
        let keys = self.keys.map_or("", Keys::name);
        format!("{} {} {keys}", self.command, self.name)
    }

    fn new(command: &'static str, name: &str, setup: Vec<Frame>) -> Case {
        Case {
            command,
            name: name.to_owned(),
            setup,
            ..Case::default()
        }
    }

    fn keys(mut self, keys: Keys) -> Case {
        self.keys = Some(keys);
        self
    }

    /// One step that leaves the state as it was.
    fn timed(self, timed: Vec<Frame>) -> Case {
        self.step(timed, Vec::new())
    }

    /// One more step.
    fn step(mut self, timed: Vec<Frame>, undo: Vec<Frame>) -> Case {
        self.steps.push(Step { timed, undo });
        self
    }

    fn records(mut self, records: usize) -> Case {
        self.expect.records = records;
        self
    }

    fn refused(mut self, reason: u8) -> Case {
        self.expect.reason = reason;
        self
    }

    /// A WRITE of so many updates, each of which has this reason.
    fn pairs(mut self, records: usize, pair: u8) -> Case {
        self.expect = Expect {
            reason: if pair == 0 { 0 } else { 23 },
            records,
            pairs: Some(Pairs::Each(pair)),
        };
        self
    }

    /// A WRITE of so many updates that is rolled back: the one at a place has this reason.
    fn pairs_rolled_back(mut self, records: usize, at: usize, reason: u8) -> Case {
        self.expect = Expect {
            reason: 23,
            records,
            pairs: Some(Pairs::RolledBack { at, reason }),
        };
        self
    }

    fn beside_copy(mut self, bytes: usize) -> Case {
        self.copy = Some(bytes);
        self
    }
}

#[cfg(test)]
mod tests {
    use super::*;

    #[test]
    fn reasons_in_pairs() {
        let reasons = |pairs: Pairs| [0, 1, 2].map(|place| pairs.reason(place));
        assert_eq!(reasons(Pairs::Each(22)), [22, 22, 22]);
        let rolled_back = Pairs::RolledBack { at: 1, reason: 20 };
        assert_eq!(reasons(rolled_back), [25, 20, 25]);
    }
}
