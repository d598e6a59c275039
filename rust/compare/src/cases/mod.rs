//! Cases with their answers written out by hand.
//!
//! A [`Case`] is a fresh agent and some calls, each with the bytes that must
//! be answered. They come from document 01 (its bench cases and examples), from
//! requests One, Two, Four and Five of document 02, and from the published
//! examples of P4Runtime as these rules decide them. Each is played to the
//! library, to the second implementation and to looking back; most also to the
//! program `play`.

mod arbitration;
mod batches;
mod deletes;
mod document;
mod forms;
mod full_store;
mod matches;
mod padded;
mod reading;
mod rollback;
mod values;

use reference::bytes::{
    answer, arbitrate, configure, notice, open, write, Action, Entry, Head, Key, Row, Slot, Update,
    Value,
};
use reference::{Agent, Past};

use crate::bench::{Bench, Call, Difference, STORE_ROOM};
use crate::describe;

/// The device of a case, unless it says otherwise.
pub const DEVICE: u64 = 1;

/// A call and what it must answer.
pub struct Step {
    pub call: Call,
    /// All bytes that are written; none under reason 2.
    pub answer: Vec<u8>,
}

/// A fresh agent and some calls.
pub struct Case {
    pub name: &'static str,
    pub device: u64,
    pub steps: Vec<Step>,
}

/// All cases.
pub fn all() -> Vec<Case> {
    let mut cases = Vec::new();
    cases.extend(document::cases());
    cases.extend(arbitration::cases());
    cases.extend(values::cases());
    cases.extend(forms::cases());
    cases.extend(matches::cases());
    cases.extend(reading::cases());
    cases.extend(batches::cases());
    cases.extend(deletes::cases());
    cases.extend(rollback::cases());
    cases.extend(full_store::cases());
    cases.extend(padded::cases());
    cases
}

impl Case {
    /// Plays the case to all three; the error says what is wrong with it.
    pub fn run(&self) -> Result<(), String> {
        let longest = self.steps.iter().map(|step| step.call.store_len).max();
        let store = longest.unwrap_or(0).max(STORE_ROOM);
        let mut bench: Bench<Agent, Past> = Bench::new(self.device, store, 7);
        for (at, step) in self.steps.iter().enumerate() {
            let told = |text: &str| {
                let frame = describe::frame(&step.call.frame);
                format!("case {}, call {}: {frame}\n{text}", self.name, at + 1)
            };
            let seen = bench
                .call(&step.call)
                .map_err(|Difference(text)| told(&text))?;
            if seen.answer != step.answer {
                return Err(told(&format!(
                    "all agree on {}\nby hand it is {}",
                    describe::hex(seen.answer),
                    describe::hex(&step.answer)
                )));
            }
        }
        Ok(())
    }
}

// Writing cases down.

/// A notification: stream, role, status and the mark.
fn rec(stream: u8, role: u8, status: u8, mark: u128) -> [u8; 20] {
    notice(stream, role, status, Some(mark))
}

/// A notification of a role that has no mark.
fn rec_none(stream: u8, role: u8, status: u8) -> [u8; 20] {
    notice(stream, role, status, None)
}

/// The head of [`Case::configured`]'s primary.
fn primary() -> Head {
    Head::set(DEVICE, 0, 1)
}

/// Sixteen bytes of a string as they stand, shorter ones from the left.
fn string(bytes: &[u8]) -> Value {
    Value::string(bytes)
}

impl Case {
    fn new(name: &'static str) -> Case {
        Case {
            name,
            device: DEVICE,
            steps: Vec::new(),
        }
    }

    /// Stream 0 is primary of role 0 with id 1, and the rows are in force.
    fn configured(name: &'static str, rows: &[Row]) -> Case {
        Case::new(name).start(rows)
    }

    fn start(self, rows: &[Row]) -> Case {
        self.ok(open(0))
            .tells(arbitrate(0, primary()), &[rec(0, 0, 0, 1)])
            .ok(configure(primary(), rows))
    }

    fn step(mut self, call: Call, answer: Vec<u8>) -> Case {
        self.steps.push(Step { call, answer });
        self
    }

    /// A call with its whole answer.
    fn answers(self, frame: Vec<u8>, answer: Vec<u8>) -> Case {
        self.step(Call::new(frame), answer)
    }

    /// Accepted, without records.
    fn ok(self, frame: Vec<u8>) -> Case {
        self.answers(frame, vec![0, 0, 0, 0])
    }

    /// Refused, without records.
    fn refused(self, frame: Vec<u8>, reason: u8, code: u8) -> Case {
        self.answers(frame, vec![reason, code, 0, 0])
    }

    /// Accepted, with these notifications.
    fn tells(self, frame: Vec<u8>, notices: &[[u8; 20]]) -> Case {
        self.answers(frame, answer(0, 0, notices))
    }

    /// Refused, with these notifications.
    fn refused_telling(self, frame: Vec<u8>, reason: u8, code: u8, notices: &[[u8; 20]]) -> Case {
        self.answers(frame, answer(reason, code, notices))
    }

    /// A WRITE by the primary of role 0 whose updates all take effect.
    fn takes(self, updates: &[Update]) -> Case {
        let pairs = vec![[0, 0]; updates.len()];
        self.answers(write(primary(), 0, updates), answer(0, 0, &pairs))
    }

    /// A WRITE by the primary of role 0 with failed updates: its pairs.
    fn fails(self, updates: &[Update], pairs: &[[u8; 2]]) -> Case {
        self.answers(write(primary(), 0, updates), answer(23, 2, pairs))
    }

    /// A WRITE with atomicity 1 by the primary of role 0 that does not fail.
    fn takes_all(self, updates: &[Update]) -> Case {
        let pairs = vec![[0, 0]; updates.len()];
        self.answers(write(primary(), 1, updates), answer(0, 0, &pairs))
    }

    /// A WRITE with atomicity 1 by the primary of role 0 that is rolled back:
    /// the place of the update that failed, its reason and its code.
    fn rolls_back(self, updates: &[Update], at: usize, reason: u8, code: u8) -> Case {
        let mut pairs = vec![[25, 10]; updates.len()];
        pairs[at] = [reason, code];
        self.answers(write(primary(), 1, updates), answer(23, 2, &pairs))
    }

    /// An INSERT that takes effect.
    fn inserts(self, entry: Entry) -> Case {
        self.takes(&[Update::insert(entry)])
    }

    /// An INSERT that fails.
    fn rejects(self, entry: Entry, reason: u8, code: u8) -> Case {
        self.fails(&[Update::insert(entry)], &[[reason, code]])
    }

    /// A READ with these entries.
    fn shows(self, frame: Vec<u8>, entries: &[Entry]) -> Case {
        let records: Vec<[u8; 220]> = entries.iter().map(Entry::bytes).collect();
        self.answers(frame, answer(0, 0, &records))
    }
}

// A table for cases that need no more than one.

/// The table of [`one_row`].
const TABLE: u32 = 0x0200_0001;
/// Its only action, which has no parameters.
const ACTION: u32 = 0x0100_0001;

/// A table of one field, with room for 32.
fn one_row(kind: u8, width: u8) -> Row {
    Row::new(TABLE, 0, 32, &[(kind, width)], &[Action::new(ACTION, &[])])
}

/// A key of one slot.
fn key(priority: u32, slot: Slot) -> Key {
    Key::new(priority, &[slot])
}

/// An entry of [`one_row`].
fn entry(priority: u32, slot: Slot) -> Entry {
    Entry::new(TABLE, key(priority, slot), ACTION, &[])
}

// Tables for cases that need several.

const ONE: u32 = 0x0200_0001;
const TWO: u32 = 0x0200_0002;

/// A table of one exact field of 16 bits, and an action of one parameter.
fn plain_row(table: u32, owner: u8, size: u16) -> Row {
    let fields = [(reference::bytes::kind::EXACT, 16)];
    Row::new(table, owner, size, &fields, &[Action::new(ACTION, &[16])])
}

/// An entry of [`plain_row`].
fn plain(table: u32, field: u128, param: u128) -> Entry {
    Entry::new(
        table,
        key(0, Slot::exact(field)),
        ACTION,
        &[Value::of(param)],
    )
}

/// INSERT of an entry of [`plain_row`] with parameter 1.
fn insert(table: u32, field: u128) -> Update {
    Update::insert(plain(table, field, 1))
}

/// DELETE of that entry.
fn delete(table: u32, field: u128) -> Update {
    Update::delete(plain(table, field, 1))
}
