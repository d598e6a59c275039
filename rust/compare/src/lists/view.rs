//! What a host knows of an agent from the calls it made and their answers.
//!
//! A [`View`] judges nothing: it writes down what was accepted. The generator
//! aims by it.

use reference::bytes::{Entry, Head, Row, Slot, Value};
use savorylatch::answer;
use savorylatch::wire::Frame;
use savorylatch::{Command, Reason};

use super::digits::digits;
use crate::parts;

/// How many bygone entries and batches are remembered.
const REMEMBERED: usize = 64;

#[derive(Clone, Copy, Debug, PartialEq, Eq)]
pub enum Stream {
    Closed,
    Open,
    Bound { role: u8, id: Option<u128> },
}

#[derive(Clone, Debug)]
pub struct View {
    pub device: u64,
    pub streams: [Stream; 32],
    pub marks: [Option<u128>; 8],
    pub rows: Vec<Row>,
    /// The entries present, in shortest form and in order of insertion.
    pub entries: Vec<Entry>,
    /// Entries that were present once, oldest first.
    pub gone: Vec<Entry>,
    /// Frames of WRITEs that were accepted, oldest first.
    pub batches: Vec<Vec<u8>>,
    /// Heads that spoke for a primary once, oldest first.
    pub spoke: Vec<Head>,
}

impl View {
    /// A fresh agent.
    pub fn new(device: u64) -> View {
        View {
            device,
            streams: [Stream::Closed; 32],
            marks: [None; 8],
            rows: Vec::new(),
            entries: Vec::new(),
            gone: Vec::new(),
            batches: Vec::new(),
            spoke: Vec::new(),
        }
    }

    /// Takes note of a call and its answer.
    pub fn note(&mut self, frame: &[u8], answer: &[u8]) {
        let (Some(&reason), Ok(asked)) = (answer.first(), Frame::decode(frame)) else {
            return;
        };
        match (asked, reason) {
            (Frame::Open { stream }, 0) => self.set(stream, Stream::Open),
            (Frame::Close { stream }, 0) => self.set(stream, Stream::Closed),
            (Frame::Arbitrate { stream, head }, 0) => self.bind(stream, &parts::head(head)),
            (Frame::Arbitrate { stream, .. }, 5..=9) => self.set(stream, Stream::Closed),
            (Frame::Configure { head, rows }, 0) => {
                remember(&mut self.spoke, parts::head(head));
                self.rows = rows.iter().map(parts::row).collect();
                for entry in std::mem::take(&mut self.entries) {
                    remember(&mut self.gone, entry);
                }
            }
            (Frame::Write { head, updates, .. }, 0 | 23) => {
                remember(&mut self.spoke, parts::head(head));
                remember(&mut self.batches, frame.to_vec());
                let answer = answer::View::new(answer, Command::Write);
                let pairs = answer.iter().flat_map(answer::View::pairs);
                for (update, (reason, _)) in updates.iter().zip(pairs) {
                    if reason == Reason::Done {
                        let update = parts::update(update);
                        self.take_effect(update.kind, short_entry(update.entry));
                    }
                }
            }
            _ => {}
        }
    }

    fn set(&mut self, stream: u8, state: Stream) {
        self.streams[usize::from(stream)] = state;
    }

    fn bind(&mut self, stream: u8, head: &Head) {
        let id = (head.flag == 1).then_some(head.id);
        let role = head.role;
        self.set(stream, Stream::Bound { role, id });
        let mark = &mut self.marks[usize::from(role)];
        *mark = (*mark).max(id);
    }

    fn take_effect(&mut self, kind: u8, entry: Entry) {
        if let Some(entry) = take_effect(&mut self.entries, kind, entry) {
            remember(&mut self.gone, entry);
        }
    }

    /// Where the entry of the same key stands; the entry is in shortest form.
    pub fn place(&self, entry: &Entry) -> Option<usize> {
        place(&self.entries, entry)
    }

    /// The streams that are closed, that are open and unbound, and that are
    /// bound to a role.
    pub fn closed(&self) -> Vec<u8> {
        self.which(|stream| stream == Stream::Closed)
    }

    pub fn unbound(&self) -> Vec<u8> {
        self.which(|stream| stream == Stream::Open)
    }

    pub fn bound(&self, wanted: u8) -> Vec<u8> {
        self.which(|stream| matches!(stream, Stream::Bound { role, .. } if role == wanted))
    }

    fn which(&self, wanted: impl Fn(Stream) -> bool) -> Vec<u8> {
        (0..32)
            .filter(|&stream| wanted(self.streams[usize::from(stream)]))
            .collect()
    }

    /// The id that the stream holds, if it is bound with one.
    pub fn id_of(&self, stream: u8) -> Option<u128> {
        match self.streams[usize::from(stream)] {
            Stream::Bound { id, .. } => id,
            _ => None,
        }
    }

    /// The mark of a role; none for a role that there is not.
    pub fn mark(&self, role: u8) -> Option<u128> {
        self.marks.get(usize::from(role)).copied().flatten()
    }

    pub fn primary(&self, role: u8) -> Option<u8> {
        let mark = self.mark(role)?;
        self.bound(role)
            .into_iter()
            .find(|&stream| self.id_of(stream) == Some(mark))
    }

    /// How many entries a table holds.
    pub fn held(&self, table: u32) -> usize {
        held(&self.entries, table)
    }

    /// The row of a table.
    pub fn row(&self, table: u32) -> Option<&Row> {
        self.rows.iter().find(|row| row.table == table)
    }
}

/// Where the entry of the same key is among entries in shortest form.
pub fn place(entries: &[Entry], entry: &Entry) -> Option<usize> {
    entries
        .iter()
        .position(|other| other.table == entry.table && other.key == entry.key)
}

/// How many of the entries are a table's.
pub fn held(entries: &[Entry], table: u32) -> usize {
    entries.iter().filter(|entry| entry.table == table).count()
}

/// What an update that passes does to the entries; gives one that it removes.
pub fn take_effect(entries: &mut Vec<Entry>, kind: u8, entry: Entry) -> Option<Entry> {
    match (kind, place(entries, &entry)) {
        (1, _) => entries.push(entry),
        (2, Some(at)) => entries[at] = entry,
        (3, Some(at)) => return Some(entries.remove(at)),
        _ => {}
    }
    None
}

/// Adds to what is remembered, and forgets the oldest.
fn remember<T>(items: &mut Vec<T>, item: T) {
    if items.len() == REMEMBERED {
        items.remove(0);
    }
    items.push(item);
}

/// An entry with all its values in shortest form.
pub fn short_entry(mut entry: Entry) -> Entry {
    for slot in &mut entry.key.slots {
        *slot = Slot {
            kind: slot.kind,
            first: short(slot.first),
            second: short(slot.second),
        };
    }
    entry.params = entry.params.map(short);
    entry
}

/// A value without leading zero bytes; one of no length, or too long, as it is.
fn short(value: Value) -> Value {
    match digits(&value) {
        [] => value,
        shortest => Value::string(shortest),
    }
}
