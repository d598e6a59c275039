//! Frames taken apart, as the bytes that they are.
//!
//! The types of [`frame`] express what a host should send. A controller may send
//! anything, and a capture may hold anything. So here slots, values and rows are kept as they stand
//! in a frame, whatever their numbers are, and nothing is judged but the command and the length:
//! [`Frame::decode`] takes every frame of a known command and its length, and [`Frame::encode`] gives
//! the same bytes back.
//!
//! A host that wants to log who asks for what looks at a frame before it hands it on:
//!
//! ```
//! use savorylatch::wire::{Frame, Malformed};
//!
//! let mut bytes = vec![0x03, 2];                   // ARBITRATE of stream 2,
//! bytes.extend([0, 0, 0, 0, 0, 0, 0, 1]);          // device 1,
//! bytes.extend([0, 1]);                            // role 0, with an id,
//! bytes.extend(6u128.to_be_bytes());               // which is 6
//!
//! let Frame::Arbitrate { stream, head } = Frame::decode(&bytes)? else { panic!() };
//! assert_eq!((stream, head.device, head.role), (2, 1, 0));
//! assert_eq!((head.flag, head.id), (1, 6));
//!
//! let wrong = Frame::decode(&bytes[..27]).unwrap_err();
//! assert_eq!(wrong.to_string(), "an ARBITRATE has 28 bytes, and this frame has 27");
//! # Ok::<(), Malformed>(())
//! ```
//!
//! What is well formed can be had in the types of [`frame`]:
//!
//! ```
//! use savorylatch::frame::{self, Atomicity, Entry, Head, Slot, Update, Value};
//! use savorylatch::wire::{self, Frame};
//!
//! let head = Head { device: 1, role: 0, id: Some(5) };
//! let entry = Entry::new(0x0200_0001, 0, [Slot::exact(0x0a00_0001)], 0x0100_0001, [Value::new(7)]);
//! let frame = frame::write(&head, Atomicity::ContinueOnError, &[Update::insert(entry)]);
//!
//! let Frame::Write { updates, .. } = Frame::decode(&frame)? else { panic!() };
//! assert_eq!(updates[0].kind, 1);
//! assert_eq!(updates[0].entry.typed(), Some(entry));
//!
//! // Kind 9 is none of the agent's, so there is no type for it.
//! let mut other = updates[0].entry;
//! other.key.slots[0].kind = 9;
//! assert_eq!(other.typed(), None);
//! # Ok::<(), wire::Malformed>(())
//! ```

#[cfg(test)]
mod tests;
mod whole;

pub use whole::{Frame, Head, Malformed};

use crate::bytes::{count, take};
use crate::frame;

/// The places for fields, actions, widths, slots and parameters.
pub const PLACES: usize = 4;
/// The most rows of a CONFIGURE that is not malformed.
pub const ROWS: usize = 8;
/// The most updates of a WRITE that is not malformed.
pub const UPDATES: usize = 64;

/// A row of a CONFIGURE, its counts beside the places.
#[derive(Clone, Copy, Debug, Default, PartialEq, Eq)]
pub struct Row {
    /// The table's id.
    pub table: u32,
    /// The role that owns the table.
    pub owner: u8,
    /// How many entries the table may hold.
    pub size: u16,
    /// How many of the fields are in use.
    pub field_count: u8,
    /// The places for fields.
    pub fields: [Field; PLACES],
    /// How many of the actions are in use.
    pub action_count: u8,
    /// The places for actions.
    pub actions: [Action; PLACES],
}

/// A match field of a row.
#[derive(Clone, Copy, Debug, Default, PartialEq, Eq)]
pub struct Field {
    /// The number of a kind: see [`frame::Kind`].
    pub kind: u8,
    /// The width in bits.
    pub width: u8,
}

/// An action of a row.
#[derive(Clone, Copy, Debug, Default, PartialEq, Eq)]
pub struct Action {
    /// The action's id.
    pub id: u32,
    /// How many of the widths are in use.
    pub count: u8,
    /// The widths of the parameters in bits.
    pub widths: [u8; PLACES],
}

/// An update of a WRITE.
#[derive(Clone, Copy, Debug, PartialEq, Eq)]
pub struct Update {
    /// The type: see [`frame::UpdateKind`].
    pub kind: u8,
    /// What is inserted, modified or deleted.
    pub entry: Entry,
}

/// An entry: in an update, and in the record of a READ.
#[derive(Clone, Copy, Debug, Default, PartialEq, Eq)]
pub struct Entry {
    /// The table's id.
    pub table: u32,
    /// The key.
    pub key: Key,
    /// The action's id.
    pub action: u32,
    /// The values of the action's parameters.
    pub parameters: [Value; PLACES],
}

/// A key without its table.
#[derive(Clone, Copy, Debug, Default, PartialEq, Eq)]
pub struct Key {
    /// The priority, 0 in a table without.
    pub priority: u32,
    /// What is asked of each field.
    pub slots: [Slot; PLACES],
}

/// What is asked of a field. All zero: it is omitted.
#[derive(Clone, Copy, Debug, Default, PartialEq, Eq)]
pub struct Slot {
    /// The number of a kind: see [`frame::Kind`]; 0 if it is omitted.
    pub kind: u8,
    /// The value, or the lowest one.
    pub first: Value,
    /// The prefix length, the mask, or the highest value, by the kind.
    pub second: Value,
}

/// A length and 16 bytes. All zero: there is none.
#[derive(Clone, Copy, Debug, Default, PartialEq, Eq)]
pub struct Value {
    /// How many of the bytes are the number's; 1 to 16 if it is well formed.
    pub length: u8,
    /// The number, the highest byte first, and zeros behind it.
    pub bytes: [u8; 16],
}

impl Value {
    /// One to sixteen bytes as they are; `None` for no bytes or more.
    pub fn from_bytes(number: &[u8]) -> Option<Value> {
        frame::Value::from_bytes(number).map(Value::from)
    }

    /// The shortest form.
    pub fn new(number: u128) -> Value {
        frame::Value::new(number).into()
    }

    /// The bytes within the length, leading zeros included; `None` if the value is not well formed.
    ///
    /// ```
    /// use savorylatch::wire::Value;
    ///
    /// let mut value = Value::from_bytes(&[0, 7]).unwrap();
    /// assert_eq!((value.digits(), value.number()), (Some(&[0, 7][..]), Some(7)));
    /// value.bytes[2] = 1;
    /// assert_eq!((value.digits(), value.number()), (None, None));
    /// ```
    pub fn digits(&self) -> Option<&[u8]> {
        let (number, padding) = self.bytes.split_at_checked(usize::from(self.length))?;
        let clean = padding.iter().all(|&byte| byte == 0);
        (clean && !number.is_empty()).then_some(number)
    }

    /// The number; `None` if the value is not well formed.
    pub fn number(&self) -> Option<u128> {
        Some(self.typed()?.number())
    }

    /// In the type of [`frame`]; `None` if the value is not well formed.
    pub fn typed(&self) -> Option<frame::Value> {
        frame::Value::from_bytes(self.digits()?)
    }

    /// Is it 17 zero bytes?
    pub fn is_none(&self) -> bool {
        *self == Value::default()
    }

    /// The outer `None` is for bytes that are no value, the inner one for 17 zero bytes.
    fn optional(&self) -> Option<Option<frame::Value>> {
        match self.is_none() {
            true => Some(None),
            false => self.typed().map(Some),
        }
    }

    fn put(&self, to: &mut Vec<u8>) {
        to.push(self.length);
        to.extend(self.bytes);
    }

    fn read(from: &mut &[u8]) -> Option<Value> {
        let [length] = take(from)?;
        let bytes = take(from)?;
        Some(Value { length, bytes })
    }
}

impl From<frame::Value> for Value {
    fn from(value: frame::Value) -> Value {
        let number = value.as_bytes();
        let mut bytes = [0; 16];
        bytes[..number.len()].copy_from_slice(number);
        Value {
            length: count(number.len()),
            bytes,
        }
    }
}

impl From<Option<frame::Value>> for Value {
    /// `None` is 17 zero bytes.
    fn from(value: Option<frame::Value>) -> Value {
        value.map_or(Value::default(), Value::from)
    }
}

impl Slot {
    /// Are kinds and numbers the same? So the agent compares.
    pub fn same(&self, other: &Slot) -> bool {
        let numbers = |slot: &Slot| (slot.kind, slot.first.number(), slot.second.number());
        numbers(self) == numbers(other)
    }

    /// In the type of [`frame`]; `None` if the slot is not well formed.
    pub fn typed(&self) -> Option<frame::Slot> {
        use frame::Slot;
        match (self.kind, self.first.optional()?, self.second.optional()?) {
            (0, None, None) => Some(Slot::Omitted),
            (1, Some(value), None) => Some(Slot::Exact(value)),
            (2, Some(value), Some(prefix)) => {
                let prefix = prefix.number().try_into().ok()?;
                Some(Slot::Lpm(value, prefix))
            }
            (3, Some(value), Some(mask)) => Some(Slot::Ternary(value, mask)),
            (4, Some(low), Some(high)) => Some(Slot::Range(low, high)),
            (5, Some(value), None) => Some(Slot::Optional(value)),
            _ => None,
        }
    }

    fn put(&self, to: &mut Vec<u8>) {
        to.push(self.kind);
        self.first.put(to);
        self.second.put(to);
    }

    fn read(from: &mut &[u8]) -> Option<Slot> {
        let [kind] = take(from)?;
        Some(Slot {
            kind,
            first: Value::read(from)?,
            second: Value::read(from)?,
        })
    }
}

impl From<frame::Slot> for Slot {
    fn from(slot: frame::Slot) -> Slot {
        use frame::Slot as Typed;
        let (kind, first, second) = match slot {
            Typed::Omitted => (0, None, None),
            Typed::Exact(value) => (1, Some(value), None),
            Typed::Lpm(value, prefix) => (2, Some(value), Some(frame::Value::new(prefix.into()))),
            Typed::Ternary(value, mask) => (3, Some(value), Some(mask)),
            Typed::Range(low, high) => (4, Some(low), Some(high)),
            Typed::Optional(value) => (5, Some(value), None),
        };
        Slot {
            kind,
            first: first.into(),
            second: second.into(),
        }
    }
}

impl Key {
    /// Are the slots the same, compared as numbers?
    pub fn same_slots(&self, other: &Key) -> bool {
        self.slots.iter().zip(&other.slots).all(|(a, b)| a.same(b))
    }

    fn put(&self, to: &mut Vec<u8>) {
        to.extend(self.priority.to_be_bytes());
        self.slots.iter().for_each(|slot| slot.put(to));
    }

    fn read(from: &mut &[u8]) -> Option<Key> {
        let priority = u32::from_be_bytes(take(from)?);
        let mut key = Key {
            priority,
            ..Key::default()
        };
        for slot in &mut key.slots {
            *slot = Slot::read(from)?;
        }
        Some(key)
    }
}

impl From<frame::Key> for Key {
    /// The table is left out.
    fn from(key: frame::Key) -> Key {
        Key {
            priority: key.priority,
            slots: key.slots.map(Slot::from),
        }
    }
}

impl Entry {
    /// The entry of a READ's record; `None` if it has not 220 bytes.
    pub fn decode(mut record: &[u8]) -> Option<Entry> {
        let entry = Entry::read(&mut record);
        entry.filter(|_| record.is_empty())
    }

    /// Its 220 bytes.
    pub fn encode(&self) -> Vec<u8> {
        let mut to = Vec::new();
        self.put(&mut to);
        to
    }

    /// In the type of [`frame`]; `None` if a slot or a parameter is not well formed.
    pub fn typed(&self) -> Option<frame::Entry> {
        let [a, b, c, d] = self.key.slots;
        let [e, f, g, h] = self.parameters;
        Some(frame::Entry {
            table: self.table,
            priority: self.key.priority,
            slots: [a.typed()?, b.typed()?, c.typed()?, d.typed()?],
            action: self.action,
            parameters: [e.optional()?, f.optional()?, g.optional()?, h.optional()?],
        })
    }

    /// Do both have the same key?
    pub fn same_key(&self, other: &Entry) -> bool {
        self.table == other.table
            && self.key.priority == other.key.priority
            && self.key.same_slots(&other.key)
    }

    /// Do both do the same?
    pub fn same_action(&self, other: &Entry) -> bool {
        let numbers = |entry: &Entry| entry.parameters.map(|value| value.number());
        self.action == other.action && numbers(self) == numbers(other)
    }

    fn put(&self, to: &mut Vec<u8>) {
        to.extend(self.table.to_be_bytes());
        self.key.put(to);
        to.extend(self.action.to_be_bytes());
        self.parameters.iter().for_each(|value| value.put(to));
    }

    fn read(from: &mut &[u8]) -> Option<Entry> {
        let mut entry = Entry {
            table: u32::from_be_bytes(take(from)?),
            key: Key::read(from)?,
            action: u32::from_be_bytes(take(from)?),
            ..Entry::default()
        };
        for parameter in &mut entry.parameters {
            *parameter = Value::read(from)?;
        }
        Some(entry)
    }
}

impl From<frame::Entry> for Entry {
    fn from(entry: frame::Entry) -> Entry {
        Entry {
            table: entry.table,
            key: entry.key().into(),
            action: entry.action,
            parameters: entry.parameters.map(Value::from),
        }
    }
}

impl Update {
    /// Its 221 bytes: the type, and the entry.
    pub fn encode(&self) -> Vec<u8> {
        let mut to = Vec::new();
        self.put(&mut to);
        to
    }

    fn put(&self, to: &mut Vec<u8>) {
        to.push(self.kind);
        self.entry.put(to);
    }

    fn read(from: &mut &[u8]) -> Option<Update> {
        let [kind] = take(from)?;
        let entry = Entry::read(from)?;
        Some(Update { kind, entry })
    }
}

impl From<frame::Update> for Update {
    fn from(update: frame::Update) -> Update {
        Update {
            kind: update.kind as u8,
            entry: update.entry.into(),
        }
    }
}

impl Row {
    fn put(&self, to: &mut Vec<u8>) {
        to.extend(self.table.to_be_bytes());
        to.push(self.owner);
        to.extend(self.size.to_be_bytes());
        to.push(self.field_count);
        for field in self.fields {
            to.extend([field.kind, field.width]);
        }
        to.push(self.action_count);
        for action in self.actions {
            to.extend(action.id.to_be_bytes());
            to.push(action.count);
            to.extend(action.widths);
        }
    }

    fn read(from: &mut &[u8]) -> Option<Row> {
        let mut row = Row {
            table: u32::from_be_bytes(take(from)?),
            owner: byte(from)?,
            size: u16::from_be_bytes(take(from)?),
            field_count: byte(from)?,
            ..Row::default()
        };
        for field in &mut row.fields {
            let [kind, width] = take(from)?;
            *field = Field { kind, width };
        }
        row.action_count = byte(from)?;
        for action in &mut row.actions {
            *action = Action {
                id: u32::from_be_bytes(take(from)?),
                count: byte(from)?,
                widths: take(from)?,
            };
        }
        Some(row)
    }
}

impl From<&frame::Row> for Row {
    /// Of more than four fields, actions or widths only four have a place; the counts say how many
    /// there were.
    fn from(row: &frame::Row) -> Row {
        let field = |field: &frame::Field| Field {
            kind: field.kind as u8,
            width: field.width,
        };
        let action = |action: &frame::Action| Action {
            id: action.id,
            count: count(action.widths.len()),
            widths: places(action.widths.iter().copied()),
        };
        Row {
            table: row.table,
            owner: row.owner,
            size: row.size,
            field_count: count(row.fields.len()),
            fields: places(row.fields.iter().map(field)),
            action_count: count(row.actions.len()),
            actions: places(row.actions.iter().map(action)),
        }
    }
}

/// The first items in their places.
fn places<T: Copy + Default>(items: impl Iterator<Item = T>) -> [T; PLACES] {
    let mut places = [T::default(); PLACES];
    places
        .iter_mut()
        .zip(items)
        .for_each(|(to, item)| *to = item);
    places
}

fn byte(from: &mut &[u8]) -> Option<u8> {
    take(from).map(|[byte]| byte)
}
