//! Entries, and what they are made of.

use std::fmt;

/// An entry of a table.
///
/// ```
/// use savorylatch::frame::{Entry, Slot, Value};
///
/// // 10.0.0.0/8 goes to port 7.
/// let entry = Entry::new(0x0200_0001, 0, [Slot::lpm(0x0a00_0000, 8)], 0x0100_0001, [Value::new(7)]);
/// assert_eq!(entry.slots[1], Slot::Omitted);
/// assert_eq!(entry.parameters, [Some(Value::new(7)), None, None, None]);
/// ```
#[derive(Clone, Copy, Debug, PartialEq, Eq)]
pub struct Entry {
    /// The table's id.
    pub table: u32,
    /// 1 to 2,147,483,647 in a table with a ternary, range or optional field, else 0.
    pub priority: u32,
    /// A slot for each field of the table; those after the last field are omitted.
    pub slots: [Slot; 4],
    /// The id of one of the row's actions.
    pub action: u32,
    /// A value for each parameter of the action, and `None` after the last.
    pub parameters: [Option<Value>; 4],
}

impl Entry {
    /// With up to four slots and up to four parameters, the others not used. More do not compile:
    ///
    /// ```compile_fail
    /// # use savorylatch::frame::{Entry, Slot};
    /// Entry::new(0x0200_0001, 0, [Slot::Omitted; 5], 0x0100_0001, []);
    /// ```
    pub fn new<const S: usize, const P: usize>(
        table: u32,
        priority: u32,
        slots: [Slot; S],
        action: u32,
        parameters: [Value; P],
    ) -> Entry {
        const { assert!(S <= 4 && P <= 4, "four slots and four parameters at most") };
        let mut entry = Entry {
            table,
            priority,
            slots: [Slot::Omitted; 4],
            action,
            parameters: [None; 4],
        };
        entry.slots[..S].copy_from_slice(&slots);
        entry.parameters[..P].copy_from_slice(&parameters.map(Some));
        entry
    }

    /// Its key: the entry without its action.
    pub fn key(&self) -> Key {
        Key {
            table: self.table,
            priority: self.priority,
            slots: self.slots,
        }
    }
}

/// The key of an entry. No two entries have the same, so it is all that a DELETE, or a READ of one
/// entry, needs.
///
/// ```
/// use savorylatch::frame::{Entry, Key, Slot, Value};
///
/// let entry = Entry::new(0x0200_0001, 0, [Slot::lpm(0x0a00_0000, 8)], 0x0100_0001, [Value::new(7)]);
/// assert_eq!(entry.key(), Key::new(0x0200_0001, 0, [Slot::lpm(0x0a00_0000, 8)]));
/// ```
#[derive(Clone, Copy, Debug, Default, PartialEq, Eq)]
pub struct Key {
    /// The table's id.
    pub table: u32,
    /// The priority, as in [`Entry::priority`].
    pub priority: u32,
    /// The slots, as in [`Entry::slots`].
    pub slots: [Slot; 4],
}

impl Key {
    /// With up to four slots, the others not used. More do not compile:
    ///
    /// ```compile_fail
    /// # use savorylatch::frame::{Key, Slot};
    /// Key::new(0x0200_0001, 0, [Slot::Omitted; 5]);
    /// ```
    pub fn new<const S: usize>(table: u32, priority: u32, slots: [Slot; S]) -> Key {
        Entry::new(table, priority, slots, 0, []).key()
    }
}

/// An update of a WRITE.
#[derive(Clone, Copy, Debug, PartialEq, Eq)]
pub struct Update {
    /// What is done.
    pub kind: UpdateKind,
    /// With which entry; of a DELETE only its key is looked at.
    pub entry: Entry,
}

/// The types of updates; the discriminant is the number in a frame.
#[derive(Clone, Copy, Debug, PartialEq, Eq, Hash)]
#[repr(u8)]
pub enum UpdateKind {
    /// Puts a new entry after the others.
    Insert = 1,
    /// Replaces action and parameters of the entry that has the key.
    Modify = 2,
    /// Removes the entry that has the key, whatever action and parameters are sent with it.
    Delete = 3,
}

impl Update {
    /// INSERT of an entry.
    pub fn insert(entry: Entry) -> Update {
        let kind = UpdateKind::Insert;
        Update { kind, entry }
    }

    /// MODIFY of the entry that has this one's key.
    pub fn modify(entry: Entry) -> Update {
        let kind = UpdateKind::Modify;
        Update { kind, entry }
    }

    /// DELETE of the entry that has the key. No action goes with it: its 72 bytes in the frame are
    /// zeros, and the agent does not look at them. The key is checked as that of any entry.
    ///
    /// Here a controller deletes all that it reads, and then tries once more:
    ///
    /// ```
    /// # use savorylatch::frame::{Action, Field, Kind, Query, Row, Value, Wanted};
    /// use savorylatch::answer::Outcome;
    /// use savorylatch::frame::{self, Atomicity::ContinueOnError, Entry, Head, Slot, Update};
    /// use savorylatch::{Agent, Answer, Command, Reason, Store};
    ///
    /// # let head = Head { device: 1, role: 0, id: Some(5) };
    /// # let rows = [Row {
    /// #     table: 0x0200_0001,
    /// #     owner: 0,
    /// #     size: 4,
    /// #     fields: vec![Field { kind: Kind::Exact, width: 32 }],
    /// #     actions: vec![Action { id: 0x0100_0001, widths: vec![9] }],
    /// # }];
    /// # let stored = [0x0a00_0001, 0x0a00_0002].map(|address| {
    /// #     Entry::new(0x0200_0001, 0, [Slot::exact(address)], 0x0100_0001, [Value::new(7)])
    /// # });
    /// # let everything = Query { device: 1, role: 0, wanted: Wanted::Everything };
    /// # let (mut agent, mut store, mut answer) = (Agent::new(1), Store::new(), Answer::new());
    /// # let mut call = |frame: Vec<u8>| agent.call(&frame, &mut store, &mut answer);
    /// # assert_eq!(call(frame::open(1)), Reason::Done);
    /// # assert_eq!(call(frame::arbitrate(1, &head)), Reason::Done);
    /// # assert_eq!(call(frame::configure(&head, &rows)), Reason::Done);
    /// # let batch = stored.map(Update::insert);
    /// # assert_eq!(call(frame::write(&head, ContinueOnError, &batch)), Reason::Done);
    /// assert_eq!(agent.call(&frame::read(&everything), &mut store, &mut answer), Reason::Done);
    /// let read = answer.view(Command::Read)?.entries();
    /// let batch: Vec<Update> = read.map(|entry| Update::delete(entry.key())).collect();
    /// let frame = frame::write(&head, ContinueOnError, &batch);
    ///
    /// assert_eq!(agent.call(&frame, &mut store, &mut answer), Reason::Done);
    /// assert_eq!(agent.entries(), 0);
    /// // Now they are gone.
    /// assert_eq!(agent.call(&frame, &mut store, &mut answer), Reason::SomeFailed);
    /// let outcomes = answer.view(Command::Write)?.outcomes();
    /// assert!(outcomes.eq([Outcome::Failed(Reason::NotStored); 2]));
    /// # Ok::<(), savorylatch::answer::Unreadable>(())
    /// ```
    ///
    /// An entry is not taken, as its action would go for nothing:
    ///
    /// ```compile_fail
    /// # use savorylatch::frame::{Entry, Slot, Update};
    /// Update::delete(Entry::new(0x0200_0001, 0, [Slot::exact(0x0a00_0001)], 0x0100_0001, []));
    /// ```
    pub fn delete(key: Key) -> Update {
        let kind = UpdateKind::Delete;
        let entry = Entry::new(key.table, key.priority, key.slots, 0, []);
        Update { kind, entry }
    }
}

/// What an entry asks of one field. The kind is the field's, or the slot is omitted.
///
/// The functions with lowercase names take numbers as they are:
///
/// ```
/// use savorylatch::frame::{Slot, Value};
///
/// assert_eq!(Slot::range(0, 0xfe), Slot::Range(Value::new(0), Value::new(0xfe)));
/// ```
#[derive(Clone, Copy, Debug, Default, PartialEq, Eq)]
pub enum Slot {
    /// Nothing is asked. Not for an exact field.
    #[default]
    Omitted,
    /// The value.
    Exact(Value),
    /// A value and the length of its prefix, 1 to the field's width.
    Lpm(Value, u8),
    /// A value and a mask.
    Ternary(Value, Value),
    /// The lowest and the highest value.
    Range(Value, Value),
    /// The value, of an optional field.
    Optional(Value),
}

impl Slot {
    /// An exact value.
    pub fn exact(value: impl Into<Value>) -> Slot {
        Slot::Exact(value.into())
    }

    /// A value and the length of its prefix.
    pub fn lpm(value: impl Into<Value>, prefix: u8) -> Slot {
        Slot::Lpm(value.into(), prefix)
    }

    /// A value and a mask.
    pub fn ternary(value: impl Into<Value>, mask: impl Into<Value>) -> Slot {
        Slot::Ternary(value.into(), mask.into())
    }

    /// The lowest and the highest value.
    pub fn range(low: impl Into<Value>, high: impl Into<Value>) -> Slot {
        Slot::Range(low.into(), high.into())
    }

    /// The value of an optional field.
    pub fn optional(value: impl Into<Value>) -> Slot {
        Slot::Optional(value.into())
    }
}

/// A number in one to sixteen bytes, the highest first.
///
/// Two values are equal if they have the same bytes. The agent goes by the number: it takes leading
/// zero bytes, stores values in shortest form, and answers so.
///
/// ```
/// use savorylatch::frame::Value;
///
/// let shortest = Value::new(0x1ff);
/// assert_eq!(shortest.as_bytes(), [0x01, 0xff]);
///
/// let padded = Value::from_bytes(&[0x00, 0x01, 0xff]).unwrap();
/// assert_ne!(padded, shortest);
/// assert_eq!(padded.number(), shortest.number());
/// assert_eq!(padded.to_string(), "0x0001ff");
/// ```
#[derive(Clone, Copy, PartialEq, Eq, Hash)]
pub struct Value {
    /// 1 to 16.
    length: u8,
    /// 0 after the first `length`.
    bytes: [u8; 16],
}

impl Value {
    /// In shortest form: without leading zero bytes, and zero as one.
    pub const fn new(number: u128) -> Value {
        let length = match number {
            0 => 1,
            _ => 16 - number.leading_zeros() / 8,
        };
        Value {
            length: length as u8,
            bytes: (number << (8 * (16 - length))).to_be_bytes(),
        }
    }

    /// One to sixteen bytes as they are, with leading zeros; `None` for no bytes or more.
    pub fn from_bytes(bytes: &[u8]) -> Option<Value> {
        let mut value = Value {
            length: u8::try_from(bytes.len())
                .ok()
                .filter(|&length| length > 0)?,
            bytes: [0; 16],
        };
        value.bytes.get_mut(..bytes.len())?.copy_from_slice(bytes);
        Some(value)
    }

    /// The number.
    pub const fn number(&self) -> u128 {
        u128::from_be_bytes(self.bytes) >> (8 * (16 - self.length))
    }

    /// The bytes, leading zeros included.
    pub fn as_bytes(&self) -> &[u8] {
        &self.bytes[..usize::from(self.length)]
    }
}

impl From<u128> for Value {
    /// In shortest form.
    fn from(number: u128) -> Value {
        Value::new(number)
    }
}

impl fmt::Display for Value {
    fn fmt(&self, f: &mut fmt::Formatter<'_>) -> fmt::Result {
        f.write_str("0x")?;
        self.as_bytes()
            .iter()
            .try_for_each(|byte| write!(f, "{byte:02x}"))
    }
}

impl fmt::Debug for Value {
    fn fmt(&self, f: &mut fmt::Formatter<'_>) -> fmt::Result {
        fmt::Display::fmt(self, f)
    }
}

#[cfg(test)]
mod tests {
    use super::*;
    use crate::wire;

    fn bytes_of(entry: &Entry) -> Vec<u8> {
        wire::Entry::from(*entry).encode()
    }

    fn read(bytes: &[u8]) -> Option<Entry> {
        wire::Entry::decode(bytes)?.typed()
    }

    /// One entry with a slot of each of four kinds, and one with the other two.
    fn entries() -> [Entry; 2] {
        let slots = [
            Slot::exact(u128::MAX),
            Slot::lpm(0x0a00_0000, 8),
            Slot::ternary(0, 1),
            Slot::range(0, 0xfe),
        ];
        let padded = Value::from_bytes(&[0, 0, 3]).unwrap();
        let parameters = [1, 2, 300, 1 << 120].map(Value::new);
        [
            Entry::new(0x0200_0001, u32::MAX, slots, 0x0100_0001, parameters),
            Entry::new(
                0x02ff_ffff,
                0,
                [Slot::Omitted, Slot::optional(padded)],
                0x01ff_ffff,
                [padded],
            ),
        ]
    }

    #[test]
    fn what_is_written_is_read() {
        for entry in entries() {
            let bytes = bytes_of(&entry);
            assert_eq!(bytes.len(), 220);
            assert_eq!(read(&bytes), Some(entry));
            assert_eq!(read(&bytes[..219]), None);
            assert_eq!(read(&[&bytes[..], &[0]].concat()), None);
        }
    }

    #[test]
    fn what_is_no_entry_is_not_read() {
        // Where a byte is changed, and to what.
        let slot = |k: usize| 8 + 35 * k;
        for (at, byte) in [
            (slot(0), 6),      // no such kind
            (slot(0), 0),      // omitted, with a value
            (slot(0) + 18, 1), // exact, with a second value
            (slot(1) + 1, 0),  // a length that does not cover the bytes
            (slot(1) + 1, 17), // a length over 16
            (slot(1) + 17, 1), // padding
            (slot(1) + 18, 2), // a prefix length over 255
            (152, 17),         // a parameter's length over 16
            (152 + 16, 1),     // a parameter's padding
        ] {
            let mut bytes = bytes_of(&entries()[0]);
            bytes[at] = byte;
            assert_eq!(read(&bytes), None, "{at}: {byte}");
        }
        let mut missing = bytes_of(&entries()[0]);
        missing[slot(3) + 18..slot(3) + 35].fill(0);
        assert_eq!(read(&missing), None, "a range without its highest");
    }

    #[test]
    fn types_are_the_header_s() {
        let header = include_str!("../../../../c/include/savorylatch.h");
        for (name, kind) in [
            ("INSERT", UpdateKind::Insert),
            ("MODIFY", UpdateKind::Modify),
            ("DELETE", UpdateKind::Delete),
        ] {
            let line = format!("SAVORYLATCH_UPDATE_{name} = {}", kind as u8);
            let ends = [",", " "].map(|end| header.contains(&(line.clone() + end)));
            assert!(ends.contains(&true), "{line}");
        }
    }

    #[test]
    fn values_in_shortest_form() {
        for (number, bytes) in [
            (0, &[0][..]),
            (1, &[1]),
            (0xff, &[0xff]),
            (0x100, &[1, 0]),
            (1 << 64, &[1, 0, 0, 0, 0, 0, 0, 0, 0]),
            (u128::MAX, &[0xff; 16]),
            (u128::MAX >> 8, &[0xff; 15]),
        ] {
            let value = Value::new(number);
            assert_eq!(value.as_bytes(), bytes);
            assert_eq!(value.number(), number);
            assert_eq!(Value::from_bytes(bytes), Some(value));
        }
    }

    #[test]
    fn values_from_bytes() {
        assert_eq!(Value::from_bytes(&[]), None);
        assert_eq!(Value::from_bytes(&[0; 17]), None);
        assert_eq!(Value::from_bytes(&[0; 256]), None);
        assert_eq!(Value::from_bytes(&[0; 16]).unwrap().number(), 0);
        let padded = Value::from_bytes(&[0, 1, 0]).unwrap();
        assert_eq!((padded.number(), padded.as_bytes()), (256, &[0, 1, 0][..]));
    }
}
