//! Frames: what is handed to the agent, put together from typed parts. [`wire`] takes them apart.
//!
//! A builder takes whatever its types can express, and never panics. Some of that the agent
//! refuses: a stream over 31, say, or 65 updates. Each builder says under which reason; nothing
//! that does not fit is cut off to make a frame that the agent would take for another one.

mod entry;
mod row;

pub use entry::{Entry, Key, Slot, Update, UpdateKind, Value};
pub use row::{Action, Field, Kind, Row};

use crate::wire::{self, Frame};

/// The commands; the discriminant is the first byte of the frame.
#[derive(Clone, Copy, Debug, PartialEq, Eq, Hash)]
#[repr(u8)]
#[non_exhaustive]
pub enum Command {
    /// A stream is opened.
    Open = 0x01,
    /// A stream is closed.
    Close = 0x02,
    /// A controller makes its election id known.
    Arbitrate = 0x03,
    /// The rows are replaced, and the store is emptied.
    Configure = 0x04,
    /// Entries are inserted, modified and deleted.
    Write = 0x05,
    /// Entries are read.
    Read = 0x06,
}

impl Command {
    /// The command of a frame, or `None` if its first byte is none, or there is no first byte.
    ///
    /// ```
    /// use savorylatch::frame::{self, Command};
    ///
    /// assert_eq!(Command::of(&frame::close(3)), Some(Command::Close));
    /// assert_eq!(Command::of(&[]), None);
    /// ```
    pub fn of(frame: &[u8]) -> Option<Command> {
        match frame.first()? {
            0x01 => Some(Command::Open),
            0x02 => Some(Command::Close),
            0x03 => Some(Command::Arbitrate),
            0x04 => Some(Command::Configure),
            0x05 => Some(Command::Write),
            0x06 => Some(Command::Read),
            _ => None,
        }
    }
}

/// Who speaks: for which device, in which role, with which election id.
///
/// ```
/// use savorylatch::frame::Head;
///
/// let primary = Head { device: 1, role: 0, id: Some(5) };
/// let observer = Head { id: None, ..primary };
/// ```
#[derive(Clone, Copy, Debug, PartialEq, Eq)]
pub struct Head {
    /// The device id; one that is not the agent's is refused.
    pub device: u64,
    /// The role, 0 to 7; 0 is the default role.
    pub role: u8,
    /// The election id, or `None` for the unset one. The smallest is 1: a frame with `Some(0)` is
    /// refused under [`BadFrame`](crate::Reason::BadFrame).
    pub id: Option<u128>,
}

/// How a WRITE treats its updates as a whole, by the names of P4Runtime; the discriminant is the
/// byte in the frame.
#[derive(Clone, Copy, Debug, Default, PartialEq, Eq)]
#[repr(u8)]
pub enum Atomicity {
    /// Each update succeeds or fails alone.
    #[default]
    ContinueOnError = 0,
    /// All or none, in order. At the first update that fails the batch stops, and the entries are
    /// those before the call, order included: that update has its own reason, and every other has
    /// [`RolledBack`](crate::Reason::RolledBack).
    RollbackOnError = 1,
    /// All or none, for packets in flight too. The agent does not have it: refused under
    /// [`Atomicity`](crate::Reason::Atomicity).
    DataplaneAtomic = 2,
}

/// What a READ asks for, and for whom. No primary is needed.
#[derive(Clone, Copy, Debug, PartialEq, Eq)]
pub struct Query {
    /// The device id.
    pub device: u64,
    /// The role whose tables are read; role 0 may read all.
    pub role: u8,
    /// Which entries.
    pub wanted: Wanted,
}

/// Which entries a READ asks for.
#[derive(Clone, Copy, Debug, PartialEq, Eq)]
pub enum Wanted {
    /// Those of every table that the role may write.
    Everything,
    /// Those of one table. Table 0 stands for [`Everything`](Wanted::Everything).
    Table(u32),
    /// The one that has the key, if there is one. Table 0 is refused under
    /// [`BadFrame`](crate::Reason::BadFrame).
    Key(Key),
}

/// OPEN: a stream, 0 to 31, is opened. A number over 31 is refused under
/// [`BadFrame`](crate::Reason::BadFrame).
pub fn open(stream: u8) -> Vec<u8> {
    Frame::Open { stream }.encode()
}

/// CLOSE: a stream is closed, by its controller or because the connection broke off.
pub fn close(stream: u8) -> Vec<u8> {
    Frame::Close { stream }.encode()
}

/// ARBITRATE: the stream is bound to the role with the election id, or with none.
///
/// ```
/// use savorylatch::frame::{self, Head};
///
/// let head = Head { device: 1, role: 0, id: Some(5) };
/// let frame = frame::arbitrate(3, &head);
/// assert_eq!(frame[..2], [0x03, 3]);
/// assert_eq!(frame.len(), 28);
/// ```
pub fn arbitrate(stream: u8, head: &Head) -> Vec<u8> {
    let head = (*head).into();
    Frame::Arbitrate { stream, head }.encode()
}

/// CONFIGURE: the rows, 1 to 8, replace those in force, and the store is emptied.
///
/// No row, or more than 8, is refused under [`BadFrame`](crate::Reason::BadFrame). More than four
/// fields or actions in a row, or widths in an action, are refused under
/// [`RowsNotAllowed`](crate::Reason::RowsNotAllowed): the frame has room for four, and says how many
/// were given.
pub fn configure(head: &Head, rows: &[Row]) -> Vec<u8> {
    let frame = Frame::Configure {
        head: (*head).into(),
        rows: rows.iter().map(wire::Row::from).collect(),
    };
    frame.encode()
}

/// WRITE: the updates, up to 64, are taken in order. More are refused under
/// [`BadFrame`](crate::Reason::BadFrame).
///
/// ```
/// use savorylatch::frame::{self, Atomicity, Entry, Head, Slot, Update, Value};
///
/// let head = Head { device: 1, role: 0, id: Some(5) };
/// let to_port = |port| {
///     Entry::new(0x0200_0001, 0, [Slot::exact(0x0a00_0001)], 0x0100_0001, [Value::new(port)])
/// };
/// let batch = [Update::delete(to_port(7).key()), Update::insert(to_port(8))];
/// let frame = frame::write(&head, Atomicity::ContinueOnError, &batch);
/// assert_eq!(frame.len(), 29 + 221 * 2);
/// ```
///
/// With [`Atomicity::RollbackOnError`] all of them take effect, or none does:
/// [`View::rolled_back`](crate::answer::View::rolled_back) says which update was the cause. Here a
/// tenant is moved from one table to another, but the other is full:
///
/// ```
/// use savorylatch::answer::{Failure, Outcome};
/// use savorylatch::frame::{self, Action, Atomicity, Entry, Field, Head, Key, Kind};
/// use savorylatch::frame::{Query, Row, Slot, Update, Value, Wanted};
/// use savorylatch::{Agent, Answer, Command, Reason, Store};
///
/// const EAST: u32 = 0x0200_0001;
/// const WEST: u32 = 0x0200_0002;
/// const FORWARD: u32 = 0x0100_0001;
/// let row = |table, size| Row {
///     table,
///     owner: 0,
///     size,
///     fields: vec![Field { kind: Kind::Exact, width: 32 }],
///     actions: vec![Action { id: FORWARD, widths: vec![9] }],
/// };
/// let tenant = |table, address, port| {
///     Entry::new(table, 0, [Slot::exact(address)], FORWARD, [Value::new(port)])
/// };
/// let head = Head { device: 1, role: 0, id: Some(5) };
///
/// let (mut agent, mut store, mut answer) = (Agent::new(1), Store::new(), Answer::new());
/// let mut call = |frame: Vec<u8>| agent.call(&frame, &mut store, &mut answer);
/// assert_eq!(call(frame::open(1)), Reason::Done);
/// assert_eq!(call(frame::arbitrate(1, &head)), Reason::Done);
/// assert_eq!(call(frame::configure(&head, &[row(EAST, 4), row(WEST, 1)])), Reason::Done);
/// let before = [tenant(EAST, 0x0a00_0001, 7), tenant(WEST, 0x0a00_0009, 8)];
/// let batch = before.map(Update::insert);
/// assert_eq!(call(frame::write(&head, Atomicity::ContinueOnError, &batch)), Reason::Done);
///
/// let batch = [
///     Update::delete(Key::new(EAST, 0, [Slot::exact(0x0a00_0001)])),
///     Update::insert(tenant(WEST, 0x0a00_0001, 8)),
/// ];
/// let reason = call(frame::write(&head, Atomicity::RollbackOnError, &batch));
/// assert_eq!(reason, Reason::SomeFailed);
/// let view = answer.view(Command::Write)?;
/// let cause = Failure { update: 1, reason: Reason::TableFull };
/// assert_eq!(view.rolled_back(), Some(cause));
/// let outcomes: Vec<_> = view.outcomes().collect();
/// assert_eq!(outcomes, [Outcome::RolledBack, Outcome::Failed(Reason::TableFull)]);
///
/// // The tenant is where it was.
/// let everything = Query { device: 1, role: 0, wanted: Wanted::Everything };
/// agent.call(&frame::read(&everything), &mut store, &mut answer);
/// assert!(answer.view(Command::Read)?.entries().eq(before));
/// # Ok::<(), savorylatch::answer::Unreadable>(())
/// ```
pub fn write(head: &Head, atomicity: Atomicity, updates: &[Update]) -> Vec<u8> {
    let frame = Frame::Write {
        head: (*head).into(),
        atomicity: atomicity as u8,
        updates: updates.iter().copied().map(wire::Update::from).collect(),
    };
    frame.encode()
}

/// READ: entries are asked for.
///
/// ```
/// use savorylatch::frame::{self, Query, Wanted};
///
/// let frame = frame::read(&Query { device: 1, role: 0, wanted: Wanted::Everything });
/// assert_eq!(frame.len(), 159);
/// ```
pub fn read(query: &Query) -> Vec<u8> {
    let (table, key) = match query.wanted {
        Wanted::Everything => (0, None),
        Wanted::Table(table) => (table, None),
        Wanted::Key(key) => (key.table, Some(key)),
    };
    let frame = Frame::Read {
        device: query.device,
        role: query.role,
        table,
        only: u8::from(key.is_some()),
        key: key.unwrap_or_default().into(),
    };
    frame.encode()
}

#[cfg(test)]
mod tests {
    use super::*;
    use crate::bytes::unhex;

    const HEAD: Head = Head {
        device: 0x0102_0304_0506_0708,
        role: 6,
        id: Some(0x1112_1314_1516_1718_191a_1b1c_1d1e_1f20),
    };
    /// Its 26 bytes.
    const HEAD_HEX: &str = "0102030405060708 06 01 1112131415161718191a1b1c1d1e1f20";

    #[test]
    fn streams() {
        assert_eq!(open(3), unhex("01 03"));
        assert_eq!(close(255), unhex("02 ff"));
        assert_eq!(arbitrate(31, &HEAD), unhex(&format!("03 1f {HEAD_HEX}")));
        let unset = Head { id: None, ..HEAD };
        let frame = arbitrate(0, &unset);
        assert_eq!(frame[..11], unhex("03 00 0102030405060708 06"));
        assert_eq!(frame[11..], [0; 17]);
    }

    #[test]
    fn configure_has_its_rows_after_their_count() {
        let row = Row {
            table: 0x0200_0102,
            owner: 7,
            size: 0x0103,
            fields: vec![
                Field {
                    kind: Kind::Lpm,
                    width: 32,
                },
                Field {
                    kind: Kind::Optional,
                    width: 128,
                },
            ],
            actions: vec![Action {
                id: 0x0100_0304,
                widths: vec![9, 16, 1],
            }],
        };
        let row_hex = "02000102 07 0103  02 0220 0580 0000 0000  01 01000304 03 091001 00";
        let one = format!("04 {HEAD_HEX} 01 {row_hex}{}", "00".repeat(27));
        let eight = configure(&HEAD, &vec![row.clone(); 8]);
        assert_eq!(eight.len(), 28 + 53 * 8);
        assert_eq!(configure(&HEAD, &[row]), unhex(&one));
    }

    #[test]
    fn write_has_its_updates_after_their_count() {
        let entry = Entry::new(
            0x0200_0001,
            5,
            [Slot::ternary(0x0a00, 0xff00), Slot::lpm(0, 8)],
            0x0100_0001,
            [Value::new(7)],
        );
        let zeros = |n| "00".repeat(n);
        let key_hex = [
            "02000001 00000005",
            &format!("03 02 0a00 {} 02 ff00 {}", zeros(14), zeros(14)),
            &format!("02 01 00 {} 01 08 {}", zeros(15), zeros(15)),
            &zeros(70),
        ]
        .concat();
        let action_hex = format!("01000001 01 07 {} {}", zeros(15), zeros(51));
        let kind = UpdateKind::Delete;
        let frame = write(
            &HEAD,
            Atomicity::DataplaneAtomic,
            &[
                Update::modify(entry),
                Update::delete(entry.key()),
                Update { kind, entry },
            ],
        );
        let hex = [
            &format!("05 {HEAD_HEX} 02 03"),
            &format!("02 {key_hex} {action_hex}"),
            &format!("03 {key_hex} {}", zeros(72)),
            &format!("03 {key_hex} {action_hex}"),
        ];
        assert_eq!(frame, unhex(&hex.map(String::as_str).concat()));
    }

    #[test]
    fn write_has_its_atomicity_before_their_count() {
        for (atomicity, byte) in [
            (Atomicity::ContinueOnError, "00"),
            (Atomicity::RollbackOnError, "01"),
            (Atomicity::DataplaneAtomic, "02"),
        ] {
            let none = unhex(&format!("05 {HEAD_HEX} {byte} 00"));
            assert_eq!(write(&HEAD, atomicity, &[]), none, "no update");
        }
    }

    #[test]
    fn read_has_its_key_last() {
        let query = |wanted| Query {
            device: 0x0102_0304_0506_0708,
            role: 6,
            wanted,
        };
        let frame = |table, only, key: String| {
            unhex(&format!("06 0102030405060708 06 {table} {only} {key}"))
        };
        assert_eq!(
            read(&query(Wanted::Everything)),
            frame("00000000", "00", "00".repeat(144))
        );
        assert_eq!(
            read(&query(Wanted::Table(0x0200_0001))),
            frame("02000001", "00", "00".repeat(144))
        );
        let key = Key::new(0x0200_0001, 9, [Slot::Omitted, Slot::optional(1)]);
        let key_hex = [
            "00000009",
            &"00".repeat(35),
            "05 01 01",
            &"00".repeat(15 + 17 + 70),
        ];
        assert_eq!(
            read(&query(Wanted::Key(key))),
            frame("02000001", "01", key_hex.concat())
        );
    }

    #[test]
    fn no_number_of_parts_panics_or_wraps() {
        let entry = Entry::new(0x0200_0001, 0, [], 0, []);
        for n in [65, 255, 256, 257, 320] {
            let frame = write(
                &HEAD,
                Atomicity::ContinueOnError,
                &vec![Update::insert(entry); n],
            );
            assert_eq!(usize::from(frame[28]), n.min(255));
        }
        let row = Row {
            table: 0x0200_0001,
            owner: 0,
            size: 1,
            fields: vec![
                Field {
                    kind: Kind::Exact,
                    width: 1
                };
                257
            ],
            actions: vec![
                Action {
                    id: 0x0100_0001,
                    widths: vec![1; 256]
                };
                5
            ],
        };
        let frame = configure(&HEAD, &vec![row; 257]);
        assert_eq!(frame[27], 255);
        let first = &frame[28..28 + 53];
        assert_eq!((first[7], first[16], first[17 + 4]), (255, 5, 255));
        assert_eq!(frame.len(), 28 + 53 * 257);
    }
}
