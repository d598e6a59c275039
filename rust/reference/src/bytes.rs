//! Building frames, and the pieces of answers.
//!
//! Every builder takes what it is given: fields are public, numbers are not
//! checked, and each type has a raw form, so a malformed frame is built the
//! same way as a good one. Nothing here is used by the agent.

/// Puts a frame's bytes together.
macro_rules! frame {
    ($($part:expr),* $(,)?) => {{
        let mut bytes: Vec<u8> = Vec::new();
        $(bytes.extend_from_slice(&$part);)*
        bytes
    }};
}

/// The kinds of slots and fields.
pub mod kind {
    pub const OMITTED: u8 = 0;
    pub const EXACT: u8 = 1;
    pub const LPM: u8 = 2;
    pub const TERNARY: u8 = 3;
    pub const RANGE: u8 = 4;
    pub const OPTIONAL: u8 = 5;
}

/// Device, role, id flag and election id, as they stand in a frame.
#[derive(Clone, Copy, Debug, PartialEq, Eq)]
pub struct Head {
    pub device: u64,
    pub role: u8,
    pub flag: u8,
    pub id: u128,
}

impl Head {
    /// With an id that is set.
    pub fn set(device: u64, role: u8, id: u128) -> Head {
        Head {
            device,
            role,
            flag: 1,
            id,
        }
    }

    /// With the unset id.
    pub fn unset(device: u64, role: u8) -> Head {
        Head {
            device,
            role,
            flag: 0,
            id: 0,
        }
    }

    pub fn bytes(&self) -> [u8; 26] {
        let mut bytes = [0; 26];
        bytes[..8].copy_from_slice(&self.device.to_be_bytes());
        bytes[8] = self.role;
        bytes[9] = self.flag;
        bytes[10..].copy_from_slice(&self.id.to_be_bytes());
        bytes
    }
}

/// A value: a length and sixteen bytes, of any content.
#[derive(Clone, Copy, Debug, PartialEq, Eq, Default)]
pub struct Value {
    pub length: u8,
    pub bytes: [u8; 16],
}

impl Value {
    /// 17 zero bytes.
    pub const NONE: Value = Value {
        length: 0,
        bytes: [0; 16],
    };

    /// A number in shortest form.
    pub fn of(number: u128) -> Value {
        let bytes = number.to_be_bytes();
        let zeros = bytes.iter().take(15).take_while(|&&byte| byte == 0).count();
        Value::string(&bytes[zeros..])
    }

    /// A number in `length` bytes, 1 to 16, the highest of them possibly zero.
    /// Bytes that do not fit are dropped.
    pub fn padded(number: u128, length: usize) -> Value {
        Value::string(&number.to_be_bytes()[16 - length..])
    }

    /// Up to sixteen bytes as they stand, leading zeros included.
    pub fn string(string: &[u8]) -> Value {
        let mut bytes = [0; 16];
        bytes[..string.len()].copy_from_slice(string);
        Value {
            length: string.len() as u8,
            bytes,
        }
    }

    pub fn bytes(&self) -> [u8; 17] {
        let mut bytes = [0; 17];
        bytes[0] = self.length;
        bytes[1..].copy_from_slice(&self.bytes);
        bytes
    }
}

impl From<u128> for Value {
    fn from(number: u128) -> Value {
        Value::of(number)
    }
}

/// A slot: a kind and two values, of any content.
#[derive(Clone, Copy, Debug, PartialEq, Eq, Default)]
pub struct Slot {
    pub kind: u8,
    pub first: Value,
    pub second: Value,
}

impl Slot {
    /// 35 zero bytes: an omitted or an unused slot.
    pub const OMITTED: Slot = Slot {
        kind: kind::OMITTED,
        first: Value::NONE,
        second: Value::NONE,
    };

    pub fn exact(value: impl Into<Value>) -> Slot {
        Slot {
            kind: kind::EXACT,
            first: value.into(),
            second: Value::NONE,
        }
    }

    pub fn lpm(value: impl Into<Value>, prefix: impl Into<Value>) -> Slot {
        Slot {
            kind: kind::LPM,
            first: value.into(),
            second: prefix.into(),
        }
    }

    pub fn ternary(value: impl Into<Value>, mask: impl Into<Value>) -> Slot {
        Slot {
            kind: kind::TERNARY,
            first: value.into(),
            second: mask.into(),
        }
    }

    pub fn range(low: impl Into<Value>, high: impl Into<Value>) -> Slot {
        Slot {
            kind: kind::RANGE,
            first: low.into(),
            second: high.into(),
        }
    }

    pub fn optional(value: impl Into<Value>) -> Slot {
        Slot {
            kind: kind::OPTIONAL,
            first: value.into(),
            second: Value::NONE,
        }
    }

    pub fn bytes(&self) -> [u8; 35] {
        let mut bytes = [0; 35];
        bytes[0] = self.kind;
        bytes[1..18].copy_from_slice(&self.first.bytes());
        bytes[18..].copy_from_slice(&self.second.bytes());
        bytes
    }
}

/// A key without its table: a priority and four slots.
#[derive(Clone, Copy, Debug, PartialEq, Eq, Default)]
pub struct Key {
    pub priority: u32,
    pub slots: [Slot; 4],
}

impl Key {
    /// 144 zero bytes.
    pub const ZERO: Key = Key {
        priority: 0,
        slots: [Slot::OMITTED; 4],
    };

    /// Up to four slots, the others unused.
    pub fn new(priority: u32, slots: &[Slot]) -> Key {
        Key {
            priority,
            slots: filled(slots),
        }
    }

    pub fn bytes(&self) -> [u8; 144] {
        let mut bytes = [0; 144];
        bytes[..4].copy_from_slice(&self.priority.to_be_bytes());
        for (slot, out) in self.slots.iter().zip(bytes[4..].chunks_exact_mut(35)) {
            out.copy_from_slice(&slot.bytes());
        }
        bytes
    }
}

/// An entry: table, key, action and four parameters.
#[derive(Clone, Copy, Debug, PartialEq, Eq, Default)]
pub struct Entry {
    pub table: u32,
    pub key: Key,
    pub action: u32,
    pub params: [Value; 4],
}

impl Entry {
    /// Up to four parameters, the others unused.
    pub fn new(table: u32, key: Key, action: u32, params: &[Value]) -> Entry {
        Entry {
            table,
            key,
            action,
            params: filled(params),
        }
    }

    pub fn bytes(&self) -> [u8; 220] {
        let mut bytes = [0; 220];
        bytes[..4].copy_from_slice(&self.table.to_be_bytes());
        bytes[4..148].copy_from_slice(&self.key.bytes());
        bytes[148..152].copy_from_slice(&self.action.to_be_bytes());
        for (param, out) in self.params.iter().zip(bytes[152..].chunks_exact_mut(17)) {
            out.copy_from_slice(&param.bytes());
        }
        bytes
    }
}

/// An update: a type and an entry.
#[derive(Clone, Copy, Debug, PartialEq, Eq)]
pub struct Update {
    pub kind: u8,
    pub entry: Entry,
}

impl Update {
    pub fn insert(entry: Entry) -> Update {
        Update { kind: 1, entry }
    }

    pub fn modify(entry: Entry) -> Update {
        Update { kind: 2, entry }
    }

    pub fn delete(entry: Entry) -> Update {
        Update { kind: 3, entry }
    }

    pub fn bytes(&self) -> [u8; 221] {
        let mut bytes = [0; 221];
        bytes[0] = self.kind;
        bytes[1..].copy_from_slice(&self.entry.bytes());
        bytes
    }
}

/// An action of a row: an id, a parameter count and four widths.
#[derive(Clone, Copy, Debug, PartialEq, Eq, Default)]
pub struct Action {
    pub id: u32,
    pub count: u8,
    pub widths: [u8; 4],
}

impl Action {
    /// As many parameters as widths, up to four.
    pub fn new(id: u32, widths: &[u8]) -> Action {
        Action {
            id,
            count: widths.len() as u8,
            widths: filled(widths),
        }
    }

    pub fn bytes(&self) -> [u8; 9] {
        let mut bytes = [0; 9];
        bytes[..4].copy_from_slice(&self.id.to_be_bytes());
        bytes[4] = self.count;
        bytes[5..].copy_from_slice(&self.widths);
        bytes
    }
}

/// A row of a CONFIGURE.
#[derive(Clone, Copy, Debug, PartialEq, Eq)]
pub struct Row {
    pub table: u32,
    pub owner: u8,
    pub size: u16,
    pub field_count: u8,
    /// Kind and width of each field.
    pub fields: [(u8, u8); 4],
    pub action_count: u8,
    pub actions: [Action; 4],
}

impl Row {
    /// As many fields and actions as are given, up to four each.
    pub fn new(table: u32, owner: u8, size: u16, fields: &[(u8, u8)], actions: &[Action]) -> Row {
        Row {
            table,
            owner,
            size,
            field_count: fields.len() as u8,
            fields: filled(fields),
            action_count: actions.len() as u8,
            actions: filled(actions),
        }
    }

    pub fn bytes(&self) -> [u8; 53] {
        let mut bytes = [0; 53];
        bytes[..4].copy_from_slice(&self.table.to_be_bytes());
        bytes[4] = self.owner;
        bytes[5..7].copy_from_slice(&self.size.to_be_bytes());
        bytes[7] = self.field_count;
        for (&(kind, width), out) in self.fields.iter().zip(bytes[8..16].chunks_exact_mut(2)) {
            out.copy_from_slice(&[kind, width]);
        }
        bytes[16] = self.action_count;
        for (action, out) in self.actions.iter().zip(bytes[17..].chunks_exact_mut(9)) {
            out.copy_from_slice(&action.bytes());
        }
        bytes
    }
}

/// 01 OPEN.
pub fn open(stream: u8) -> Vec<u8> {
    vec![0x01, stream]
}

/// 02 CLOSE.
pub fn close(stream: u8) -> Vec<u8> {
    vec![0x02, stream]
}

/// 03 ARBITRATE.
pub fn arbitrate(stream: u8, head: Head) -> Vec<u8> {
    frame![[0x03, stream], head.bytes()]
}

/// 04 CONFIGURE.
pub fn configure(head: Head, rows: &[Row]) -> Vec<u8> {
    let bytes: Vec<u8> = rows.iter().flat_map(Row::bytes).collect();
    configure_raw(head, rows.len() as u8, &bytes)
}

/// 04 CONFIGURE with a row count that need not agree with the bytes after it.
pub fn configure_raw(head: Head, count: u8, rows: &[u8]) -> Vec<u8> {
    frame![[0x04], head.bytes(), [count], rows]
}

/// 05 WRITE.
pub fn write(head: Head, atomicity: u8, updates: &[Update]) -> Vec<u8> {
    let bytes: Vec<u8> = updates.iter().flat_map(Update::bytes).collect();
    write_raw(head, atomicity, updates.len() as u8, &bytes)
}

/// 05 WRITE with an update count that need not agree with the bytes after it.
pub fn write_raw(head: Head, atomicity: u8, count: u8, updates: &[u8]) -> Vec<u8> {
    frame![[0x05], head.bytes(), [atomicity, count], updates]
}

/// 06 READ.
pub fn read(device: u64, role: u8, table: u32, only: u8, key: Key) -> Vec<u8> {
    frame![
        [0x06],
        device.to_be_bytes(),
        [role],
        table.to_be_bytes(),
        [only],
        key.bytes()
    ]
}

/// 06 READ of all entries of a table, or of every table for 0.
pub fn read_all(device: u64, role: u8, table: u32) -> Vec<u8> {
    read(device, role, table, 0, Key::ZERO)
}

/// 06 READ of the entry of a key.
pub fn read_one(device: u64, role: u8, table: u32, key: Key) -> Vec<u8> {
    read(device, role, table, 1, key)
}

/// An answer: reason, code, the number of records, the records.
pub fn answer<R: AsRef<[u8]>>(reason: u8, code: u8, records: &[R]) -> Vec<u8> {
    let mut bytes = frame![[reason, code], (records.len() as u16).to_be_bytes()];
    for record in records {
        bytes.extend_from_slice(record.as_ref());
    }
    bytes
}

/// A notification; `None` is a role without a mark.
pub fn notice(stream: u8, role: u8, status: u8, mark: Option<u128>) -> [u8; 20] {
    let mut bytes = [0; 20];
    bytes[..4].copy_from_slice(&[stream, role, status, u8::from(mark.is_some())]);
    bytes[4..].copy_from_slice(&mark.unwrap_or(0).to_be_bytes());
    bytes
}

/// Up to four items, the places after them at their default.
fn filled<T: Copy + Default>(items: &[T]) -> [T; 4] {
    let mut all = [T::default(); 4];
    all[..items.len()].copy_from_slice(items);
    all
}
