//! The keys and entries of the cases.

use reference::bytes::{kind, Action, Entry, Key, Row, Slot, Value};

use super::{Form, Narrow};

/// The table of the cases with one.
pub const TABLE: u32 = 0x0200_0001;
/// The action of all entries.
pub const ACTION: u32 = 0x0100_0001;

/// Where the keys of a table's entries differ.
#[derive(Clone, Copy, Debug, PartialEq, Eq)]
pub enum Keys {
    /// One exact field of 128 bits; the first byte of its value differs.
    Early,
    /// The same; only the last byte of the value differs.
    Late,
    /// Four fields of 128 bits and four parameters; only the last byte of the last slot differs.
    Four,
    /// Of values with fewer than sixteen bytes, which are sent in a form.
    Narrow(Narrow, Form),
}

impl Keys {
    /// As it stands in a table.
    pub fn name(self) -> &'static str {
        match self {
            Keys::Early => "early",
            Keys::Late => "late",
            Keys::Four => "four slots",
            Keys::Narrow(narrow, _) => narrow.name(),
        }
    }

    /// The row of a table with such keys.
    pub fn row(self, table: u32, size: u16) -> Row {
        match self {
            Keys::Early | Keys::Late => {
                let action = Action::new(ACTION, &[9]);
                Row::new(table, 0, size, &[(kind::EXACT, 128)], &[action])
            }
            Keys::Four => {
                let fields = [kind::EXACT, kind::LPM, kind::TERNARY, kind::RANGE];
                let action = Action::new(ACTION, &[128; 4]);
                Row::new(table, 0, size, &fields.map(|kind| (kind, 128)), &[action])
            }
            Keys::Narrow(narrow, _) => narrow.row(table, size),
        }
    }

    /// The key of a number; unless narrow, all values in it but a prefix length have sixteen bytes.
    pub fn key(self, number: usize) -> Key {
        let mut value = [0x5a; 16];
        match self {
            Keys::Early => {
                // No leading zero byte; one of 256 keys differs in the second byte only.
                value[0] = 1 + (number % 255) as u8;
                value[1] = (number / 255) as u8;
                Key::new(0, &[Slot::exact(u128::from_be_bytes(value))])
            }
            Keys::Late => {
                value[14..].copy_from_slice(&(number as u16).to_be_bytes());
                Key::new(0, &[Slot::exact(u128::from_be_bytes(value))])
            }
            Keys::Four => {
                let same = u128::from_be_bytes(value);
                let low = same >> 16 << 16;
                let slots = [
                    Slot::exact(same),
                    Slot::lpm(same, 128),
                    Slot::ternary(same, u128::MAX),
                    Slot::range(low, low + number as u128),
                ];
                Key::new(1, &slots)
            }
            Keys::Narrow(narrow, form) => narrow.key(number, form),
        }
    }

    /// The entry of a number in a table, to a port.
    pub fn entry_in(self, table: u32, number: usize, port: u128) -> Entry {
        let params: &[Value] = match self {
            Keys::Early | Keys::Late | Keys::Narrow(..) => &[Value::of(port)],
            Keys::Four => &[Value::of(u128::MAX - port); 4],
        };
        Entry::new(table, self.key(number), ACTION, params)
    }

    /// The entry of a number in the one table.
    pub fn entry(self, number: usize) -> Entry {
        self.entry_in(TABLE, number, 7)
    }
}
