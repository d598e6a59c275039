//! Padded keys (document 02, request Four): each case is there twice, with the values of its keys in
//! shortest form and padded with leading zeros to sixteen bytes. Nothing else differs: the entries
//! are stored in shortest form whichever was sent.

use reference::bytes::{kind, Action, Key, Row, Slot, Value};

use super::entries::{by_key, delete_last, insert, modify, modify_many, read_one};
use super::keys::ACTION;
use super::{Case, Keys, FULL};

/// A number of twelve digits, none of them zero, and the same with its last two digits zero.
const SAME: u128 = 0x5a5a_5a5a_5a5a_5a5a_5a5a_5a5a;
const LOW: u128 = SAME >> 16 << 16;
/// The address 10.0.0.0.
const ADDRESS: u128 = 0x0a00_0000;
/// Twelve bytes of ones.
const MASK: u128 = u128::MAX >> 32;

/// Keys whose values, in shortest form, have fewer than sixteen bytes, by where they differ.
#[derive(Clone, Copy, Debug, PartialEq, Eq)]
pub enum Narrow {
    /// One exact field of 128 bits; the first digit of its twelve differs.
    Early,
    /// The same; only the last digit differs.
    Late,
    /// One exact field of 32 bits; only the last digit of its four differs.
    Address,
    /// Four fields of 128 bits; only the last digit of the second slot's first value differs.
    Middle,
    /// The same; only the last digit of the last slot's second value differs.
    Four,
}

/// How the values of a key are sent.
#[derive(Clone, Copy, Debug, PartialEq, Eq)]
pub enum Form {
    Shortest,
    Padded,
}

/// What is done with a key: with its kind of keys, a row of the table of padded keys.
#[derive(Clone, Copy, Debug, PartialEq, Eq)]
pub enum Task {
    ModifyFirst,
    ModifyLast,
    ModifyMany,
    InsertFirst,
    InsertLast,
    Delete,
    ReadFirst,
    ReadLast,
    ReadAbsent,
}

/// Both forms of every task, for each kind of keys.
pub fn all() -> Vec<Case> {
    let mut cases = Vec::new();
    for narrow in Narrow::ALL {
        for task in Task::ALL {
            cases.extend(Form::ALL.map(|form| task.case(narrow, form)));
        }
    }
    cases
}

impl Form {
    pub const ALL: [Form; 2] = [Form::Shortest, Form::Padded];

    fn name(self) -> &'static str {
        match self {
            Form::Shortest => "shortest",
            Form::Padded => "padded",
        }
    }

    fn value(self, number: u128) -> Value {
        match self {
            Form::Shortest => Value::of(number),
            Form::Padded => Value::padded(number, 16),
        }
    }
}

impl Narrow {
    pub const ALL: [Narrow; 5] = [
        Narrow::Early,
        Narrow::Late,
        Narrow::Address,
        Narrow::Middle,
        Narrow::Four,
    ];

    /// As it stands in a table.
    pub fn name(self) -> &'static str {
        match self {
            Narrow::Early => "early",
            Narrow::Late => "late",
            Narrow::Address => "4 bytes",
            Narrow::Middle => "middle of four slots",
            Narrow::Four => "four slots",
        }
    }

    /// The row of a table with such keys. Its action has one parameter, which is never padded.
    pub fn row(self, table: u32, size: u16) -> Row {
        let row = |fields| Row::new(table, 0, size, fields, &[Action::new(ACTION, &[9])]);
        match self {
            Narrow::Early | Narrow::Late => row(&[(kind::EXACT, 128)]),
            Narrow::Address => row(&[(kind::EXACT, 32)]),
            Narrow::Middle | Narrow::Four => {
                let fields = [kind::EXACT, kind::LPM, kind::TERNARY, kind::RANGE];
                row(&fields.map(|kind| (kind, 128)))
            }
        }
    }

    /// The key of a number.
    pub fn key(self, number: usize, form: Form) -> Key {
        let exact = |value| Key::new(0, &[Slot::exact(form.value(value))]);
        let nth = number as u128;
        match self {
            Narrow::Early => {
                // One of 256 keys differs in the second digit only.
                let digits = (1 + nth % 255) << 88 | (nth / 255) << 80;
                exact(digits | (SAME & (u128::MAX >> 48)))
            }
            Narrow::Late => exact(LOW + nth),
            Narrow::Address => exact(ADDRESS + nth),
            Narrow::Middle => four(LOW + nth, SAME, form),
            Narrow::Four => four(SAME, LOW + nth, form),
        }
    }
}

/// A key of four slots with these values as the second slot's first and the last slot's second one.
/// Every value but the prefix length has twelve digits.
fn four(second: u128, last: u128, form: Form) -> Key {
    let value = |number| form.value(number);
    let slots = [
        Slot::exact(value(SAME)),
        Slot::lpm(value(second), value(128)),
        Slot::ternary(value(SAME), value(MASK)),
        Slot::range(value(LOW), value(last)),
    ];
    Key::new(1, &slots)
}

impl Task {
    pub const ALL: [Task; 9] = [
        Task::ModifyFirst,
        Task::ModifyLast,
        Task::ModifyMany,
        Task::InsertFirst,
        Task::InsertLast,
        Task::Delete,
        Task::ReadFirst,
        Task::ReadLast,
        Task::ReadAbsent,
    ];

    /// As it stands in a table.
    pub fn name(self) -> &'static str {
        match self {
            Task::ModifyFirst => "WRITE of 1 MODIFY, first of 256",
            Task::ModifyLast => "WRITE of 1 MODIFY, last of 256",
            Task::ModifyMany => "WRITE of 64 MODIFYs, every fourth of 256",
            Task::InsertFirst => "WRITE of 1 INSERT, store empty",
            Task::InsertLast => "WRITE of 1 INSERT, at the last place (255)",
            Task::Delete => "WRITE of 1 DELETE by key alone, last of 256",
            Task::ReadFirst => "READ of 1 key, first of 256",
            Task::ReadLast => "READ of 1 key, last of 256",
            Task::ReadAbsent => "READ of 1 key, absent from 256",
        }
    }

    fn case(self, narrow: Narrow, form: Form) -> Case {
        let name = format!("{}: {}", self.name(), form.name());
        let keys = Keys::Narrow(narrow, form);
        let case = match self {
            Task::ModifyFirst => modify(&name, keys, 0),
            Task::ModifyLast => modify(&name, keys, FULL - 1),
            Task::ModifyMany => modify_many(&name, keys),
            Task::InsertFirst => insert(&name, keys, 0),
            Task::InsertLast => insert(&name, keys, FULL - 1),
            Task::Delete => delete_last(&name, keys, 1, by_key),
            Task::ReadFirst => read_one(&name, keys, 0),
            Task::ReadLast => read_one(&name, keys, FULL - 1),
            Task::ReadAbsent => read_one(&name, keys, FULL),
        };
        Case {
            command: "padded",
            task: Some(self),
            ..case
        }
    }
}

#[cfg(test)]
mod tests {
    use super::*;

    /// The values of a key that are there.
    fn values(key: Key) -> Vec<Value> {
        let both = key.slots.iter().flat_map(|slot| [slot.first, slot.second]);
        both.filter(|&value| value != Value::NONE).collect()
    }

    #[test]
    fn a_pair_differs_in_padding_only() {
        for narrow in Narrow::ALL {
            for number in 0..=FULL {
                let short = narrow.key(number, Form::Shortest);
                let padded = narrow.key(number, Form::Padded);
                assert_eq!(short.priority, padded.priority);
                let numbers = values(padded).into_iter().map(|value| {
                    assert_eq!((value.length, value.bytes[0]), (16, 0));
                    Value::of(u128::from_be_bytes(value.bytes))
                });
                assert_eq!(values(short), numbers.collect::<Vec<_>>());
            }
        }
    }

    #[test]
    fn shortest_forms_are_as_long_as_they_are_said_to_be() {
        for narrow in Narrow::ALL {
            let lengths = |number| {
                let key = narrow.key(number, Form::Shortest);
                values(key).iter().map(|value| value.length).collect()
            };
            let expected: Vec<u8> = match narrow {
                Narrow::Early | Narrow::Late => vec![12],
                Narrow::Address => vec![4],
                Narrow::Middle | Narrow::Four => vec![12, 12, 1, 12, 12, 12, 12],
            };
            let all: Vec<Vec<u8>> = (0..=FULL).map(lengths).collect();
            assert!(all.iter().all(|lengths| *lengths == expected));
        }
    }

    #[test]
    fn no_two_keys_are_the_same() {
        for narrow in Narrow::ALL {
            let key = |number| narrow.key(number, Form::Shortest).bytes();
            let mut keys: Vec<[u8; 144]> = (0..=FULL).map(key).collect();
            keys.sort_unstable();
            keys.dedup();
            assert_eq!(keys.len(), FULL + 1);
        }
    }
}
