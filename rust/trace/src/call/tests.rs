//! Frames both ways, and what is wrong with a form.

use savorylatch::frame::Head;
use savorylatch::wire::{Action, Entry, Field, Slot, Value};

use super::*;

const HEAD: Head = Head {
    device: 0x0102_0304_0506_0708,
    role: 6,
    id: Some(0x1112_1314_1516_1718_191a_1b1c_1d1e_1f20),
};

/// An entry of which no two parts are alike.
fn entry() -> Entry {
    let value = |first: u8| Value {
        length: first,
        bytes: std::array::from_fn(|at| first ^ at as u8),
    };
    Entry {
        table: 0x0200_0001,
        key: Key {
            priority: 77,
            slots: std::array::from_fn(|at| Slot {
                kind: 9 + at as u8,
                first: value(20 + at as u8),
                second: value(30 + at as u8),
            }),
        },
        action: 0x0100_0002,
        parameters: std::array::from_fn(|at| value(40 + at as u8)),
    }
}

fn row() -> Row {
    Row {
        table: 0x0200_0003,
        owner: 9,
        size: 0x0405,
        field_count: 7,
        fields: std::array::from_fn(|at| Field {
            kind: at as u8,
            width: 100 + at as u8,
        }),
        action_count: 8,
        actions: std::array::from_fn(|at| Action {
            id: at as u32,
            count: at as u8,
            widths: [at as u8; 4],
        }),
    }
}

fn calls() -> Vec<Call> {
    let key = entry().key;
    let read = |wanted| Call::Read {
        device: 3,
        role: 200,
        wanted,
    };
    let update = Update {
        kind: 130,
        entry: entry(),
    };
    vec![
        Call::Open { stream: 255 },
        Call::Close { stream: 0 },
        Call::Arbitrate {
            stream: 4,
            head: HEAD,
        },
        Call::Arbitrate {
            stream: 4,
            head: Head { id: None, ..HEAD },
        },
        Call::Configure {
            head: HEAD,
            rows: vec![],
        },
        Call::Configure {
            head: HEAD,
            rows: vec![row(); ROWS],
        },
        Call::Write {
            head: HEAD,
            atomicity: 2,
            updates: vec![],
        },
        Call::Write {
            head: HEAD,
            atomicity: 0,
            updates: vec![update; UPDATES],
        },
        read(Wanted::Everything),
        read(Wanted::Table(9)),
        read(Wanted::Key { table: 9, key }),
    ]
}

#[test]
fn what_is_encoded_is_decoded() {
    for call in calls() {
        assert_eq!(Call::decode(&call.encode()), Ok(call));
    }
}

#[test]
fn lengths_are_document_01s() {
    let lengths: Vec<usize> = calls().iter().map(|call| call.encode().len()).collect();
    let (rows, updates) = (28 + 53 * 8, 29 + 221 * 64);
    assert_eq!(
        lengths,
        [2, 2, 28, 28, 28, rows, 29, updates, 159, 159, 159]
    );
}

#[test]
fn what_is_wrong_with_a_form_is_said() {
    let arbitrate = Call::Arbitrate {
        stream: 1,
        head: HEAD,
    };
    let write = Call::Write {
        head: HEAD,
        atomicity: 0,
        updates: vec![],
    };
    let configure = Call::Configure {
        head: HEAD,
        rows: vec![],
    };
    let read = Call::Read {
        device: 1,
        role: 0,
        wanted: Wanted::Table(1),
    };
    // Where a byte is changed, and to what.
    let changed = |call: &Call, at: usize, byte| {
        let mut frame = call.encode();
        frame[at] = byte;
        frame
    };
    let frames = [
        (vec![], "empty"),
        (vec![0], "command 00"),
        (vec![7, 1], "command 07"),
        (vec![1], "have 2 bytes, and this frame has 1"),
        (vec![2, 1, 1], "have 2 bytes, and this frame has 3"),
        (vec![3, 1], "28 bytes, and this frame has 2"),
        (vec![4, 1], "28 bytes and its rows, and this frame has 2"),
        (vec![5, 1], "29 bytes and its updates, and this frame has 2"),
        (vec![6, 1], "159 bytes, and this frame has 2"),
        (changed(&arbitrate, 11, 2), "flag is 2"),
        (changed(&arbitrate, 11, 0), "flag is 0, for unset"),
        (changed(&configure, 27, 9), "9 rows"),
        (changed(&configure, 27, 1), "of 1 rows has 81 bytes"),
        (changed(&write, 27, 3), "atomicity 3 is over 2"),
        (changed(&write, 28, 65), "65 updates"),
        (changed(&write, 28, 2), "of 2 updates has 471 bytes"),
        (changed(&read, 14, 2), "`only` is 2"),
        (changed(&read, 158, 1), "the key is not all zero"),
    ];
    for (frame, text) in frames {
        let wrong = Call::decode(&frame).unwrap_err();
        assert!(wrong.contains(text), "{wrong} / {text}");
    }
}
