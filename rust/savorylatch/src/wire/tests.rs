//! Frames both ways, and which are none.

use super::*;
use crate::bytes::unhex;
use crate::frame::Command;

const HEAD: Head = Head {
    device: 0x0102_0304_0506_0708,
    role: 6,
    flag: 9,
    id: 0x1112_1314_1516_1718_191a_1b1c_1d1e_1f20,
};
/// Its 26 bytes.
const HEAD_HEX: &str = "0102030405060708 06 09 1112131415161718191a1b1c1d1e1f20";

/// An entry of which no two parts are alike.
fn entry() -> Entry {
    let value = |first: u8| Value {
        length: first,
        bytes: std::array::from_fn(|at| first ^ at as u8),
    };
    Entry {
        table: 0x0200_0001,
        key: Key {
            priority: 77,
            slots: std::array::from_fn(|at| Slot {
                kind: 9 + at as u8,
                first: value(20 + at as u8),
                second: value(30 + at as u8),
            }),
        },
        action: 0x0100_0002,
        parameters: std::array::from_fn(|at| value(40 + at as u8)),
    }
}

fn row() -> Row {
    Row {
        table: 0x0200_0003,
        owner: 9,
        size: 0x0405,
        field_count: 7,
        fields: std::array::from_fn(|at| Field {
            kind: at as u8,
            width: 100 + at as u8,
        }),
        action_count: 8,
        actions: std::array::from_fn(|at| Action {
            id: at as u32,
            count: at as u8,
            widths: [at as u8; 4],
        }),
    }
}

/// With more parts than well formed ones have, and numbers that none of those has.
fn frames() -> Vec<Frame> {
    let update = Update {
        kind: 130,
        entry: entry(),
    };
    let configure = |rows| Frame::Configure { head: HEAD, rows };
    let write = |updates| Frame::Write {
        head: HEAD,
        atomicity: 200,
        updates,
    };
    vec![
        Frame::Open { stream: 255 },
        Frame::Close { stream: 0 },
        Frame::Arbitrate {
            stream: 4,
            head: HEAD,
        },
        configure(vec![]),
        configure(vec![row(); 255]),
        write(vec![]),
        write(vec![update; 255]),
        Frame::Read {
            device: 3,
            role: 200,
            table: 9,
            only: 7,
            key: entry().key,
        },
    ]
}

#[test]
fn what_is_encoded_is_decoded() {
    for frame in frames() {
        let bytes = frame.encode();
        assert_eq!(Command::of(&bytes), Some(frame.command()));
        assert_eq!(Frame::decode(&bytes), Ok(frame));
    }
}

#[test]
fn lengths_are_document_01s() {
    let lengths: Vec<usize> = frames().iter().map(|frame| frame.encode().len()).collect();
    let (rows, updates) = (28 + 53 * 255, 29 + 221 * 255);
    assert_eq!(lengths, [2, 2, 28, 28, rows, 29, updates, 159]);
    assert_eq!(entry().encode().len(), 220);
}

#[test]
fn every_part_has_its_place() {
    let arbitrate = Frame::Arbitrate {
        stream: 4,
        head: HEAD,
    };
    assert_eq!(arbitrate.encode(), unhex(&format!("03 04 {HEAD_HEX}")));
    let configure = Frame::Configure {
        head: HEAD,
        rows: vec![row()],
    };
    let row_hex = "02000003 09 0405  07 0064 0165 0266 0367  08 \
                   00000000 00 00000000  00000001 01 01010101  \
                   00000002 02 02020202  00000003 03 03030303";
    let hex = format!("04 {HEAD_HEX} 01 {row_hex}");
    assert_eq!(configure.encode(), unhex(&hex));
    // A value's bytes, and those of slots and parameters.
    let value = |length: u8| {
        let bytes = (0..16u8).map(|at| format!("{:02x}", length ^ at));
        format!("{length:02x} {}", bytes.collect::<String>())
    };
    let slot = |at: u8| format!("{:02x} {} {}", 9 + at, value(20 + at), value(30 + at));
    let key_hex = format!("0000004d {}", (0..4).map(slot).collect::<String>());
    let parameters: String = (40..44).map(value).collect();
    let entry_hex = format!("02000001 {key_hex} 01000002 {parameters}");
    assert_eq!(entry().encode(), unhex(&entry_hex));
    let write = Frame::Write {
        head: HEAD,
        atomicity: 2,
        updates: vec![Update {
            kind: 3,
            entry: entry(),
        }],
    };
    let hex = format!("05 {HEAD_HEX} 02 01 03 {entry_hex}");
    assert_eq!(write.encode(), unhex(&hex));
    let read = Frame::Read {
        device: 3,
        role: 200,
        table: 9,
        only: 7,
        key: entry().key,
    };
    let hex = format!("06 0000000000000003 c8 00000009 07 {key_hex}");
    assert_eq!(read.encode(), unhex(&hex));
}

#[test]
fn every_other_length_is_malformed() {
    for frame in frames() {
        let bytes = frame.encode();
        let longer = [&bytes[..], &[0]].concat();
        for other in [&bytes[..bytes.len() - 1], &longer] {
            let Err(Malformed::Length {
                command, due, has, ..
            }) = Frame::decode(other)
            else {
                panic!("{} bytes of {:?}", other.len(), frame.command())
            };
            assert_eq!((command, has), (frame.command(), other.len()));
            assert_ne!(due, has);
        }
    }
    for frame in frames() {
        let bytes = frame.encode();
        for length in 1..bytes.len().min(160) {
            assert!(Frame::decode(&bytes[..length]).is_err(), "{length}");
        }
    }
}

#[test]
fn what_is_malformed_is_said() {
    let configure = |rows| {
        let mut bytes = frames()[3].encode();
        bytes[27] = rows;
        bytes
    };
    let write = |updates| {
        let mut bytes = frames()[5].encode();
        bytes[28] = updates;
        bytes
    };
    for (bytes, text) in [
        (vec![], "the frame is empty"),
        (vec![0], "command 00 is unknown; there are 01 to 06"),
        (vec![7, 1], "command 07 is unknown; there are 01 to 06"),
        (vec![1], "OPEN and CLOSE have 2 bytes, and this frame has 1"),
        (
            vec![2, 1, 1],
            "OPEN and CLOSE have 2 bytes, and this frame has 3",
        ),
        (
            vec![3, 1],
            "an ARBITRATE has 28 bytes, and this frame has 2",
        ),
        (
            vec![4, 1],
            "a CONFIGURE has 28 bytes and its rows, and this frame has 2",
        ),
        (
            vec![5; 28],
            "a WRITE has 29 bytes and its updates, and this frame has 28",
        ),
        (vec![6, 1], "a READ has 159 bytes, and this frame has 2"),
        (
            configure(1),
            "a CONFIGURE of 1 rows has 81 bytes, and this frame has 28",
        ),
        (
            write(2),
            "a WRITE of 2 updates has 471 bytes, and this frame has 29",
        ),
    ] {
        assert_eq!(Frame::decode(&bytes).unwrap_err().to_string(), text);
    }
}

#[test]
fn heads_in_types() {
    let head = |flag, id| Head { flag, id, ..HEAD };
    let id = |head: Head| head.typed().map(|head| head.id);
    assert_eq!(id(head(0, 0)), Some(None));
    assert_eq!(id(head(1, 5)), Some(Some(5)));
    // The agent refuses it, but a host may build it.
    assert_eq!(id(head(1, 0)), Some(Some(0)));
    for (flag, number) in [(0, 5), (2, 5), (2, 0)] {
        assert_eq!(id(head(flag, number)), None);
    }
    for head in [head(0, 0), head(1, 5)] {
        assert_eq!(Head::from(head.typed().unwrap()), head);
    }
}

/// Slots of every kind by their numbers, beside the typed ones.
#[test]
fn typed_slots_have_their_numbers() {
    use frame::Slot as Typed;
    let slot = |kind, first: Option<u128>, second: Option<u128>| Slot {
        kind,
        first: first.map_or(Value::default(), Value::new),
        second: second.map_or(Value::default(), Value::new),
    };
    for (typed, wire) in [
        (Typed::Omitted, slot(0, None, None)),
        (Typed::exact(0x0a00_0001), slot(1, Some(0x0a00_0001), None)),
        (Typed::lpm(0x0a00, 8), slot(2, Some(0x0a00), Some(8))),
        (Typed::ternary(0, 0xff), slot(3, Some(0), Some(0xff))),
        (Typed::range(1, 300), slot(4, Some(1), Some(300))),
        (Typed::optional(1 << 100), slot(5, Some(1 << 100), None)),
    ] {
        assert_eq!(Slot::from(typed), wire);
        assert_eq!(wire.typed(), Some(typed));
    }
}

#[test]
fn values() {
    assert_eq!(Value::new(0).digits(), Some(&[0][..]));
    assert_eq!(Value::new(0x100).digits(), Some(&[1, 0][..]));
    assert_eq!(Value::new(u128::MAX).number(), Some(u128::MAX));
    assert_eq!(Value::from_bytes(&[]), None);
    assert_eq!(Value::from_bytes(&[0; 17]), None);
    let padded = Value::from_bytes(&[0, 1]).unwrap();
    assert_eq!(padded.number(), Some(1));
    assert_ne!(padded, Value::new(1));
    for (length, at) in [(0, 0), (17, 0), (3, 3), (15, 15)] {
        let mut bytes = [0; 16];
        bytes[at] = 1;
        assert_eq!(Value { length, bytes }.number(), None, "{length}");
    }
}

#[test]
fn keys_are_compared_as_numbers() {
    let slot = |bytes: &[u8]| Slot {
        kind: 1,
        first: Value::from_bytes(bytes).unwrap(),
        second: Value::default(),
    };
    assert!(slot(&[0, 7]).same(&slot(&[7])));
    assert!(!slot(&[7]).same(&slot(&[8])));
    assert!(!slot(&[7]).same(&Slot {
        kind: 5,
        ..slot(&[7])
    }));
}
