//! P4Runtime 6.3 (ids) and 8.3 (bytestrings): tables 3, 4 and 5.

use reference::bytes::{
    arbitrate, configure, kind, open, read_all, read_one, Action, Entry, Row, Slot, Update, Value,
};

use super::{key, plain, plain_row, primary, rec, string, Case, ACTION, DEVICE, TABLE};

pub fn cases() -> Vec<Case> {
    let mut cases = vec![ids()];
    cases.extend(strings());
    cases.push(value_forms());
    cases
}

fn ids() -> Case {
    let row = |table: u32, actions: &[Action]| Row::new(table, 0, 4, &[(kind::EXACT, 16)], actions);
    let action = Action::new(0x0112_ab34, &[16]);
    let good = row(0x0212_ab34, &[action]);
    let wider = row(0x0212_ab35, &[Action::new(0x0112_ab34, &[17])]);
    let keyless = Row::new(0x0212_ab34, 0, 4, &[], &[action]);
    let set = |rows: &[Row]| configure(primary(), rows);
    let entry = |table: u32, action: u32| {
        Entry::new(table, key(0, Slot::exact(1)), action, &[Value::of(1)])
    };
    Case::new("ids_table3")
        .ok(open(0))
        .tells(arbitrate(0, primary()), &[rec(0, 0, 0, 1)])
        .refused(set(&[good, good]), 14, 3)
        .refused(read_all(DEVICE, 0, 0), 12, 9)
        .refused(set(&[row(0x0112_ab34, &[action])]), 14, 3)
        .refused(set(&[row(0x0012_ab34, &[action])]), 14, 3)
        .refused(
            set(&[row(0x0212_ab34, &[Action::new(0x0212_ab34, &[16])])]),
            14,
            3,
        )
        .refused(set(&[row(0x0212_ab34, &[action, action])]), 14, 3)
        .refused(set(&[keyless]), 14, 3)
        .refused(read_all(DEVICE, 0, 0), 12, 9)
        .ok(set(&[good]))
        .ok(set(&[good, wider]))
        // 65,536 fits 17 bits, not 16: the same action, other parameters.
        .fails(
            &[
                Update::insert(Entry::new(
                    0x0212_ab34,
                    key(0, Slot::exact(1)),
                    0x0112_ab34,
                    &[Value::of(0x1_0000)],
                )),
                Update::insert(Entry::new(
                    0x0212_ab35,
                    key(0, Slot::exact(1)),
                    0x0112_ab34,
                    &[Value::of(0x1_0000)],
                )),
            ],
            &[[18, 11], [0, 0]],
        )
        .rejects(entry(0, 0x0112_ab34), 15, 5)
        .rejects(entry(0x0212_ab34, 0), 17, 3)
        // The lower 24 bits are free.
        .ok(set(&[row(0x0200_0000, &[Action::new(0x0100_0000, &[])])]))
        .ok(set(&[row(0x02ff_ffff, &[Action::new(0x01ff_ffff, &[])])]))
}

/// A string and what becomes of it under a width: how it is stored, or why not.
type Tried = (&'static [u8], Result<&'static [u8], [u8; 2]>);

const WIDE: Result<&[u8], [u8; 2]> = Err([18, 11]);
const EMPTY: Result<&[u8], [u8; 2]> = Err([17, 3]);
const ONES: &[u8] = &[0xff; 16];
const ZEROS: &[u8] = &[0; 16];

fn strings() -> Vec<Case> {
    vec![
        width(
            "bytes_bit8",
            8,
            &[
                (&[0x63], Ok(&[0x63])),
                (&[0x01, 0x63], WIDE),
                (&[], EMPTY),
                (&[0x00, 0x63], Ok(&[0x63])),
                (&[0xff], Ok(&[0xff])),
                (&[0x01, 0x00], WIDE),
            ],
        ),
        width(
            "bytes_bit16",
            16,
            &[
                (&[0x00, 0x63], Ok(&[0x63])),
                (&[0x63], Ok(&[0x63])),
                (&[0x30, 0x64], Ok(&[0x30, 0x64])),
                (&[0x00, 0x30, 0x64], Ok(&[0x30, 0x64])),
                (&[0x01, 0x00, 0x63], WIDE),
                (&[], EMPTY),
            ],
        ),
        width(
            "bytes_bit12",
            12,
            &[
                (&[0x00, 0x63], Ok(&[0x63])),
                (&[0x63], Ok(&[0x63])),
                (&[0x00, 0x00, 0x63], Ok(&[0x63])),
                (&[0x10, 0x63], WIDE),
                (&[0x01, 0x00, 0x63], WIDE),
                (&[0x00, 0x40, 0x63], WIDE),
                (&[0x0f, 0xff], Ok(&[0x0f, 0xff])),
            ],
        ),
        width(
            "bytes_bit9",
            9,
            &[
                (&[0x63], Ok(&[0x63])),
                (&[0x01, 0xff], Ok(&[0x01, 0xff])),
                (&[0x00, 0x01, 0xff], Ok(&[0x01, 0xff])),
                (&[0x02, 0x00], WIDE),
            ],
        ),
        width(
            "bytes_zero",
            8,
            &[
                (&[0x00], Ok(&[0x00])),
                (&[0x00, 0x00], Ok(&[0x00])),
                (ZEROS, Ok(&[0x00])),
            ],
        ),
        width(
            "bytes_bit1",
            1,
            &[
                (&[0x00], Ok(&[0x00])),
                (&[0x01], Ok(&[0x01])),
                (&[0x02], WIDE),
                (&[0x80], WIDE),
                (&[0x00, 0x01], Ok(&[0x01])),
                (&[0x01, 0x00], WIDE),
                (ONES, WIDE),
            ],
        ),
        width(
            "bytes_bit64",
            64,
            &[
                (&[0xff; 8], Ok(&[0xff; 8])),
                (&[0x01, 0, 0, 0, 0, 0, 0, 0, 0], WIDE),
                (
                    &[0x00, 0x80, 0, 0, 0, 0, 0, 0, 0],
                    Ok(&[0x80, 0, 0, 0, 0, 0, 0, 0]),
                ),
                (ONES, WIDE),
            ],
        ),
        width(
            "bytes_bit127",
            127,
            &[
                (ONES, WIDE),
                (&[0x80, 0, 0, 0, 0, 0, 0, 0, 0, 0, 0, 0, 0, 0, 0, 0], WIDE),
                (
                    &[0x7f, 0, 0, 0, 0, 0, 0, 0, 0, 0, 0, 0, 0, 0, 0, 1],
                    Ok(&[0x7f, 0, 0, 0, 0, 0, 0, 0, 0, 0, 0, 0, 0, 0, 0, 1]),
                ),
            ],
        ),
        width(
            "bytes_bit128",
            128,
            &[
                (ONES, Ok(ONES)),
                (ZEROS, Ok(&[0x00])),
                (
                    &[0, 0, 0, 0, 0, 0, 0, 0, 0, 0, 0, 0, 0, 0, 0, 0x80],
                    Ok(&[0x80]),
                ),
            ],
        ),
    ]
}

/// Each string as a field and as a parameter.
fn width(name: &'static str, width: u8, tried: &[Tried]) -> Case {
    let row = Row::new(
        TABLE,
        0,
        4,
        &[(kind::EXACT, width)],
        &[Action::new(ACTION, &[width])],
    );
    let made = |field: Value, param: Value| {
        Entry::new(TABLE, key(0, Slot::exact(field)), ACTION, &[param])
    };
    let one = Value::of(1);
    let mut case = Case::configured(name, &[row]);
    for &(given, outcome) in tried {
        case = match outcome {
            Err([reason, code]) => case
                .rejects(made(string(given), one), reason, code)
                .rejects(made(one, string(given)), reason, code)
                .ok(read_all(DEVICE, 0, 0)),
            Ok(stored) => {
                let short = made(string(stored), string(stored));
                let padded = made(string(given), string(given));
                case.inserts(padded)
                    .shows(read_all(DEVICE, 0, 0), &[short])
                    .shows(read_one(DEVICE, 0, TABLE, padded.key), &[short])
                    .shows(read_one(DEVICE, 0, TABLE, short.key), &[short])
                    .rejects(short, 20, 6)
                    .takes(&[Update::delete(padded)])
                    .ok(read_all(DEVICE, 0, 0))
            }
        };
    }
    case
}

/// Values that are none: too long, dirty after their length, or not due.
fn value_forms() -> Case {
    let of_length = |length: u8| Value {
        length,
        bytes: [0; 16],
    };
    let dirty = |length: u8, at: usize| {
        let mut value = of_length(length);
        value.bytes[at] = 1;
        value
    };
    let bad = [
        of_length(0),
        of_length(17),
        of_length(255),
        dirty(0, 0),
        dirty(0, 15),
        dirty(1, 1),
        dirty(1, 15),
        dirty(15, 15),
        dirty(17, 0),
    ];
    let mut case = Case::configured("value_forms", &[plain_row(TABLE, 0, 4)]);
    for value in bad {
        let one = Value::of(1);
        case = case
            .rejects(
                Entry::new(TABLE, key(0, Slot::exact(value)), ACTION, &[one]),
                17,
                3,
            )
            .rejects(
                Entry::new(TABLE, key(0, Slot::exact(one)), ACTION, &[value]),
                17,
                3,
            )
            .refused(
                read_one(DEVICE, 0, TABLE, key(0, Slot::exact(value))),
                17,
                3,
            );
    }
    // The second value of an exact slot is unused.
    for second in [of_length(1), of_length(16), dirty(0, 0), dirty(0, 15)] {
        let slot = Slot {
            second,
            ..Slot::exact(1)
        };
        case = case
            .rejects(
                Entry::new(TABLE, key(0, slot), ACTION, &[Value::of(1)]),
                17,
                3,
            )
            .refused(read_one(DEVICE, 0, TABLE, key(0, slot)), 17, 3);
    }
    case.inserts(plain(TABLE, 1, 1))
}
