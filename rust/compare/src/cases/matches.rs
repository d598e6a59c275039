//! P4Runtime 9.1: matches of every kind, actions and their parameters.

use reference::bytes::{kind, read_all, read_one, Action, Entry, Key, Row, Slot, Update, Value};

use super::{entry, key, one_row, string, Case, DEVICE, TABLE};

pub fn cases() -> Vec<Case> {
    vec![
        dont_care(),
        lpm(),
        lpm_wide("match_lpm64", 64),
        lpm_wide("match_lpm128", 128),
        ternary_wide("match_ternary64", 64),
        ternary_wide("match_ternary128", 128),
        range(),
        range_128(),
        optional(),
        omitted_and_unused(),
        action_params(),
    ]
}

fn ones(width: u32) -> u128 {
    u128::MAX >> (128 - width)
}

/// The example of 9.1.1, which prints no priority though a field is ternary.
fn dont_care() -> Case {
    const TABLE: u32 = 33_554_439;
    const ACTION: u32 = 0x0100_0001;
    let fields = [(kind::TERNARY, 32), (kind::EXACT, 9)];
    let row = Row::new(TABLE, 0, 16, &fields, &[Action::new(ACTION, &[])]);
    let made = |priority: u32, one: Slot, two: Slot| {
        Entry::new(TABLE, Key::new(priority, &[one, two]), ACTION, &[])
    };
    let twenty = Slot::exact(20);
    let stray = Slot {
        first: Value {
            length: 0,
            bytes: [0, 0, 0, 0, 0, 0, 0, 0, 0, 0, 0, 0, 0, 0, 0, 1],
        },
        ..Slot::OMITTED
    };
    let padded = Slot::ternary(string(&[0, 0, 0, 0x0a]), 0xff);
    let top = 2_147_483_647;
    Case::configured("match_dontcare_ternary", &[row])
        .rejects(made(0, Slot::OMITTED, twenty), 19, 3)
        .inserts(made(1, Slot::OMITTED, twenty))
        .rejects(made(1, Slot::ternary(0, 0), twenty), 19, 3)
        .rejects(made(1, Slot::OMITTED, Slot::OMITTED), 17, 3)
        .rejects(made(1, Slot::ternary(0x0b, 0x0a), twenty), 19, 3)
        .inserts(made(1, padded, twenty))
        .rejects(made(1, Slot::ternary(0x0a, 0xff), twenty), 20, 6)
        .inserts(made(2, Slot::ternary(0x0a, 0xff), twenty))
        .inserts(made(1, Slot::ternary(0x0b, 0xff), twenty))
        .inserts(made(1, Slot::ternary(0x0a, 0x0a), twenty))
        .rejects(made(1, Slot::ternary(0, 0x01_0000_0000), twenty), 18, 11)
        .inserts(made(top, Slot::OMITTED, twenty))
        .rejects(made(top + 1, Slot::OMITTED, twenty), 19, 3)
        .rejects(made(u32::MAX, Slot::OMITTED, twenty), 19, 3)
        .rejects(made(1, stray, twenty), 17, 3)
        .shows(
            read_all(DEVICE, 0, 0),
            &[
                made(1, Slot::OMITTED, twenty),
                made(1, Slot::ternary(0x0a, 0xff), twenty),
                made(2, Slot::ternary(0x0a, 0xff), twenty),
                made(1, Slot::ternary(0x0b, 0xff), twenty),
                made(1, Slot::ternary(0x0a, 0x0a), twenty),
                made(top, Slot::OMITTED, twenty),
            ],
        )
}

fn lpm() -> Case {
    let of = |value: u128, prefix: u128| entry(0, Slot::lpm(value, prefix));
    let spelt = |value: &[u8], prefix: &[u8]| entry(0, Slot::lpm(string(value), string(prefix)));
    let ten = 0x0a00_0000;
    Case::configured("match_lpm", &[one_row(kind::LPM, 32)])
        .inserts(of(ten, 8))
        .rejects(of(0x0a00_0001, 8), 19, 3)
        .rejects(of(ten, 0), 19, 3)
        .rejects(of(0, 0), 19, 3)
        .rejects(of(ten, 33), 19, 3)
        .inserts(of(ten, 32))
        .inserts(of(ten, 7))
        .rejects(of(ten, 6), 19, 3)
        .inserts(of(0, 8))
        .inserts(of(0x8000_0000, 1))
        .rejects(of(0x4000_0000, 1), 19, 3)
        .rejects(spelt(&[0, 0x0a, 0, 0, 0], &[0, 8]), 20, 6)
        .rejects(of(ten, 0x0100), 19, 3)
        .rejects(of(ten, 0x0108), 19, 3)
        .rejects(of(ten, u128::MAX), 19, 3)
        .rejects(of(ten, 1 << 64 | 8), 19, 3)
        .rejects(spelt(&[0x0a, 0, 0, 0], &[]), 17, 3)
        .rejects(spelt(&[], &[8]), 17, 3)
        .rejects(of(0x01_0a00_0000, 8), 18, 11)
        .rejects(of(0x01_0a00_0000, 0), 18, 11)
        .rejects(entry(11, Slot::lpm(ten, 9)), 19, 3)
        .rejects(entry(0, Slot::ternary(ten, ten)), 17, 3)
        .inserts(entry(0, Slot::OMITTED))
}

fn lpm_wide(name: &'static str, width: u8) -> Case {
    let of = |value: u128, prefix: u8| entry(0, Slot::lpm(value, u128::from(prefix)));
    let all = ones(u32::from(width));
    let top = all ^ (all >> 1);
    Case::configured(name, &[one_row(kind::LPM, width)])
        .inserts(of(top, 1))
        .inserts(of(top, width))
        .rejects(of(top, width + 1), 19, 3)
        .inserts(of(1, width))
        .rejects(of(1, width - 1), 19, 3)
        .inserts(of(2, width - 1))
        .inserts(of(all, width))
        .rejects(of(all, width - 1), 19, 3)
        .inserts(of(all - 1, width - 1))
}

fn ternary_wide(name: &'static str, width: u8) -> Case {
    let of = |value: u128, mask: u128| entry(1, Slot::ternary(value, mask));
    let all = ones(u32::from(width));
    let top = all ^ (all >> 1);
    Case::configured(name, &[one_row(kind::TERNARY, width)])
        .inserts(of(all, all))
        .inserts(of(0, all))
        .rejects(of(all, all - 1), 19, 3)
        .rejects(of(all, all >> 1), 19, 3)
        .rejects(of(top, 1), 19, 3)
        .inserts(of(top, top))
        .rejects(of(0, 0), 19, 3)
        .rejects(of(1, 0), 19, 3)
}

fn range() -> Case {
    let of = |low: u128, high: u128| entry(1, Slot::range(low, high));
    let spelt = |low: &[u8], high: &[u8]| entry(1, Slot::range(string(low), string(high)));
    Case::configured("match_range", &[one_row(kind::RANGE, 8)])
        .inserts(of(0x00, 0xfe))
        .rejects(of(0x00, 0xff), 19, 3)
        .inserts(of(0x01, 0xff))
        .inserts(of(0x05, 0x05))
        .rejects(of(0x06, 0x05), 19, 3)
        .rejects(of(0x00, 0x0100), 18, 11)
        .rejects(of(0x0100, 0x00), 18, 11)
        .rejects(spelt(&[0, 0], &[0, 0xff]), 19, 3)
        .rejects(spelt(&[], &[5]), 17, 3)
        .rejects(spelt(&[5], &[]), 17, 3)
        .rejects(spelt(&[0, 0], &[0, 0xfe]), 20, 6)
        .inserts(entry(1, Slot::OMITTED))
}

fn range_128() -> Case {
    let of = |low: u128, high: u128| entry(1, Slot::range(low, high));
    Case::configured("match_range128", &[one_row(kind::RANGE, 128)])
        .rejects(of(0, u128::MAX), 19, 3)
        .inserts(of(1, u128::MAX))
        .inserts(of(0, u128::MAX - 1))
        .inserts(of(u128::MAX, u128::MAX))
        .rejects(of(u128::MAX, u128::MAX - 1), 19, 3)
        .rejects(of(1 << 64, u128::from(u64::MAX)), 19, 3)
        .inserts(of(u128::from(u64::MAX), 1 << 64))
}

fn optional() -> Case {
    let second_set = Slot {
        second: Value::of(1),
        ..Slot::optional(5)
    };
    Case::configured("match_optional", &[one_row(kind::OPTIONAL, 12)])
        .inserts(entry(1, Slot::optional(string(&[0x00, 0x63]))))
        .inserts(entry(1, Slot::OMITTED))
        .rejects(entry(0, Slot::optional(4)), 19, 3)
        .rejects(entry(0, Slot::OMITTED), 19, 3)
        .rejects(entry(1, Slot::optional(Value::NONE)), 17, 3)
        .rejects(entry(1, Slot::optional(0x1063)), 18, 11)
        .rejects(entry(1, second_set), 17, 3)
        .rejects(entry(1, Slot::exact(5)), 17, 3)
        .rejects(entry(1, Slot::optional(0x63)), 20, 6)
        // A zero that is matched is not a slot that is omitted.
        .inserts(entry(1, Slot::optional(0)))
}

/// What is not used is zero: in slots past the fields, too.
fn omitted_and_unused() -> Case {
    let mut case = Case::configured("unused slots are zero", &[one_row(kind::LPM, 32)]);
    for at in [0, 1, 17, 18, 34] {
        for slot in [1, 3] {
            let mut update = Update::insert(entry(0, Slot::lpm(0x0a00_0000, 8))).bytes();
            update[1 + 4 + 4 + 35 * slot + at] = 1;
            let frame = reference::bytes::write_raw(super::primary(), 0, 1, &update);
            case = case.answers(frame, vec![23, 2, 0, 1, 17, 3]);
        }
    }
    for kind in [1, 3, 4, 5, 6, 255] {
        let slot = Slot {
            kind,
            ..Slot::lpm(0x0a00_0000, 8)
        };
        case = case.rejects(entry(0, slot), 17, 3);
    }
    case.inserts(entry(0, Slot::lpm(0x0a00_0000, 8)))
}

/// 9.1.2, with the set_nhop of 9.2: a port and two addresses.
fn action_params() -> Case {
    const SET_NHOP: u32 = 0x0100_0001;
    const DROP: u32 = 0x0100_0002;
    const FOREIGN: u32 = 0x0100_0003;
    let fields = [(kind::LPM, 32)];
    let actions = [Action::new(SET_NHOP, &[9, 48, 48]), Action::new(DROP, &[])];
    let row = Row::new(TABLE, 0, 8, &fields, &actions);
    let other = Row::new(
        TABLE + 1,
        0,
        8,
        &fields,
        &[Action::new(FOREIGN, &[9, 48, 48])],
    );
    let made =
        |slot: Slot, action: u32, params: &[Value]| Entry::new(TABLE, key(0, slot), action, params);
    let ten = Slot::lpm(0x0a00_0000, 8);
    let (port, mac) = (Value::of(1), Value::of(0x66_7788_99aa));
    let nhop = |params: &[Value]| made(ten, SET_NHOP, params);
    let spelt = string(&[0x00, 0x11, 0x22, 0x33, 0x44, 0x55]);
    let short = string(&[0x11, 0x22, 0x33, 0x44, 0x55]);
    let good = nhop(&[port, mac, short]);
    let drop = made(ten, DROP, &[]);
    let nothing = Value::NONE;
    let wide_port = Value::of(0x0200);
    let bad_prefix = Slot::lpm(0x0a00_0001, 8);
    let wide = Slot::lpm(0x01_0a00_0000, 8);
    Case::configured("action_params", &[row, other])
        .rejects(nhop(&[port, mac]), 17, 3)
        .rejects(nhop(&[]), 17, 3)
        .rejects(nhop(&[port, mac, mac, port]), 17, 3)
        .rejects(made(ten, DROP, &[port]), 17, 3)
        .rejects(made(ten, FOREIGN, &[port, mac, mac]), 17, 3)
        .rejects(made(ten, 0, &[]), 17, 3)
        .rejects(nhop(&[wide_port, mac, mac]), 18, 11)
        .rejects(nhop(&[nothing, mac, mac]), 17, 3)
        // 17 of the action before 18 of the key, 18 of a parameter before 19
        // of the key.
        .rejects(made(wide, FOREIGN, &[port, mac, mac]), 17, 3)
        .rejects(made(wide, SET_NHOP, &[port, nothing, mac]), 17, 3)
        .rejects(made(bad_prefix, SET_NHOP, &[wide_port, mac, mac]), 18, 11)
        .rejects(made(bad_prefix, SET_NHOP, &[port, mac, mac]), 19, 3)
        .fails(&[Update::modify(good)], &[[21, 5]])
        .fails(&[Update::delete(good)], &[[21, 5]])
        .inserts(nhop(&[port, mac, spelt]))
        .shows(read_one(DEVICE, 0, TABLE, key(0, ten)), &[good])
        .fails(&[Update::modify(made(ten, 0, &[]))], &[[17, 3]])
        .fails(&[Update::modify(made(ten, FOREIGN, &[]))], &[[17, 3]])
        .fails(&[Update::modify(nhop(&[wide_port, mac, mac]))], &[[18, 11]])
        .shows(read_all(DEVICE, 0, TABLE), &[good])
        .takes(&[Update::modify(good)])
        .takes(&[Update::modify(drop)])
        .shows(read_all(DEVICE, 0, TABLE), &[drop])
        // Of a DELETE they are not looked at (document 02, request One). These three were 17, 17 and
        // 18; the first finds the entry.
        .takes(&[Update::delete(made(ten, FOREIGN, &[]))])
        .fails(&[Update::delete(made(ten, 0, &[]))], &[[21, 5]])
        .fails(&[Update::delete(nhop(&[wide_port, mac, mac]))], &[[21, 5]])
        .fails(&[Update::modify(drop)], &[[21, 5]])
        .fails(&[Update::delete(drop)], &[[21, 5]])
        .fails(
            &[
                Update {
                    kind: 0,
                    entry: drop,
                },
                Update {
                    kind: 4,
                    entry: drop,
                },
                Update {
                    kind: 255,
                    entry: Entry::default(),
                },
            ],
            &[[17, 3], [17, 3], [17, 3]],
        )
        .ok(read_all(DEVICE, 0, 0))
}
