//! Reasons 17, 18 and 19: values, kinds, priorities.

use crate::support::*;
use reference::bytes::*;

/// A bench with one table of one field.
fn with(kind: u8, width: u8) -> Bench {
    Bench::configured(&[one_row(kind, width)])
}

fn string(bytes: &[u8]) -> Value {
    Value::string(bytes)
}

#[test]
fn values_are_kept_in_shortest_form() {
    let forms: [(&[u8], &[u8]); 6] = [
        (&[0x63], &[0x63]),
        (&[0x00, 0x63], &[0x63]),
        (&[0x30, 0x64], &[0x30, 0x64]),
        (&[0x00, 0x30, 0x64], &[0x30, 0x64]),
        (&[0x30, 0x00], &[0x30, 0x00]),
        (&[0; 16], &[0x00]),
    ];
    for (given, kept) in forms {
        let mut bench = with(kind::EXACT, 16);
        bench.takes(entry(0, Slot::exact(string(given))));
        let stored = entry(0, Slot::exact(string(kept)));
        bench.shows(&read_all(DEVICE, 0, TABLE), &[stored]);
        // Found under the padded and the short form alike.
        for form in [given, kept] {
            let key = Key::new(0, &[Slot::exact(string(form))]);
            bench.shows(&read_one(DEVICE, 0, TABLE, key), &[stored]);
            bench.fails(entry(0, Slot::exact(string(form))), 20, 6);
        }
        let delete = Update::delete(entry(0, Slot::exact(string(given))));
        bench.writes(&[delete], (0, 0), &[(0, 0)]);
    }
}

#[test]
fn zero_is_one_byte_of_length_1() {
    let mut bench = with(kind::EXACT, 16);
    bench.takes(entry(0, Slot::exact(string(&[0, 0, 0]))));
    let record = bench.call(&read_all(DEVICE, 0, TABLE)).answer[4..].to_vec();
    // Table, priority, kind, then length 1 and zeros.
    assert_eq!(&record[..10], unhex("02000001 00000000 01 01"));
    assert!(record[10..148].iter().all(|&byte| byte == 0));
}

#[test]
fn a_whole_entry_in_shortest_form() {
    let row = Row::new(
        TABLE,
        0,
        4,
        &[(kind::LPM, 32), (kind::RANGE, 16), (kind::OPTIONAL, 8)],
        &[Action::new(ACTION, &[48, 8])],
    );
    let mut bench = Bench::configured(&[row]);
    let slots = [
        Slot::lpm(string(&[0, 0x0a, 0, 0, 0]), string(&[0, 0, 8])),
        Slot::range(string(&[0, 0]), string(&[0, 0, 1, 0])),
    ];
    let params = [
        string(&[0x00, 0x11, 0x22, 0x33, 0x44, 0x55]),
        string(&[0, 0]),
    ];
    bench.takes(Entry::new(TABLE, Key::new(7, &slots), ACTION, &params));
    let expected = unhex(
        "0000 0001
         02000001 00000007
         02 04 0a000000000000000000000000000000 01 08000000000000000000000000000000
         04 01 00000000000000000000000000000000 02 01000000000000000000000000000000
         00 00 00000000000000000000000000000000 00 00000000000000000000000000000000
         00 00 00000000000000000000000000000000 00 00000000000000000000000000000000
         01000001
         05 11223344550000000000000000000000
         01 00000000000000000000000000000000
         00 00000000000000000000000000000000
         00 00000000000000000000000000000000",
    );
    bench.answers(&read_all(DEVICE, 0, TABLE), &expected);
}

#[test]
fn values_of_wrong_form_are_17() {
    let mut dirty = string(&[0x63]);
    dirty.bytes[15] = 1;
    let mut no_length = Value::NONE;
    no_length.bytes[0] = 0x63;
    let unfit = [
        Value::NONE,
        no_length,
        dirty,
        Value {
            length: 17,
            ..string(&[0x63])
        },
        Value {
            length: 255,
            ..string(&[0x63])
        },
    ];
    for value in unfit {
        with(kind::EXACT, 16).fails(entry(0, Slot::exact(value)), 17, 3);
        with(kind::OPTIONAL, 16).fails(entry(1, Slot::optional(value)), 17, 3);
        with(kind::LPM, 16).fails(entry(0, Slot::lpm(value, 16)), 17, 3);
        with(kind::LPM, 16).fails(entry(0, Slot::lpm(0x63, value)), 17, 3);
        with(kind::TERNARY, 16).fails(entry(1, Slot::ternary(value, 0xffff)), 17, 3);
        with(kind::TERNARY, 16).fails(entry(1, Slot::ternary(0x63, value)), 17, 3);
        with(kind::RANGE, 16).fails(entry(1, Slot::range(value, 0x63)), 17, 3);
        with(kind::RANGE, 16).fails(entry(1, Slot::range(0x63, value)), 17, 3);
        let row = plain_row(TABLE, 0, 4);
        let mut with_param = plain(TABLE, 1, 1);
        with_param.params[0] = value;
        Bench::configured(&[row]).fails(with_param, 17, 3);
    }
}

#[test]
fn the_second_value_of_exact_and_optional_is_unused() {
    for second in [Value::of(0), Value::of(1)] {
        let slot = |kind| Slot {
            kind,
            first: Value::of(1),
            second,
        };
        with(kind::EXACT, 16).fails(entry(0, slot(kind::EXACT)), 17, 3);
        with(kind::OPTIONAL, 16).fails(entry(1, slot(kind::OPTIONAL)), 17, 3);
    }
}

#[test]
fn omitting() {
    // Exact must be present.
    with(kind::EXACT, 8).fails(entry(0, Slot::OMITTED), 17, 3);
    with(kind::LPM, 8).takes(entry(0, Slot::OMITTED));
    for kind in [kind::TERNARY, kind::RANGE, kind::OPTIONAL] {
        with(kind, 8).takes(entry(1, Slot::OMITTED));
        // The priority goes by the field, also where the slot is omitted.
        with(kind, 8).fails(entry(0, Slot::OMITTED), 19, 3);
    }
    // Kind 0 with any other byte set.
    let stray_first = Slot {
        first: Value::of(0),
        ..Slot::OMITTED
    };
    let mut stray_last = Slot::OMITTED;
    stray_last.second.bytes[15] = 1;
    for slot in [stray_first, stray_last] {
        with(kind::LPM, 8).fails(entry(0, slot), 17, 3);
        with(kind::OPTIONAL, 8).fails(entry(1, slot), 17, 3);
    }
}

#[test]
fn a_slot_has_its_fields_kind() {
    for field in 1..=5 {
        let priority = u32::from(field >= kind::TERNARY);
        for kind in (1..=7).chain([255]).filter(|&kind| kind != field) {
            let slot = Slot {
                kind,
                first: Value::of(1),
                second: Value::of(1),
            };
            with(field, 8).fails(entry(priority, slot), 17, 3);
        }
    }
}

#[test]
fn slots_past_the_fields_are_unused() {
    let mut unused = entry(0, Slot::exact(1));
    unused.key.slots[1] = Slot::exact(0);
    with(kind::EXACT, 8).fails(unused, 17, 3);
    let mut unused = entry(0, Slot::exact(1));
    unused.key.slots[3].second.bytes[15] = 1;
    with(kind::EXACT, 8).fails(unused, 17, 3);
}

#[test]
fn actions_and_parameters() {
    let row = Row::new(
        TABLE,
        0,
        4,
        &[(kind::EXACT, 8)],
        &[Action::new(ACTION, &[9, 48]), Action::new(ACTION + 1, &[])],
    );
    let key = Key::new(0, &[Slot::exact(1)]);
    let entry = |action, params: &[Value]| Entry::new(TABLE, key, action, params);
    let (port, mac) = (Value::of(0x1ff), Value::of(0x1122_3344_5566));

    let mut bench = Bench::configured(&[row]);
    bench.fails(entry(ACTION, &[]), 17, 3);
    bench.fails(entry(ACTION, &[port]), 17, 3);
    bench.fails(entry(ACTION, &[port, mac, Value::of(0)]), 17, 3);
    bench.fails(entry(ACTION + 1, &[Value::of(0)]), 17, 3);
    bench.fails(entry(ACTION + 2, &[port, mac]), 17, 3);
    bench.fails(entry(0, &[]), 17, 3);
    let mut stray = entry(ACTION, &[port, mac]);
    stray.params[3].bytes[15] = 1;
    bench.fails(stray, 17, 3);
    bench.fails(entry(ACTION, &[Value::of(0x200), mac]), 18, 11);
    bench.fails(entry(ACTION, &[port, Value::of(1 << 48)]), 18, 11);
    bench.takes(entry(ACTION, &[port, mac]));
}

#[test]
fn widths() {
    for width in [1, 7, 8, 9, 63, 64, 65, 127] {
        let over = 1u128 << width;
        let top = over - 1;
        let mut bench = with(kind::EXACT, width);
        bench.takes(entry(0, Slot::exact(top)));
        bench.fails(entry(0, Slot::exact(over)), 18, 11);
        bench.fails(entry(0, Slot::exact(u128::MAX)), 18, 11);
        with(kind::OPTIONAL, width).fails(entry(1, Slot::optional(over)), 18, 11);
        with(kind::LPM, width).fails(entry(0, Slot::lpm(over, width as u128)), 18, 11);
        let mut bench = with(kind::TERNARY, width);
        bench.fails(entry(1, Slot::ternary(over, top)), 18, 11);
        bench.fails(entry(1, Slot::ternary(0, over)), 18, 11);
        let mut bench = with(kind::RANGE, width);
        bench.fails(entry(1, Slot::range(over, over)), 18, 11);
        bench.fails(entry(1, Slot::range(0, over)), 18, 11);
    }
    // Nothing is too wide for 128 bits.
    with(kind::EXACT, 128).takes(entry(0, Slot::exact(u128::MAX)));
}

#[test]
fn lpm() {
    let mut bench = with(kind::LPM, 32);
    bench.takes(entry(0, Slot::lpm(0x0a00_0000, 7)));
    bench.fails(entry(0, Slot::lpm(0x0a00_0000, 6)), 19, 3);
    bench.takes(entry(0, Slot::lpm(0, 1)));
    // Prefix length 0 is not a way to omit, even of the value 0.
    bench.fails(entry(0, Slot::lpm(0, 0)), 19, 3);
    bench.takes(entry(0, Slot::lpm(0x8000_0000, 1)));
    bench.fails(entry(0, Slot::lpm(0x4000_0000, 1)), 19, 3);
    bench.takes(entry(0, Slot::lpm(0xffff_ffff, 32)));
    bench.fails(entry(0, Slot::lpm(0xffff_ffff, 31)), 19, 3);
    // A prefix length is a number of up to sixteen bytes, never 18.
    let value = Value::of(0x0a00_0000);
    bench.fails(entry(0, Slot::lpm(value, string(&[0x01, 0x08]))), 19, 3);
    bench.fails(entry(0, Slot::lpm(value, string(&[0xff; 16]))), 19, 3);
    bench.fails(entry(0, Slot::lpm(value, 1 << 127)), 19, 3);
    bench.takes(entry(0, Slot::lpm(value, string(&[0x00, 0x08]))));
    bench.fails(entry(0, Slot::lpm(value, 8)), 20, 6);
    // 18 of the value comes before 19 of the prefix length.
    bench.fails(entry(0, Slot::lpm(0x1_0a00_0000, 0)), 18, 11);
    // No priority.
    bench.fails(entry(1, Slot::lpm(0, 2)), 19, 3);
}

#[test]
fn lpm_of_all_128_bits() {
    let mut bench = with(kind::LPM, 128);
    bench.takes(entry(0, Slot::lpm(u128::MAX, 128)));
    bench.fails(entry(0, Slot::lpm(u128::MAX, 127)), 19, 3);
    bench.takes(entry(0, Slot::lpm(u128::MAX - 1, 127)));
    bench.takes(entry(0, Slot::lpm(1 << 127, 1)));
    bench.fails(entry(0, Slot::lpm(1 << 126, 1)), 19, 3);
    bench.fails(entry(0, Slot::lpm(0, 129)), 19, 3);
    bench.fails(entry(0, Slot::lpm(0, 256)), 19, 3);
}

#[test]
fn ternary() {
    let mut bench = with(kind::TERNARY, 32);
    bench.takes(entry(1, Slot::ternary(0x0a, 0x0f)));
    bench.fails(entry(1, Slot::ternary(0, 0)), 19, 3);
    bench.fails(entry(1, Slot::ternary(0x0b, 0x0a)), 19, 3);
    bench.takes(entry(1, Slot::ternary(0, 0x0a)));
    // A padded value may be longer than its mask.
    let padded = string(&[0, 0, 0, 0x0a]);
    bench.takes(entry(1, Slot::ternary(padded, 0xff)));
    let mut bench = with(kind::TERNARY, 128);
    bench.takes(entry(1, Slot::ternary(u128::MAX, u128::MAX)));
    bench.fails(entry(1, Slot::ternary(u128::MAX, u128::MAX - 1)), 19, 3);
}

#[test]
fn range() {
    let mut bench = with(kind::RANGE, 8);
    bench.takes(entry(1, Slot::range(0x01, 0xff)));
    bench.takes(entry(1, Slot::range(0x05, 0x05)));
    bench.fails(entry(1, Slot::range(0x06, 0x05)), 19, 3);
    bench.fails(
        entry(1, Slot::range(string(&[0, 0]), string(&[0, 0xff]))),
        19,
        3,
    );
    bench.fails(entry(1, Slot::range(0x00, 0x100)), 18, 11);
    let mut bench = with(kind::RANGE, 128);
    bench.fails(entry(1, Slot::range(0, u128::MAX)), 19, 3);
    bench.takes(entry(1, Slot::range(1, u128::MAX)));
    bench.takes(entry(1, Slot::range(0, u128::MAX - 1)));
    // The shortest range there is: one bit.
    let mut bench = with(kind::RANGE, 1);
    bench.takes(entry(1, Slot::range(0, 0)));
    bench.takes(entry(1, Slot::range(1, 1)));
    bench.fails(entry(1, Slot::range(0, 1)), 19, 3);
}

#[test]
fn priorities() {
    for (kind, slot) in [
        (kind::TERNARY, Slot::ternary(1, 1)),
        (kind::RANGE, Slot::range(1, 1)),
        (kind::OPTIONAL, Slot::optional(1)),
    ] {
        let mut bench = with(kind, 8);
        bench.fails(entry(0, slot), 19, 3);
        bench.takes(entry(1, slot));
        bench.takes(entry(2_147_483_647, slot));
        bench.fails(entry(2_147_483_648, slot), 19, 3);
        bench.fails(entry(u32::MAX, slot), 19, 3);
    }
    with(kind::EXACT, 8).fails(entry(1, Slot::exact(1)), 19, 3);
    with(kind::LPM, 8).fails(entry(1, Slot::lpm(1, 8)), 19, 3);
    with(kind::EXACT, 8).fails(entry(u32::MAX, Slot::exact(1)), 19, 3);

    // One such field among others is enough.
    let fields = [(kind::EXACT, 8), (kind::LPM, 8), (kind::OPTIONAL, 8)];
    let row = Row::new(TABLE, 0, 4, &fields, &[Action::new(ACTION, &[])]);
    let slots = [Slot::exact(1), Slot::lpm(1, 8)];
    let of = |priority| Entry::new(TABLE, Key::new(priority, &slots), ACTION, &[]);
    let mut bench = Bench::configured(&[row]);
    bench.fails(of(0), 19, 3);
    bench.takes(of(1));
}

#[test]
fn the_order_is_over_the_whole_update() {
    let fields = [(kind::LPM, 8), (kind::EXACT, 8)];
    let row = Row::new(TABLE, 0, 4, &fields, &[Action::new(ACTION, &[8, 8])]);
    let mut bench = Bench::configured(&[row]);

    // Broken rule in the first slot, too wide a second one, bad priority.
    let broken = Slot::lpm(1, 7);
    let wide = Slot::exact(0x100);
    let good = Slot::exact(1);
    let short = Slot::exact(Value::NONE);
    let (fits, exceeds) = (Value::of(1), Value::of(0x100));
    let mut insert = |slots: [Slot; 2], params: [Value; 2], reason, code| {
        let entry = Entry::new(TABLE, Key::new(1, &slots), ACTION, &params);
        bench.fails(entry, reason, code);
    };
    insert([broken, good], [fits, fits], 19, 3);
    // 18 of the key before 19, 18 of a parameter before 19.
    insert([broken, wide], [fits, fits], 18, 11);
    insert([broken, good], [fits, exceeds], 18, 11);
    // 17 of the key before 18, wherever the 18 stands.
    insert([broken, short], [exceeds, exceeds], 17, 3);
    insert([Slot::lpm(0x100, 0), short], [fits, fits], 17, 3);
    // 17 of a parameter before 18 of the key and before 19.
    insert([broken, wide], [exceeds, Value::NONE], 17, 3);

    // 17 of the action before 18 and 19 of the key.
    let key = Key::new(1, &[broken, wide]);
    let params = [fits, fits];
    bench.fails(Entry::new(TABLE, key, ACTION + 1, &params), 17, 3);
}
