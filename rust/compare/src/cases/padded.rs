//! Document 02, request Four: a key is that of a stored entry exactly when
//! their shortest forms are the same, whatever zero bytes stand before its
//! values.

use reference::bytes::{
    kind, read_all, read_one, write, Action, Entry, Key, Row, Slot, Update, Value,
};

use super::{key, primary, string, Case, ACTION, DEVICE, ONE, TABLE, TWO};

pub fn cases() -> Vec<Case> {
    let mut cases = every_number_of_bytes();
    cases.extend([
        every_slot(),
        eight_values(),
        other_digits(),
        starts_and_ends(),
        words(),
        where_values_end(),
        prefix_lengths(),
        masks(),
        bounds(),
        omitted_or_zero(),
        priorities(),
        tables(),
        in_one_batch(),
    ]);
    cases
}

/// The digits after so many zero bytes.
fn behind(zeros: usize, digits: &[u8]) -> Value {
    string(&[&[0; 16][..zeros], digits].concat())
}

/// A table whose action has a parameter of 16 bits, with room for 16.
fn row(table: u32, fields: &[(u8, u8)]) -> Row {
    Row::new(table, 0, 16, fields, &[Action::new(ACTION, &[16])])
}

fn entry(table: u32, key: Key, param: u128) -> Entry {
    Entry::new(table, key, ACTION, &[Value::of(param)])
}

fn read(table: u32, key: Key) -> Vec<u8> {
    read_one(DEVICE, 0, table, key)
}

/// Each value of each kind, of one digit.
fn every_number_of_bytes() -> Vec<Case> {
    use kind::{EXACT, LPM, OPTIONAL, RANGE, TERNARY};
    vec![
        by_1_to_15("padded_exact", (EXACT, 0), 0x0a, Slot::exact),
        by_1_to_15("padded_exact_zero", (EXACT, 0), 0, Slot::exact),
        by_1_to_15("padded_lpm", (LPM, 0), 0x0a, |v| Slot::lpm(v, 128)),
        by_1_to_15("padded_prefix", (LPM, 0), 0x0a, |v| Slot::lpm(0, v)),
        by_1_to_15("padded_ternary", (TERNARY, 1), 0x0a, |v| {
            Slot::ternary(v, 0x0f)
        }),
        by_1_to_15("padded_mask", (TERNARY, 1), 0x0a, |v| Slot::ternary(2, v)),
        by_1_to_15("padded_low", (RANGE, 1), 0x0a, |v| Slot::range(v, 0x0f)),
        by_1_to_15("padded_high", (RANGE, 1), 0x0a, |v| Slot::range(2, v)),
        by_1_to_15("padded_high_zero", (RANGE, 1), 0, |v| Slot::range(0, v)),
        by_1_to_15("padded_optional", (OPTIONAL, 1), 0x0a, Slot::optional),
        by_1_to_15("padded_optional_zero", (OPTIONAL, 1), 0, Slot::optional),
    ]
}

/// A digit padded by 1 to 15, in a field of a kind and under a priority: stored
/// short and looked up padded, then stored padded and looked up short.
fn by_1_to_15(
    name: &'static str,
    (kind, priority): (u8, u32),
    digit: u8,
    slot: fn(Value) -> Slot,
) -> Case {
    let short = key(priority, slot(string(&[digit])));
    let mut case = Case::configured(name, &[row(TABLE, &[(kind, 128)])]);
    for zeros in 1..=15 {
        let padded = key(priority, slot(behind(zeros, &[digit])));
        for (stored, asked) in [(short, padded), (padded, short)] {
            case = stored_and_looked_up(case, stored, asked, short);
        }
    }
    case
}

/// Stores a key in one form and asks for it in another; the store is empty
/// before and after.
fn stored_and_looked_up(case: Case, stored: Key, asked: Key, short: Key) -> Case {
    let of = |key: Key, param: u128| entry(TABLE, key, param);
    let nothing = read_all(DEVICE, 0, 0);
    case.ok(read(TABLE, asked))
        .fails(&[Update::modify(of(asked, 2))], &[[21, 5]])
        .fails(&[Update::delete(of(asked, 2))], &[[21, 5]])
        .inserts(of(stored, 1))
        .shows(read(TABLE, asked), &[of(short, 1)])
        .rejects(of(asked, 2), 20, 6)
        .takes(&[Update::modify(of(asked, 3))])
        .shows(read(TABLE, stored), &[of(short, 3)])
        .shows(nothing.clone(), &[of(short, 3)])
        .takes(&[Update::delete(of(asked, 4))])
        .ok(read(TABLE, stored))
        .ok(nothing)
}

/// Values of two digits or more, each padded alone: by one byte, and up to
/// sixteen.
fn every_slot() -> Case {
    const FIELDS: [(u8, u8); 4] = [
        (kind::LPM, 32),
        (kind::TERNARY, 48),
        (kind::RANGE, 128),
        (kind::EXACT, 9),
    ];
    let digits: [&[u8]; 7] = [
        &[0x0a, 0, 0, 0],
        &[0x18],
        &[0x11, 0, 0x33],
        &[0xff, 0, 0xff],
        &[1, 0, 0, 0, 0, 0, 0, 0, 0],
        &[1, 0, 0, 0, 0, 0, 0, 0, 0, 1],
        &[1, 0xff],
    ];
    let of = |zeros: [usize; 7]| {
        let v: Vec<Value> = (0..7).map(|at| behind(zeros[at], digits[at])).collect();
        let slots = [
            Slot::lpm(v[0], v[1]),
            Slot::ternary(v[2], v[3]),
            Slot::range(v[4], v[5]),
            Slot::exact(v[6]),
        ];
        Key::new(7, &slots)
    };
    let short = of([0; 7]);
    let mut case = Case::configured("padded_every_slot", &[row(TABLE, &FIELDS)]);
    for (at, most) in [12, 15, 13, 13, 7, 6, 14].into_iter().enumerate() {
        for zeros in [1, most] {
            let mut by = [0; 7];
            by[at] = zeros;
            case = stored_and_looked_up(case, short, of(by), short);
            case = stored_and_looked_up(case, of(by), short, short);
        }
    }
    case
}

/// All values of a key padded at once, each by another number of bytes.
fn eight_values() -> Case {
    let fields = [
        (kind::LPM, 16),
        (kind::TERNARY, 16),
        (kind::RANGE, 16),
        (kind::RANGE, 128),
    ];
    let short = Key::new(
        1,
        &[
            Slot::lpm(string(&[0x0a, 0]), string(&[8])),
            Slot::ternary(string(&[1]), string(&[1, 1])),
            Slot::range(string(&[0]), string(&[0])),
            Slot::range(string(&[2]), string(&[1, 0])),
        ],
    );
    let padded = Key::new(
        1,
        &[
            Slot::lpm(string(&[0, 0x0a, 0]), behind(15, &[8])),
            Slot::ternary(string(&[0, 0, 1]), string(&[0, 0, 0, 1, 1])),
            Slot::range(behind(4, &[0]), behind(14, &[0])),
            Slot::range(behind(8, &[2]), behind(9, &[1, 0])),
        ],
    );
    let case = Case::configured("padded_eight_values", &[row(TABLE, &fields)]);
    let case = stored_and_looked_up(case, short, padded, short);
    stored_and_looked_up(case, padded, short, short)
}

/// A key as it is asked for, and in shortest form, in its table.
type Spelt = (u32, Key, Key);

/// Keys that are all different. Each is absent until it is stored, and then
/// found alone.
fn apart(name: &'static str, rows: &[Row], keys: &[Spelt]) -> Case {
    let stored: Vec<Entry> = keys
        .iter()
        .zip(1..)
        .map(|(&(table, _, short), param)| entry(table, short, param))
        .collect();
    let mut case = Case::configured(name, rows);
    for (at, &(table, asked, _)) in keys.iter().enumerate() {
        let of = |param: u128| entry(table, asked, param);
        case = case
            .ok(read(table, asked))
            .fails(&[Update::modify(of(99))], &[[21, 5]])
            .fails(&[Update::delete(of(99))], &[[21, 5]])
            .inserts(of(1 + at as u128))
            .rejects(of(99), 20, 6)
            .rejects(stored[at], 20, 6);
    }
    for (&(table, asked, short), &entry) in keys.iter().zip(&stored) {
        case = case
            .shows(read(table, asked), &[entry])
            .shows(read(table, short), &[entry]);
    }
    for (at, &(table, asked, short)) in keys.iter().enumerate() {
        case = case
            .takes(&[Update::delete(entry(table, asked, 99))])
            .ok(read(table, short))
            .shows(read_all(DEVICE, 0, 0), &stored[at + 1..]);
    }
    case
}

/// Such keys of one table of one field.
fn values_apart(
    name: &'static str,
    (kind, width): (u8, u8),
    priority: u32,
    slot: fn(Value) -> Slot,
    values: &[(usize, &[u8])],
) -> Case {
    let spelt = |&(zeros, digits): &(usize, &[u8])| {
        let of = |value| key(priority, slot(value));
        (TABLE, of(behind(zeros, digits)), of(string(digits)))
    };
    let keys: Vec<Spelt> = values.iter().map(spelt).collect();
    apart(name, &[row(TABLE, &[(kind, width)])], &keys)
}

/// One digit is another: the first, a middle one, the last.
fn other_digits() -> Case {
    values_apart(
        "nearly_other_digits",
        (kind::EXACT, 128),
        0,
        Slot::exact,
        &[
            (1, &[1, 2, 3]),
            (1, &[9, 2, 3]),
            (1, &[1, 9, 3]),
            (1, &[1, 2, 9]),
            (13, &[1, 2, 2]),
            (4, &[1, 0, 3]),
            (2, &[3, 2, 1]),
        ],
    )
}

/// Digits with which others start or end, in one length and in several.
fn starts_and_ends() -> Case {
    values_apart(
        "nearly_starts_and_ends",
        (kind::OPTIONAL, 32),
        1,
        Slot::optional,
        &[
            (3, &[0x0a]),
            (2, &[0x0a, 0]),
            (1, &[0x0a, 0, 0]),
            (0, &[0x0a, 0, 0, 0]),
            (2, &[0x0a, 0x0a]),
            (14, &[1, 0x0a]),
            (1, &[1, 0, 0x0a]),
            (3, &[0]),
            (15, &[1]),
            (2, &[1, 0]),
        ],
    )
}

/// Numbers over 8 bytes, the same in their low word or above it.
fn words() -> Case {
    values_apart(
        "nearly_words",
        (kind::EXACT, 128),
        0,
        Slot::exact,
        &[
            (15, &[5]),
            (7, &[1, 0, 0, 0, 0, 0, 0, 0, 5]),
            (1, &[2, 0, 0, 0, 0, 0, 0, 0, 5]),
            (2, &[1, 0, 0, 0, 0, 0, 0, 0, 6]),
            (1, &[1, 0, 0, 0, 0, 0, 0, 0, 0, 0, 0, 0, 0, 0, 5]),
            (0, &[1, 0, 0, 0, 0, 0, 0, 0, 0, 0, 0, 0, 0, 0, 0, 5]),
            (8, &[1, 0, 0, 0, 0, 0, 0, 5]),
            (4, &[1, 0, 0, 0, 5]),
        ],
    )
}

/// The same digits one after the other, in two slots and in two values of one.
fn where_values_end() -> Case {
    let fields = [(kind::EXACT, 32), (kind::EXACT, 32), (kind::RANGE, 32)];
    let digits: [[&[u8]; 4]; 6] = [
        [&[1, 2], &[3], &[4, 5], &[6, 7, 8]],
        [&[1], &[2, 3], &[4, 5], &[6, 7, 8]],
        [&[1, 2, 3], &[4], &[5], &[6, 7, 8]],
        [&[1, 2], &[3, 4], &[5], &[6, 7, 8]],
        [&[1, 2], &[3], &[4], &[5, 6, 7, 8]],
        [&[1], &[2], &[3, 4, 5], &[6, 7, 8]],
    ];
    let spelt = |digits: [&[u8]; 4]| {
        let of = |zeros| {
            let [one, two, low, high] = digits.map(|digits| behind(zeros, digits));
            Key::new(
                1,
                &[Slot::exact(one), Slot::exact(two), Slot::range(low, high)],
            )
        };
        (TABLE, of(2), of(0))
    };
    apart(
        "nearly_where_values_end",
        &[row(TABLE, &fields)],
        &digits.map(spelt),
    )
}

/// The same value with other prefix lengths.
fn prefix_lengths() -> Case {
    values_apart(
        "nearly_prefix_lengths",
        (kind::LPM, 128),
        0,
        |value| Slot::lpm(0, value),
        &[(15, &[1]), (3, &[8]), (1, &[16]), (0, &[24]), (14, &[128])],
    )
}

/// The same value with other masks.
fn masks() -> Case {
    values_apart(
        "nearly_masks",
        (kind::TERNARY, 128),
        1,
        |value| Slot::ternary(0, value),
        &[
            (1, &[0x0a]),
            (1, &[0x0a, 0]),
            (3, &[0x0a, 0x0a]),
            (1, &[0x0b]),
            (2, &[1, 0x0a]),
            (7, &[0x0a, 0, 0, 0, 0, 0, 0, 0, 0]),
            (6, &[0x0a, 0, 0, 0, 0, 0, 0, 0, 0x0a]),
        ],
    )
}

/// The same low bound with other high ones.
fn bounds() -> Case {
    values_apart(
        "nearly_bounds",
        (kind::RANGE, 128),
        1,
        |value| Slot::range(0, value),
        &[
            (15, &[0]),
            (1, &[0x0a]),
            (2, &[0x0a, 0]),
            (1, &[1, 0x0a]),
            (1, &[2, 0x0a]),
            (5, &[1, 0, 0, 0, 0, 0, 0, 0, 0x0a]),
        ],
    )
}

/// A slot that is omitted is no slot of zeros, in any kind that allows both.
fn omitted_or_zero() -> Case {
    let fields = [
        (kind::OPTIONAL, 8),
        (kind::RANGE, 8),
        (kind::TERNARY, 8),
        (kind::LPM, 8),
    ];
    let none = Slot::OMITTED;
    let of = |zeros: usize| {
        let (zero, one) = (behind(zeros, &[0]), behind(zeros, &[1]));
        let optional = Slot::optional(zero);
        let range = Slot::range(zero, zero);
        let (ternary, lpm) = (Slot::ternary(zero, one), Slot::lpm(zero, one));
        [
            [none, none, none, none],
            [optional, none, none, none],
            [none, range, none, none],
            [none, none, ternary, none],
            [none, none, none, lpm],
            [optional, range, none, none],
            [none, range, ternary, lpm],
            [optional, range, ternary, lpm],
        ]
        .map(|slots| Key::new(1, &slots))
    };
    let pairs = of(3).into_iter().zip(of(0));
    let keys: Vec<Spelt> = pairs.map(|(asked, short)| (TABLE, asked, short)).collect();
    apart("nearly_omitted", &[row(TABLE, &fields)], &keys)
}

/// The same slots with priorities that differ in one byte.
fn priorities() -> Case {
    let slot = |zeros| Slot::ternary(behind(zeros, &[0x0a]), behind(zeros, &[0x0a]));
    let priorities = [
        1,
        2,
        0x0101,
        0x01_0001,
        0x0100_0001,
        0x7fff_ffff,
        0x7fff_fffe,
    ];
    let spelt = |priority| (TABLE, key(priority, slot(2)), key(priority, slot(0)));
    let rows = [row(TABLE, &[(kind::TERNARY, 8)])];
    apart("nearly_priorities", &rows, &priorities.map(spelt))
}

/// The same key in tables with the same fields.
fn tables() -> Case {
    let tables = [ONE, TWO, 0x0201_0001, 0x0200_0101];
    let key = |zeros| key(0, Slot::lpm(behind(zeros, &[0x0a, 0]), behind(zeros, &[8])));
    let rows = tables.map(|table| row(table, &[(kind::LPM, 16)]));
    let keys = tables.map(|table| (table, key(5), key(0)));
    apart("nearly_tables", &rows, &keys)
}

/// One key in several forms within a WRITE, under both atomicities. In the
/// answers 17 02 is the head 23 (2), 14 06 the pair 20 (6), 15 05 the pair
/// 21 (5) and 19 0a the pair 25 (10).
fn in_one_batch() -> Case {
    let of = |zeros, param| {
        let slot = Slot::range(behind(zeros, &[2]), behind(zeros, &[1, 0]));
        entry(TABLE, key(1, slot), param)
    };
    let batch = [
        Update::insert(of(3, 1)),
        Update::modify(of(0, 2)),
        Update::insert(of(14, 3)),
        Update::delete(of(1, 4)),
        Update::modify(of(3, 5)),
        Update::insert(of(0, 6)),
    ];
    let all = || read_all(DEVICE, 0, 0);
    Case::configured("padded_in_one_batch", &[row(TABLE, &[(kind::RANGE, 16)])])
        .answers(
            write(primary(), 1, &batch),
            vec![
                0x17, 0x02, 0, 6, 0x19, 0x0a, 0x19, 0x0a, 0x14, 0x06, 0x19, 0x0a, 0x19, 0x0a, 0x19,
                0x0a,
            ],
        )
        .ok(all())
        .answers(
            write(primary(), 0, &batch),
            vec![
                0x17, 0x02, 0, 6, 0, 0, 0, 0, 0x14, 0x06, 0, 0, 0x15, 0x05, 0, 0,
            ],
        )
        .shows(all(), &[of(0, 6)])
        .takes_all(&[
            Update::modify(of(14, 7)),
            Update::delete(of(5, 8)),
            Update::insert(of(2, 9)),
        ])
        .shows(all(), &[of(0, 9)])
}
