//! P4Runtime 9.1.6 and 13: reading.

use reference::bytes::{
    arbitrate, close, configure, kind, open, read, read_all, read_one, write, Action, Entry, Head,
    Key, Row, Slot, Update, Value,
};

use super::{key, plain, plain_row, primary, rec, string, Case, DEVICE};

pub fn cases() -> Vec<Case> {
    vec![
        dont_care_is_not_everything(),
        four_requests(),
        order(),
        roles(),
        without_streams(),
    ]
}

/// 9.1.6: an entry that matches everything can be read alone.
fn dont_care_is_not_everything() -> Case {
    const TABLE: u32 = 0x0212_ab34;
    const ACTION: u32 = 0x0112_ab34;
    let row = Row::new(TABLE, 0, 8, &[(kind::LPM, 32)], &[Action::new(ACTION, &[])]);
    let of = |slot: Slot| Entry::new(TABLE, key(0, slot), ACTION, &[]);
    let (any, ten) = (of(Slot::OMITTED), of(Slot::lpm(0x0a00_0000, 8)));
    let one = |slot: Slot| read_one(DEVICE, 0, TABLE, key(0, slot));
    let eleven = Key {
        priority: 11,
        ..Key::ZERO
    };
    let no_prefix = Slot::lpm(string(&[0x0a, 0, 0, 0]), Value::NONE);
    Case::configured("read_dontcare_ambiguity", &[row])
        .inserts(any)
        .inserts(ten)
        .shows(read_all(DEVICE, 0, TABLE), &[any, ten])
        .shows(read_all(DEVICE, 0, 0), &[any, ten])
        .shows(one(Slot::OMITTED), &[any])
        .shows(one(Slot::lpm(0x0a00_0000, 8)), &[ten])
        .ok(one(Slot::lpm(0x0a00_0000, 9)))
        .refused(read(DEVICE, 0, TABLE, 0, eleven), 1, 3)
        .refused(read(DEVICE, 0, 0, 0, ten.key), 1, 3)
        .refused(read(DEVICE, 0, 0, 1, ten.key), 1, 3)
        .refused(one(Slot::lpm(0x0a00_0001, 8)), 19, 3)
        .refused(one(Slot::lpm(0x01_0a00_0000, 8)), 18, 11)
        .refused(one(no_prefix), 17, 3)
        .refused(read_one(DEVICE, 0, TABLE, eleven), 19, 3)
        .refused(read_all(DEVICE, 0, TABLE + 1), 15, 5)
        .refused(read_one(DEVICE, 0, TABLE + 1, ten.key), 15, 5)
        .refused(read_all(3, 0, TABLE), 5, 5)
        .refused(read_all(DEVICE, 8, TABLE), 6, 5)
        .refused(read_all(3, 8, TABLE), 5, 5)
}

/// 13.3.1, one request per READ: b names an unknown table, d is too wide.
fn four_requests() -> Case {
    let table = 0x0200_0001;
    let (a, c) = (plain(table, 1, 1), plain(table, 2, 2));
    Case::configured("read_13_3_1", &[plain_row(table, 0, 4)])
        .takes(&[Update::insert(a), Update::insert(c)])
        .shows(read_one(DEVICE, 0, table, a.key), &[a])
        .refused(read_one(DEVICE, 0, 0x0200_0002, a.key), 15, 5)
        .shows(read_one(DEVICE, 0, table, c.key), &[c])
        .refused(
            read_one(DEVICE, 0, table, key(0, Slot::exact(0x1_0000))),
            18,
            11,
        )
}

/// By row and then by insertion; MODIFY keeps the place, INSERT takes the last.
fn order() -> Case {
    let (one, two) = (0x0200_0001, 0x0200_0002);
    let rows = [plain_row(two, 0, 8), plain_row(one, 0, 8)];
    let all = || read_all(DEVICE, 0, 0);
    let insert = |table, field| Update::insert(plain(table, field, 1));
    Case::configured("order_modify_delete", &rows)
        .takes(&[
            insert(one, 9),
            insert(two, 5),
            insert(one, 3),
            insert(two, 7),
        ])
        .takes(&[insert(two, 1), insert(one, 1)])
        .shows(
            all(),
            &[
                plain(two, 5, 1),
                plain(two, 7, 1),
                plain(two, 1, 1),
                plain(one, 9, 1),
                plain(one, 3, 1),
                plain(one, 1, 1),
            ],
        )
        .takes(&[
            Update::modify(plain(two, 5, 2)),
            Update::modify(plain(one, 3, 2)),
        ])
        .takes(&[Update::delete(plain(two, 7, 9))])
        .takes(&[Update::delete(plain(one, 9, 9)), insert(one, 9)])
        .shows(
            all(),
            &[
                plain(two, 5, 2),
                plain(two, 1, 1),
                plain(one, 3, 2),
                plain(one, 1, 1),
                plain(one, 9, 1),
            ],
        )
        .takes(&[insert(two, 7)])
        .shows(
            read_all(DEVICE, 0, two),
            &[plain(two, 5, 2), plain(two, 1, 1), plain(two, 7, 1)],
        )
}

/// Each role reads what it may write.
fn roles() -> Case {
    let tables = [0x0200_0003, 0x0200_0001, 0x0200_0002];
    let rows = [
        plain_row(tables[0], 1, 4),
        plain_row(tables[1], 0, 4),
        plain_row(tables[2], 1, 4),
    ];
    let [of_1, of_0, also_of_1] = tables.map(|table| plain(table, 1, 1));
    Case::configured("read by role", &rows)
        .takes(&[
            Update::insert(also_of_1),
            Update::insert(of_0),
            Update::insert(of_1),
        ])
        .shows(read_all(DEVICE, 0, 0), &[of_1, of_0, also_of_1])
        .shows(read_all(DEVICE, 1, 0), &[of_1, also_of_1])
        .ok(read_all(DEVICE, 2, 0))
        .ok(read_all(DEVICE, 7, 0))
        .refused(read_all(DEVICE, 1, tables[1]), 16, 7)
        .refused(read_one(DEVICE, 2, tables[0], of_1.key), 16, 7)
        // 16 before the key is looked at.
        .refused(
            read_one(DEVICE, 2, tables[0], key(5, Slot::exact(Value::NONE))),
            16,
            7,
        )
        .shows(read_one(DEVICE, 1, tables[0], of_1.key), &[of_1])
        .shows(read_one(DEVICE, 0, tables[2], also_of_1.key), &[also_of_1])
}

/// READ needs no primary, and no stream.
fn without_streams() -> Case {
    let table = 0x0200_0001;
    let entry = plain(table, 1, 1);
    let again = Head::set(DEVICE, 0, 1);
    Case::configured("reading without streams", &[plain_row(table, 0, 4)])
        .inserts(entry)
        .ok(close(0))
        .shows(read_all(DEVICE, 0, 0), &[entry])
        .shows(read_one(DEVICE, 0, table, entry.key), &[entry])
        .refused(write(primary(), 0, &[Update::delete(entry)]), 10, 7)
        .refused(configure(primary(), &[plain_row(table, 0, 4)]), 10, 7)
        .ok(open(5))
        .tells(arbitrate(5, again), &[rec(5, 0, 0, 1)])
        .takes(&[Update::delete(entry)])
        .ok(read_all(DEVICE, 0, 0))
}
