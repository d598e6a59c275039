//! READ: its refusals, and what it shows in which order.

use crate::support::*;
use reference::bytes::*;

const FIRST: u32 = 0x0200_0001;
const SECOND: u32 = 0x0200_0002;

#[test]
fn refusals_come_in_order() {
    let mut bench = Bench::fresh();
    let key = Key::new(1, &[Slot::exact(Value::NONE)]);
    bench.refused(&read_one(2, 8, FIRST, key), 5, 5);
    bench.refused(&read_one(DEVICE, 8, FIRST, key), 6, 5);
    bench.refused(&read_one(DEVICE, 1, FIRST, key), 12, 9);
    bench.refused(&read_all(DEVICE, 0, 0), 12, 9);

    let mut bench = Bench::configured(&[plain_row(FIRST, 2, 4)]);
    bench.refused(&read_one(DEVICE, 1, SECOND, key), 15, 5);
    bench.refused(&read_one(DEVICE, 1, FIRST, key), 16, 7);
    bench.refused(&read_all(DEVICE, 1, SECOND), 15, 5);
    bench.refused(&read_all(DEVICE, 1, FIRST), 16, 7);
    bench.refused(&read_one(DEVICE, 2, FIRST, key), 17, 3);
    let wide = Key::new(1, &[Slot::exact(0x1_0000)]);
    bench.refused(&read_one(DEVICE, 2, FIRST, wide), 18, 11);
    let priority = Key::new(1, &[Slot::exact(1)]);
    bench.refused(&read_one(DEVICE, 2, FIRST, priority), 19, 3);
    bench.ok(&read_one(DEVICE, 2, FIRST, Key::new(0, &[Slot::exact(1)])));
}

#[test]
fn reading_needs_no_primary() {
    let mut bench = Bench::configured(&[plain_row(FIRST, 0, 4)]);
    bench.takes(plain(FIRST, 1, 2));
    bench.ok(&close(0));
    bench.shows(&read_all(DEVICE, 0, 0), &[plain(FIRST, 1, 2)]);
}

#[test]
fn by_row_and_then_by_insertion() {
    // The higher table id comes first in the configuration.
    let mut bench = Bench::configured(&[plain_row(SECOND, 0, 4), plain_row(FIRST, 0, 4)]);
    bench.takes(plain(FIRST, 9, 1));
    bench.takes(plain(SECOND, 9, 2));
    bench.takes(plain(FIRST, 1, 3));
    bench.takes(plain(SECOND, 1, 4));
    bench.shows(
        &read_all(DEVICE, 0, 0),
        &[
            plain(SECOND, 9, 2),
            plain(SECOND, 1, 4),
            plain(FIRST, 9, 1),
            plain(FIRST, 1, 3),
        ],
    );
    bench.shows(
        &read_all(DEVICE, 0, FIRST),
        &[plain(FIRST, 9, 1), plain(FIRST, 1, 3)],
    );
}

#[test]
fn table_0_is_every_table_the_role_may_write() {
    let rows = [
        plain_row(FIRST, 1, 4),
        plain_row(SECOND, 0, 4),
        plain_row(SECOND + 1, 1, 4),
        plain_row(SECOND + 2, 2, 4),
    ];
    let mut bench = Bench::configured(&rows);
    let of = |table| plain(table, 1, 1);
    for table in [SECOND + 2, SECOND + 1, SECOND, FIRST] {
        bench.takes(of(table));
    }
    let all = [FIRST, SECOND, SECOND + 1, SECOND + 2].map(of);
    bench.shows(&read_all(DEVICE, 0, 0), &all);
    bench.shows(&read_all(DEVICE, 1, 0), &[all[0], all[2]]);
    bench.shows(&read_all(DEVICE, 2, 0), &[all[3]]);
    // A role that owns nothing.
    bench.shows(&read_all(DEVICE, 7, 0), &[]);
}

#[test]
fn one_key() {
    let mut bench = Bench::configured(&[plain_row(FIRST, 0, 4), plain_row(SECOND, 0, 4)]);
    bench.takes(plain(FIRST, 1, 5));
    bench.takes(plain(FIRST, 2, 6));
    let key = |number, length| Key::new(0, &[Slot::exact(Value::padded(number, length))]);
    bench.shows(
        &read_one(DEVICE, 0, FIRST, key(2, 1)),
        &[plain(FIRST, 2, 6)],
    );
    bench.shows(
        &read_one(DEVICE, 0, FIRST, key(2, 16)),
        &[plain(FIRST, 2, 6)],
    );
    // Absent here, absent there.
    bench.shows(&read_one(DEVICE, 0, FIRST, key(3, 1)), &[]);
    bench.shows(&read_one(DEVICE, 0, SECOND, key(2, 1)), &[]);
}

#[test]
fn a_key_of_zeros_is_a_key() {
    let mut bench = Bench::configured(&[one_row(kind::LPM, 32)]);
    let anything = entry(0, Slot::OMITTED);
    let ten = entry(0, Slot::lpm(0x0a00_0000, 8));
    bench.takes(anything);
    bench.takes(ten);
    bench.shows(&read_all(DEVICE, 0, TABLE), &[anything, ten]);
    bench.shows(&read_one(DEVICE, 0, TABLE, Key::ZERO), &[anything]);
    bench.shows(&read_one(DEVICE, 0, TABLE, ten.key), &[ten]);
    let nine = Key::new(0, &[Slot::lpm(0x0a00_0000, 9)]);
    bench.shows(&read_one(DEVICE, 0, TABLE, nine), &[]);
    // Bad keys.
    let bad = |slot| read_one(DEVICE, 0, TABLE, Key::new(0, &[slot]));
    bench.refused(&bad(Slot::lpm(0x0a00_0000, 6)), 19, 3);
    bench.refused(&bad(Slot::lpm(0x1_0000_0000, 8)), 18, 11);
    bench.refused(&bad(Slot::lpm(0, Value::NONE)), 17, 3);
    bench.refused(&bad(Slot::exact(0)), 17, 3);
}

#[test]
fn a_device_of_zero_is_a_device() {
    let mut agent = reference::Agent::new(0);
    let mut buffer = vec![0; 57_344];
    assert_eq!(agent.call(&read_all(0, 0, 0), 56_320, &mut buffer), 12);
    assert_eq!(agent.call(&read_all(1, 0, 0), 56_320, &mut buffer), 5);
}
