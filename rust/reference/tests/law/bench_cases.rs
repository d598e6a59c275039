//! P1 to P9, and the sample of `play`.

use crate::support::*;
use reference::bytes::*;

#[test]
fn p1_ids_compare_over_all_128_bits() {
    let ones = (1 << 64) - 1;
    let one_then_zeros = 1 << 64;
    let mut bench = Bench::fresh();
    bench.ok(&open(1));
    bench.ok(&open(2));
    bench.told(1, 0, ones, &[(1, 0)], Some(ones));
    bench.told(
        2,
        0,
        one_then_zeros,
        &[(1, 6), (2, 0)],
        Some(one_then_zeros),
    );
}

#[test]
fn p2_to_p4_a_backup_is_not_promoted_but_may_claim_the_mark() {
    let mut bench = Bench::fresh();
    bench.ok(&open(1));
    bench.ok(&open(2));
    bench.told(1, 0, 5, &[(1, 0)], Some(5));
    bench.told(2, 0, 3, &[(2, 6)], Some(5));
    // P2
    bench.tells(&close(1), (0, 0), 0, &[(2, 5)], Some(5));
    // P3
    bench.told(2, 0, 4, &[(2, 5)], Some(5));
    // P4
    bench.told(2, 0, 5, &[(2, 0)], Some(5));
}

#[test]
fn p5_a_lowered_primary_is_none() {
    let mut bench = Bench::fresh();
    bench.ok(&open(0));
    bench.told(0, 0, 5, &[(0, 0)], Some(5));
    bench.told(0, 0, 4, &[(0, 5)], Some(5));
    bench.refused(&write(Head::set(DEVICE, 0, 5), 0, &[]), 10, 7);
    bench.refused(&write(Head::set(DEVICE, 0, 4), 0, &[]), 10, 7);
}

#[test]
fn p6_width_9() {
    let mut bench = Bench::configured(&[one_row(kind::EXACT, 9)]);
    bench.takes(entry(0, Slot::exact(Value::string(&[0x01, 0xff]))));
    bench.fails(entry(0, Slot::exact(Value::string(&[0x02, 0x00]))), 18, 11);

    let mut bench = Bench::configured(&[one_row(kind::EXACT, 9)]);
    bench.takes(entry(0, Slot::exact(Value::string(&[0x00, 0x01, 0xff]))));
    let stored = entry(0, Slot::exact(Value::string(&[0x01, 0xff])));
    bench.shows(&read_all(DEVICE, 0, TABLE), &[stored]);
}

#[test]
fn p7_lpm_of_width_32() {
    let mut bench = Bench::configured(&[one_row(kind::LPM, 32)]);
    bench.takes(entry(0, Slot::lpm(0x0a00_0000, 8)));
    bench.fails(entry(0, Slot::lpm(0x0a00_0001, 8)), 19, 3);
    bench.fails(entry(0, Slot::lpm(0x0a00_0000, 0)), 19, 3);
    bench.fails(entry(0, Slot::lpm(0x0a00_0000, 33)), 19, 3);
    bench.takes(entry(0, Slot::lpm(0x0a00_0000, 32)));
}

#[test]
fn p8_range_of_width_8() {
    let mut bench = Bench::configured(&[one_row(kind::RANGE, 8)]);
    bench.takes(entry(1, Slot::range(0x00, 0xfe)));
    bench.fails(entry(1, Slot::range(0x00, 0xff)), 19, 3);
}

#[test]
fn p9_one_entry_twice_in_one_write() {
    let mut bench = Bench::configured(&[plain_row(TABLE, 0, 4)]);
    let twice = [Update::insert(plain(TABLE, 7, 8)); 2];
    bench.answers(&write(primary(), 0, &twice), &unhex("1702 0002 0000 1406"));
}

#[test]
fn the_sample_of_play() {
    let mut bench = Bench::fresh();
    bench.answers(&unhex("0103"), &unhex("0000 0000"));
    bench.answers(
        &unhex("0303 0000000000000001 0001 00000000000000000000000000000005"),
        &unhex("0000 0001 0300000100000000000000000000000000000005"),
    );
    bench.answers(&unhex("0203"), &unhex("0000 0000"));
    bench.answers(&unhex("0203"), &unhex("0405 0000"));
}
