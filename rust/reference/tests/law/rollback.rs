//! Document 02, request Two: batches that roll back. Answers are written out:
//! 17 02 is the head 23 (2), 19 0a the pair 25 (10).

use crate::support::*;
use reference::bytes::*;

const FIRST: u32 = 0x0200_0001;
const SECOND: u32 = 0x0200_0002;

fn insert(table: u32, field: u128, param: u128) -> Update {
    Update::insert(plain(table, field, param))
}

fn modify(table: u32, field: u128, param: u128) -> Update {
    Update::modify(plain(table, field, param))
}

fn delete(table: u32, field: u128) -> Update {
    Update::delete(plain(table, field, 9))
}

/// Two tables: 1, 2 and 3 in the first, whose size is 4, and 1 in the second.
/// They were inserted in the order 1, 2, then the second table's, then 3.
fn halls() -> Bench {
    let mut bench = Bench::configured(&[plain_row(FIRST, 0, 4), plain_row(SECOND, 1, 2)]);
    let updates = [
        insert(FIRST, 1, 11),
        insert(FIRST, 2, 12),
        insert(SECOND, 1, 21),
        insert(FIRST, 3, 13),
    ];
    bench.writes(&updates, (0, 0), &[(0, 0); 4]);
    bench
}

/// Every READ shows what [`halls`] made, and so does the store.
#[track_caller]
fn unchanged(bench: &mut Bench) {
    let first = [
        plain(FIRST, 1, 11),
        plain(FIRST, 2, 12),
        plain(FIRST, 3, 13),
    ];
    let second = [plain(SECOND, 1, 21)];
    bench.shows(
        &read_all(DEVICE, 0, 0),
        &[first[0], first[1], first[2], second[0]],
    );
    bench.shows(&read_all(DEVICE, 0, FIRST), &first);
    bench.shows(&read_all(DEVICE, 1, 0), &second);
    bench.shows(&read_one(DEVICE, 0, FIRST, first[1].key), &first[1..2]);
    let absent = plain(FIRST, 4, 0).key;
    bench.shows(&read_one(DEVICE, 0, FIRST, absent), &[]);
    let stored = [first[0], first[1], second[0], first[2]];
    let stored: Vec<u8> = stored.iter().flat_map(Entry::bytes).collect();
    assert_eq!(hex(&bench.agent.store_image()), hex(&stored));
}

/// A batch with atomicity 1 by the primary of role 0, and its answer.
#[track_caller]
fn batch(bench: &mut Bench, updates: &[Update], answer: &str) {
    bench.answers(&write(primary(), 1, updates), &unhex(answer));
}

#[test]
fn a_batch_that_does_not_fail_answers_as_with_atomicity_0() {
    let updates = [
        delete(FIRST, 2),
        insert(FIRST, 5, 15),
        modify(FIRST, 5, 16),
        insert(SECOND, 2, 22),
        insert(FIRST, 2, 17),
    ];
    let answer = unhex("0000 0005 0000 0000 0000 0000 0000");
    let shown = [
        plain(FIRST, 1, 11),
        plain(FIRST, 3, 13),
        plain(FIRST, 5, 16),
        plain(FIRST, 2, 17),
        plain(SECOND, 1, 21),
        plain(SECOND, 2, 22),
    ];
    for atomicity in [0, 1] {
        let mut bench = halls();
        bench.answers(&write(primary(), atomicity, &updates), &answer);
        bench.shows(&read_all(DEVICE, 0, 0), &shown);
    }
}

#[test]
fn no_update_is_accepted() {
    let mut bench = halls();
    batch(&mut bench, &[], "0000 0000");
    unchanged(&mut bench);
}

#[test]
fn one_update_alone() {
    let mut bench = halls();
    batch(&mut bench, &[insert(FIRST, 1, 5)], "1702 0001 1406");
    batch(&mut bench, &[delete(FIRST, 4)], "1702 0001 1505");
    unchanged(&mut bench);
    batch(&mut bench, &[delete(FIRST, 3)], "0000 0001 0000");
    batch(&mut bench, &[insert(FIRST, 3, 13)], "0000 0001 0000");
    unchanged(&mut bench);
}

#[test]
fn the_first_update_fails() {
    let mut bench = halls();
    let updates = [
        insert(FIRST, 1, 5),
        insert(FIRST, 4, 5),
        delete(FIRST, 1),
        modify(FIRST, 2, 5),
    ];
    batch(&mut bench, &updates, "1702 0004 1406 190a 190a 190a");
    unchanged(&mut bench);
}

#[test]
fn a_middle_update_fails() {
    let mut bench = halls();
    let updates = [
        modify(FIRST, 1, 5),
        delete(FIRST, 2),
        insert(SECOND, 2, 5),
        modify(FIRST, 7, 5),
        delete(SECOND, 1),
    ];
    batch(&mut bench, &updates, "1702 0005 190a 190a 190a 1505 190a");
    unchanged(&mut bench);
}

#[test]
fn the_last_update_fails() {
    let mut bench = halls();
    let updates = [
        delete(FIRST, 1),
        delete(FIRST, 3),
        insert(FIRST, 8, 5),
        delete(SECOND, 1),
        insert(SECOND, 8, 5),
        insert(FIRST, 8, 6),
    ];
    let answer = "1702 0006 190a 190a 190a 190a 190a 1406";
    batch(&mut bench, &updates, answer);
    unchanged(&mut bench);
}

#[test]
fn order_comes_back_with_a_deleted_entry() {
    for field in [1, 2, 3] {
        let mut bench = halls();
        let updates = [delete(FIRST, field), delete(FIRST, field)];
        batch(&mut bench, &updates, "1702 0002 190a 1505");
        unchanged(&mut bench);
    }
}

#[test]
fn the_same_key_again_and_again() {
    let mut bench = halls();
    let updates = [
        insert(FIRST, 4, 1),
        delete(FIRST, 4),
        insert(FIRST, 4, 2),
        modify(FIRST, 2, 3),
        modify(FIRST, 2, 4),
        delete(FIRST, 2),
        insert(FIRST, 2, 5),
        modify(FIRST, 2, 6),
        delete(FIRST, 1),
        delete(FIRST, 1),
    ];
    let failed = "1702 000a 190a 190a 190a 190a 190a 190a 190a 190a 190a 1505";
    batch(&mut bench, &updates, failed);
    unchanged(&mut bench);
    // Without the last one nothing fails.
    let done = "0000 0009 0000 0000 0000 0000 0000 0000 0000 0000 0000";
    batch(&mut bench, &updates[..9], done);
    bench.shows(
        &read_all(DEVICE, 0, FIRST),
        &[plain(FIRST, 3, 13), plain(FIRST, 4, 2), plain(FIRST, 2, 6)],
    );
}

#[test]
fn updates_are_judged_as_though_those_before_had_taken_effect() {
    let mut bench = halls();
    // The fourth fills the table: 22 counts what is supposed.
    let updates = [insert(FIRST, 4, 5), insert(FIRST, 5, 5)];
    batch(&mut bench, &updates, "1702 0002 190a 1608");
    // A DELETE makes room, once.
    let updates = [
        insert(FIRST, 4, 5),
        delete(FIRST, 2),
        insert(FIRST, 5, 5),
        insert(FIRST, 6, 5),
    ];
    batch(&mut bench, &updates, "1702 0004 190a 190a 190a 1608");
    unchanged(&mut bench);
    // There already comes before full, absent after a supposed DELETE.
    let updates = [insert(FIRST, 4, 5), insert(FIRST, 4, 5)];
    batch(&mut bench, &updates, "1702 0002 190a 1406");
    let updates = [delete(FIRST, 1), modify(FIRST, 1, 5)];
    batch(&mut bench, &updates, "1702 0002 190a 1505");
    unchanged(&mut bench);
}

#[test]
fn a_full_table() {
    let mut bench = halls();
    batch(&mut bench, &[insert(SECOND, 2, 22)], "0000 0001 0000");
    let updates = [
        insert(FIRST, 4, 14),
        insert(SECOND, 3, 23),
        delete(SECOND, 1),
    ];
    batch(&mut bench, &updates, "1702 0003 190a 1608 190a");
    // Nothing of it is charged: the room of before is there.
    let updates = [
        delete(SECOND, 1),
        insert(SECOND, 3, 23),
        insert(FIRST, 4, 14),
    ];
    batch(&mut bench, &updates, "0000 0003 0000 0000 0000");
    bench.shows(
        &read_all(DEVICE, 0, SECOND),
        &[plain(SECOND, 2, 22), plain(SECOND, 3, 23)],
    );
}

#[test]
fn a_role_that_may_write_one_of_the_tables() {
    let mut bench = halls();
    bench.ok(&open(1));
    bench.told(1, 1, 5, &[(1, 0)], Some(5));
    let updates = [
        modify(SECOND, 1, 5),
        modify(FIRST, 1, 5),
        insert(SECOND, 2, 5),
    ];
    let frame = write(Head::set(DEVICE, 1, 5), 1, &updates);
    bench.answers(&frame, &unhex("1702 0003 190a 1007 190a"));
    unchanged(&mut bench);
}

#[test]
fn updates_after_the_failed_one_are_not_looked_at() {
    let mut bench = halls();
    let unknown_type = Update {
        kind: 0,
        entry: plain(FIRST, 5, 5),
    };
    let too_wide = insert(FIRST, 0x1_0000, 5);
    let unknown_table = insert(9, 5, 5);
    let updates = [
        delete(FIRST, 3),
        unknown_table,
        unknown_type,
        too_wide,
        insert(FIRST, 1, 5),
    ];
    batch(&mut bench, &updates, "1702 0005 190a 0f05 190a 190a 190a");
    // Each of them where it is the first to fail.
    let updates = [insert(FIRST, 4, 5), unknown_type, unknown_table];
    batch(&mut bench, &updates, "1702 0003 190a 1103 190a");
    let updates = [too_wide, unknown_type];
    batch(&mut bench, &updates, "1702 0002 120b 190a");
    unchanged(&mut bench);
}

#[test]
fn refusals_of_the_call_come_first() {
    let mut bench = Bench::fresh();
    let updates = [insert(FIRST, 1, 1)];
    bench.refused(&write(Head::set(2, 8, 5), 1, &updates), 5, 5);
    bench.refused(&write(Head::set(DEVICE, 8, 5), 1, &updates), 6, 5);
    bench.refused(&write(Head::set(DEVICE, 0, 5), 1, &updates), 10, 7);
    bench.ok(&open(0));
    bench.told(0, 0, 1, &[(0, 0)], Some(1));
    bench.refused(&write(primary(), 1, &updates), 12, 9);
    bench.refused(&write(primary(), 1, &[]), 12, 9);
    bench.ok(&configure(primary(), &[plain_row(FIRST, 0, 4)]));
    bench.refused(&write(primary(), 2, &updates), 13, 12);
    bench.refused(&write(primary(), 2, &[]), 13, 12);
    bench.shows(&read_all(DEVICE, 0, 0), &[]);
    batch(&mut bench, &updates, "0000 0001 0000");
}

#[test]
fn looking_back_counts_no_update_of_a_failed_batch() {
    let mut bench = halls();
    let updates = [insert(FIRST, 4, 5), delete(FIRST, 1), delete(FIRST, 1)];
    let outcome = bench.call(&write(primary(), 1, &updates));
    assert!(outcome.accepted);
    assert_eq!(outcome.effects, [false, false, false]);
    let outcome = bench.call(&write(primary(), 1, &updates[..2]));
    assert!(outcome.accepted);
    assert_eq!(outcome.effects, [true, true]);
    // What the first batch did not do, the second one did.
    let updates = [insert(FIRST, 4, 5), insert(FIRST, 1, 5)];
    bench.writes(&updates, (23, 2), &[(20, 6), (0, 0)]);
}

#[test]
fn sixty_four_updates_and_the_last_one_fails() {
    let mut bench = Bench::configured(&[plain_row(FIRST, 0, 63)]);
    let updates: Vec<Update> = (0..64).map(|field| insert(FIRST, field, 1)).collect();
    let mut answer = unhex("1702 0040");
    answer.extend(unhex("190a").repeat(63));
    answer.extend(unhex("1608"));
    bench.answers(&write(primary(), 1, &updates), &answer);
    bench.shows(&read_all(DEVICE, 0, 0), &[]);
    let mut answer = unhex("0000 003f");
    answer.extend(unhex("0000").repeat(63));
    bench.answers(&write(primary(), 1, &updates[..63]), &answer);
}
