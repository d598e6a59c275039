//! What the look-back evaluator says beside the answer.

use crate::support::*;
use reference::bytes::*;

#[test]
fn accepted_and_effects() {
    let mut bench = Bench::configured(&[plain_row(TABLE, 0, 1)]);
    let updates = [
        Update::insert(plain(TABLE, 1, 1)),
        Update::insert(plain(TABLE, 2, 1)),
        Update::modify(plain(TABLE, 1, 2)),
        Update::delete(plain(TABLE, 2, 1)),
        Update::delete(plain(TABLE, 1, 1)),
    ];
    let outcome = bench.call(&write(primary(), 0, &updates));
    assert!(outcome.accepted);
    assert_eq!(outcome.effects, [true, false, true, false, true]);

    let outcome = bench.call(&write(Head::set(DEVICE, 0, 9), 0, &updates));
    assert!(!outcome.accepted);
    assert!(outcome.effects.is_empty());
}

#[test]
fn a_short_buffer_leaves_no_trace() {
    let mut bench = Bench::configured(&[plain_row(TABLE, 0, 4)]);
    let insert = write(primary(), 0, &[Update::insert(plain(TABLE, 1, 1))]);
    let outcome = bench.call_with(&insert, 57_343, 56_320);
    assert!(!outcome.accepted && outcome.effects.is_empty());
    bench.shows(&read_all(DEVICE, 0, 0), &[]);
    bench.answers(&insert, &unhex("0000 0001 0000"));
}

#[test]
fn presence_action_and_order_come_from_the_log() {
    let mut bench = Bench::configured(&[plain_row(TABLE, 0, 4)]);
    bench.writes(
        &[
            Update::insert(plain(TABLE, 1, 10)),
            Update::insert(plain(TABLE, 2, 20)),
            Update::modify(plain(TABLE, 1, 11)),
            Update::delete(plain(TABLE, 1, 0)),
            Update::insert(plain(TABLE, 3, 30)),
            Update::insert(plain(TABLE, 1, 12)),
            Update::modify(plain(TABLE, 2, 21)),
            Update::modify(plain(TABLE, 2, 22)),
        ],
        (0, 0),
        &[(0, 0); 8],
    );
    // The latest INSERT of 1 is the last one; its older MODIFY does not count.
    bench.shows(
        &read_all(DEVICE, 0, 0),
        &[
            plain(TABLE, 2, 22),
            plain(TABLE, 3, 30),
            plain(TABLE, 1, 12),
        ],
    );
    bench.ok(&configure(primary(), &[plain_row(TABLE, 0, 4)]));
    bench.shows(&read_all(DEVICE, 0, 0), &[]);
}

#[test]
fn authority_is_read_off_the_calls() {
    let id = |number: u128| number.to_be_bytes();
    let mut bench = Bench::fresh();
    assert!(!bench.past.shows_authority(0, id(5)));
    bench.ok(&open(0));
    bench.ok(&open(1));
    bench.told(0, 0, 5, &[(0, 0)], Some(5));
    assert!(bench.past.shows_authority(0, id(5)));
    assert!(!bench.past.shows_authority(1, id(5)));
    bench.told(1, 0, 3, &[(1, 6)], Some(5));
    assert!(!bench.past.shows_authority(0, id(3)));
    // Lowered, then closed: the highest id is held by nobody.
    bench.told(0, 0, 4, &[(0, 5), (1, 5)], Some(5));
    assert!(!bench.past.shows_authority(0, id(5)));
    assert!(!bench.past.shows_authority(0, id(4)));
    bench.told(1, 0, 5, &[(0, 6), (1, 0)], Some(5));
    assert!(bench.past.shows_authority(0, id(5)));
    // A refused ARBITRATE closes the stream that held it.
    bench.tells(
        &arbitrate(1, Head::set(DEVICE, 0, 4)),
        (8, 3),
        0,
        &[(0, 5)],
        Some(5),
    );
    assert!(!bench.past.shows_authority(0, id(5)));
    // Reopened and unbound, it holds nothing.
    bench.ok(&open(1));
    assert!(!bench.past.shows_authority(0, id(5)));
}
