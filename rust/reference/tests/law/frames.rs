//! Reasons 1 and 2: what the host program brings about.

use crate::support::*;
use reference::bytes::*;

/// One frame of each command, all well formed.
fn well_formed() -> [Vec<u8>; 6] {
    [
        open(3),
        close(3),
        arbitrate(3, Head::set(DEVICE, 0, 5)),
        configure(Head::set(DEVICE, 0, 5), &[plain_row(TABLE, 0, 4)]),
        write(
            Head::set(DEVICE, 0, 5),
            0,
            &[Update::insert(plain(TABLE, 1, 1))],
        ),
        read_all(DEVICE, 0, TABLE),
    ]
}

#[test]
fn lengths_are_those_of_the_text() {
    let lengths = well_formed().map(|frame| frame.len());
    assert_eq!(lengths, [2, 2, 28, 28 + 53, 29 + 221, 159]);
}

#[test]
fn an_empty_frame_and_unknown_commands_are_1() {
    let mut bench = Bench::fresh();
    bench.refused(&[], 1, 3);
    for command in (0x00..=0xff).filter(|command| !(0x01..=0x06).contains(command)) {
        bench.refused(&[command, 3], 1, 3);
        bench.refused(&[command], 1, 3);
    }
}

#[test]
fn a_byte_more_or_less_is_1() {
    let mut bench = Bench::fresh();
    for frame in well_formed() {
        bench.refused(&frame[..frame.len() - 1], 1, 3);
        bench.refused(&[&frame[..], &[0]].concat(), 1, 3);
        bench.refused(&frame[..1], 1, 3);
    }
}

#[test]
fn streams_go_up_to_31() {
    let mut bench = Bench::fresh();
    bench.ok(&open(31));
    bench.refused(&open(32), 1, 3);
    bench.refused(&close(32), 1, 3);
    bench.refused(&arbitrate(32, Head::set(DEVICE, 0, 5)), 1, 3);
    bench.refused(&open(255), 1, 3);
}

#[test]
fn flag_and_id_must_agree() {
    let mut bench = Bench::fresh();
    bench.ok(&open(3));
    let unfit = [(2, 0), (2, 5), (255, 5), (0, 5), (0, 1 << 127), (1, 0)];
    for (flag, id) in unfit {
        let head = Head {
            flag,
            id,
            ..Head::unset(DEVICE, 0)
        };
        bench.refused(&arbitrate(3, head), 1, 3);
        bench.refused(&configure(head, &[plain_row(TABLE, 0, 4)]), 1, 3);
        bench.refused(&write(head, 0, &[]), 1, 3);
    }
    // A malformed ARBITRATE leaves the stream open and the mark alone.
    bench.tells(
        &arbitrate(3, Head::unset(DEVICE, 0)),
        (0, 0),
        0,
        &[(3, 5)],
        None,
    );
}

#[test]
fn counts_have_their_ranges() {
    let head = Head::set(DEVICE, 0, 5);
    let mut bench = Bench::fresh();
    bench.refused(&configure(head, &[]), 1, 3);
    let rows: Vec<Row> = (0..9).map(|at| plain_row(TABLE + at, 0, 1)).collect();
    bench.refused(&configure(head, &rows), 1, 3);
    // Eight rows are well formed: nobody is primary.
    bench.refused(&configure(head, &rows[..8]), 10, 7);

    let updates = [Update::insert(plain(TABLE, 1, 1)); 65];
    bench.refused(&write(head, 0, &updates), 1, 3);
    bench.refused(&write(head, 0, &updates[..64]), 10, 7);
    bench.refused(&write(head, 0, &[]), 10, 7);
}

#[test]
fn counts_rule_the_length() {
    let head = Head::set(DEVICE, 0, 5);
    let row = plain_row(TABLE, 0, 4).bytes();
    let update = Update::insert(plain(TABLE, 1, 1)).bytes();
    let mut bench = Bench::fresh();
    bench.refused(&configure_raw(head, 2, &row), 1, 3);
    bench.refused(&configure_raw(head, 1, &[row, row].concat()), 1, 3);
    bench.refused(&write_raw(head, 0, 0, &update), 1, 3);
    bench.refused(&write_raw(head, 0, 2, &update), 1, 3);
    bench.refused(&write_raw(head, 0, 255, &[]), 1, 3);
}

#[test]
fn atomicity_goes_up_to_2() {
    let mut bench = Bench::configured(&[plain_row(TABLE, 0, 4)]);
    bench.ok(&write(primary(), 1, &[]));
    bench.refused(&write(primary(), 2, &[]), 13, 12);
    bench.refused(&write(primary(), 3, &[]), 1, 3);
    bench.refused(&write(primary(), 255, &[]), 1, 3);
}

#[test]
fn only_table_and_key_of_a_read_must_agree() {
    let mut bench = Bench::configured(&[one_row(kind::LPM, 32)]);
    bench.ok(&read(DEVICE, 0, TABLE, 0, Key::ZERO));
    bench.ok(&read(DEVICE, 0, TABLE, 1, Key::ZERO));
    bench.ok(&read(DEVICE, 0, 0, 0, Key::ZERO));
    bench.refused(&read(DEVICE, 0, 0, 1, Key::ZERO), 1, 3);
    bench.refused(&read(DEVICE, 0, TABLE, 2, Key::ZERO), 1, 3);
    bench.refused(&read(DEVICE, 0, TABLE, 255, Key::ZERO), 1, 3);
    // Any byte of the key counts with `only` 0: its first and its last here.
    let mut frame = read_all(DEVICE, 0, TABLE);
    frame[15] = 1;
    bench.refused(&frame, 1, 3);
    let mut frame = read_all(DEVICE, 0, TABLE);
    frame[158] = 1;
    bench.refused(&frame, 1, 3);
    let mut frame = read_all(DEVICE, 0, 0);
    frame[158] = 1;
    bench.refused(&frame, 1, 3);
}

#[test]
fn malformed_comes_before_every_other_reason() {
    let mut bench = Bench::fresh();
    // Another device, another role and a stream not open, beside a bad flag.
    let head = Head {
        flag: 2,
        ..Head::set(9, 9, 5)
    };
    bench.refused(&arbitrate(3, head), 1, 3);
    bench.refused(&read(9, 9, 0, 1, Key::ZERO), 1, 3);
}

#[test]
fn short_buffers_come_first_and_write_nothing() {
    let mut bench = Bench::fresh();
    for (answer_len, store_len) in [(57_343, 56_320), (57_344, 56_319), (0, 0)] {
        for frame in [&[][..], &open(3), &[0xff]] {
            let outcome = bench.call_with(frame, answer_len, store_len);
            assert_eq!((outcome.reason, outcome.accepted), (2, false));
            assert!(outcome.answer.is_empty());
        }
    }
    // None of these opened the stream, and longer buffers do as well.
    let outcome = bench.call_with(&open(3), 57_345, 1 << 20);
    assert_eq!(outcome.answer, [0, 0, 0, 0]);
}
