//! Reasons 1 and 14, condition by condition.

use reference::bytes::{
    arbitrate, close, configure, configure_raw, kind, open, read, read_all, write, write_raw,
    Action, Head, Key, Row, Slot, Update,
};

use super::{key, plain, plain_row, primary, rec, Case, ACTION, DEVICE, TABLE};

pub fn cases() -> Vec<Case> {
    vec![malformed_frames(), rows_not_allowed(), sizes()]
}

/// Each is one step away from a frame that would be accepted.
fn malformed_frames() -> Case {
    let row = plain_row(TABLE, 0, 4);
    let stored = plain(TABLE, 1, 1);
    let update = Update::insert(plain(TABLE, 2, 2));
    let flagged = |flag: u8, id: u128| Head {
        flag,
        id,
        ..primary()
    };
    let heads = [flagged(2, 1), flagged(255, 1), flagged(0, 1), flagged(1, 0)];
    let high_bit = flagged(0, 1 << 127);

    let mut frames = vec![vec![], vec![0x00], vec![0x00, 0x00], vec![0x07, 0x00]];
    frames.extend([vec![0x01], vec![0x02], vec![0xff; 2]]);
    frames.extend([open(32), open(255), close(32), close(255)]);
    frames.extend([arbitrate(32, primary()), arbitrate(255, primary())]);
    for head in heads.into_iter().chain([high_bit]) {
        frames.push(arbitrate(0, head));
        frames.push(configure(head, &[row]));
        frames.push(write(head, 0, &[update]));
    }
    // Counts out of range, and counts that are not what follows.
    frames.push(configure(primary(), &[]));
    frames.push(configure(primary(), &[row; 9]));
    frames.push(configure_raw(primary(), 2, &row.bytes()));
    frames.push(configure_raw(primary(), 0, &row.bytes()));
    frames.push(write(primary(), 0, &[update; 65]));
    frames.push(write(primary(), 0, &[update; 255]));
    frames.push(write_raw(primary(), 0, 2, &update.bytes()));
    frames.push(write_raw(primary(), 0, 0, &update.bytes()));
    frames.push(write(primary(), 3, &[update]));
    frames.push(write(primary(), 255, &[update]));
    // What a READ asks for.
    let exact = key(0, Slot::exact(1));
    let last_byte = {
        let mut key = Key::ZERO;
        key.slots[3].second.bytes[15] = 1;
        key
    };
    frames.push(read(DEVICE, 0, TABLE, 2, exact));
    frames.push(read(DEVICE, 0, TABLE, 255, exact));
    frames.push(read(DEVICE, 0, TABLE, 0, exact));
    frames.push(read(DEVICE, 0, TABLE, 0, last_byte));
    frames.push(read(DEVICE, 0, 0, 0, last_byte));
    frames.push(read(DEVICE, 0, 0, 1, exact));
    frames.push(read(DEVICE, 0, 0, 1, Key::ZERO));
    // One byte more, one byte less.
    for frame in [
        open(9),
        close(0),
        arbitrate(0, primary()),
        configure(primary(), &[row]),
        write(primary(), 0, &[]),
        write(primary(), 0, &[update]),
        read_all(DEVICE, 0, 0),
    ] {
        frames.push([&frame[..], &[0]].concat());
        frames.push(frame[..frame.len() - 1].to_vec());
    }
    frames.push(vec![0x05; 65_535]);

    let mut case = Case::configured("frames that are malformed", &[row]).inserts(stored);
    for frame in frames {
        case = case.refused(frame, 1, 3);
    }
    // Nothing came of any of them.
    case.tells(arbitrate(0, primary()), &[rec(0, 0, 0, 1)])
        .shows(read_all(DEVICE, 0, 0), &[stored])
        .refused(close(9), 4, 5)
}

/// Each changes one thing in a row that is allowed.
fn rows_not_allowed() -> Case {
    let fields = [(kind::EXACT, 16), (kind::LPM, 32)];
    let actions = [Action::new(ACTION, &[1, 128]), Action::new(ACTION + 1, &[])];
    let good = Row::new(TABLE, 7, 4, &fields, &actions);
    let mut bad = Vec::new();
    let mut but = |change: fn(&mut Row)| {
        let mut row = good;
        change(&mut row);
        bad.push(row);
    };
    but(|row| row.table = 0x0100_0001);
    but(|row| row.table = 0x0300_0001);
    but(|row| row.table = 0);
    but(|row| row.owner = 8);
    but(|row| row.owner = 255);
    but(|row| row.size = 0);
    but(|row| row.size = 257);
    but(|row| row.size = 0xffff);
    but(|row| row.field_count = 0);
    but(|row| row.field_count = 5);
    but(|row| row.field_count = 255);
    // A count of 1 leaves the second field unused, one of 3 asks for a third.
    but(|row| row.field_count = 1);
    but(|row| row.field_count = 3);
    but(|row| row.fields[0].0 = 0);
    but(|row| row.fields[1].0 = 6);
    but(|row| row.fields[1].0 = 255);
    but(|row| row.fields[0].1 = 0);
    but(|row| row.fields[1].1 = 129);
    but(|row| row.fields[1].1 = 255);
    but(|row| row.fields[2].0 = 1);
    but(|row| row.fields[3].1 = 1);
    but(|row| row.action_count = 0);
    but(|row| row.action_count = 5);
    but(|row| row.action_count = 1);
    but(|row| row.action_count = 3);
    but(|row| row.actions[0].id = 0x0200_0001);
    but(|row| row.actions[1].id = 1);
    but(|row| row.actions[1].id = ACTION);
    but(|row| row.actions[0].count = 5);
    but(|row| row.actions[0].count = 255);
    but(|row| row.actions[0].count = 1);
    but(|row| row.actions[0].count = 3);
    but(|row| row.actions[0].widths[0] = 0);
    but(|row| row.actions[0].widths[1] = 129);
    but(|row| row.actions[0].widths[3] = 1);
    but(|row| row.actions[1].widths[0] = 1);
    but(|row| row.actions[2].id = ACTION + 2);
    but(|row| row.actions[3].count = 1);
    but(|row| row.actions[3].widths[3] = 1);

    let mut case = Case::configured("rows that are not allowed", &[plain_row(TABLE, 0, 4)])
        .inserts(plain(TABLE, 1, 1));
    for row in bad {
        case = case.refused(configure(primary(), &[row]), 14, 3).refused(
            configure(primary(), &[plain_row(TABLE + 9, 0, 1), row]),
            14,
            3,
        );
    }
    // Rows and entries are what they were.
    case.shows(read_all(DEVICE, 0, TABLE), &[plain(TABLE, 1, 1)])
        .ok(configure(primary(), &[good]))
        .ok(read_all(DEVICE, 7, TABLE))
}

fn sizes() -> Case {
    let rows = |sizes: &[u16]| -> Vec<Row> {
        let tables = TABLE..;
        let rows = sizes.iter().zip(tables);
        rows.map(|(&size, table)| plain_row(table, 0, size))
            .collect()
    };
    let set = |sizes: &[u16]| configure(primary(), &rows(sizes));
    Case::configured("sizes add to at most 256", &rows(&[256]))
        .ok(set(&[255, 1]))
        .ok(set(&[32; 8]))
        .ok(set(&[1; 8]))
        .refused(set(&[256, 1]), 14, 3)
        .refused(set(&[33, 32, 32, 32, 32, 32, 32, 32]), 14, 3)
        // Sums that come to little in 16 bits.
        .refused(set(&[0xffff, 1]), 14, 3)
        .refused(set(&[0xffff, 2]), 14, 3)
        .refused(set(&[0x8000, 0x8000]), 14, 3)
        .refused(set(&[0x2000; 8]), 14, 3)
        .refused(set(&[0x0100, 0xff00]), 14, 3)
}
