//! Document 02, request Two: batches with atomicity 1.
//!
//! In answers that are written out, 17 02 is the head 23 (2) and 19 0a the
//! pair 25 (10) of an update that was rolled back or never tried.

use reference::bytes::{
    arbitrate, configure, open, read_all, read_one, write, Entry, Head, Update, Value,
};

use super::{delete, plain, plain_row, primary, rec, Case, DEVICE, ONE, TWO};

pub fn cases() -> Vec<Case> {
    vec![
        a_tenant_moves(),
        half_a_move(),
        where_it_fails(),
        one_key_many_times(),
        as_though_those_before_had(),
        full_tables(),
        some_of_the_tables(),
        never_tried(),
        refusals(),
        full_store(),
    ]
}

fn insert(table: u32, field: u128, param: u128) -> Update {
    Update::insert(plain(table, field, param))
}

fn modify(table: u32, field: u128, param: u128) -> Update {
    Update::modify(plain(table, field, param))
}

/// The entries that [`halls`] leaves, tables by row.
fn stored() -> [Entry; 5] {
    [
        plain(ONE, 1, 0x11),
        plain(ONE, 2, 0x12),
        plain(ONE, 3, 0x13),
        plain(TWO, 1, 0x21),
        plain(TWO, 2, 0x22),
    ]
}

/// Room for four in the first table, which is role 0's, and for three in the
/// second, which is role 1's. The tables take turns in the store.
fn halls(name: &'static str) -> Case {
    Case::configured(name, &[plain_row(ONE, 0, 4), plain_row(TWO, 1, 3)]).takes(&[
        insert(ONE, 1, 0x11),
        insert(TWO, 1, 0x21),
        insert(ONE, 2, 0x12),
        insert(TWO, 2, 0x22),
        insert(ONE, 3, 0x13),
    ])
}

impl Case {
    /// Every entry is as [`halls`] left it, and so is their order.
    fn unchanged(self) -> Case {
        let all = stored();
        self.shows(read_all(DEVICE, 0, 0), &all)
            .shows(read_all(DEVICE, 0, ONE), &all[..3])
            .shows(read_all(DEVICE, 1, 0), &all[3..])
            .shows(read_one(DEVICE, 0, ONE, all[1].key), &all[1..2])
            .shows(read_one(DEVICE, 0, ONE, plain(ONE, 4, 0).key), &[])
    }
}

/// From one table to the other: done as with atomicity 0.
fn a_tenant_moves() -> Case {
    let moved = [
        delete(ONE, 2),
        insert(TWO, 3, 0x12),
        modify(ONE, 1, 0x14),
        insert(ONE, 2, 0x15),
    ];
    let mut done = stored().to_vec();
    done[0] = plain(ONE, 1, 0x14);
    done.remove(1);
    done.insert(2, plain(ONE, 2, 0x15));
    done.push(plain(TWO, 3, 0x12));
    halls("a tenant moves")
        .answers(
            write(primary(), 1, &moved),
            vec![0, 0, 0, 4, 0, 0, 0, 0, 0, 0, 0, 0],
        )
        .shows(read_all(DEVICE, 0, 0), &done)
        // And back, no update being nothing to do.
        .ok(write(primary(), 1, &[]))
        .takes_all(&[delete(TWO, 3), modify(ONE, 2, 0x12)])
}

/// The move meets what is there already.
fn half_a_move() -> Case {
    let batch = [
        delete(ONE, 2),
        modify(ONE, 1, 0x14),
        insert(TWO, 2, 0x12),
        insert(ONE, 4, 0x15),
    ];
    halls("half a move")
        .answers(
            write(primary(), 1, &batch),
            vec![
                0x17, 0x02, 0x00, 0x04, 0x19, 0x0a, 0x19, 0x0a, 0x14, 0x06, 0x19, 0x0a,
            ],
        )
        .unchanged()
        // With atomicity 0 it is half a move.
        .answers(
            write(primary(), 0, &batch),
            vec![0x17, 0x02, 0x00, 0x04, 0, 0, 0, 0, 0x14, 0x06, 0, 0],
        )
}

/// At the first update, at the last, at the only one; each entry comes back to
/// its place.
fn where_it_fails() -> Case {
    halls("where a batch fails")
        .rolls_back(
            &[delete(ONE, 9), delete(ONE, 1), insert(ONE, 4, 1)],
            0,
            21,
            5,
        )
        .rolls_back(&[delete(ONE, 1), delete(ONE, 1)], 1, 21, 5)
        .unchanged()
        .rolls_back(&[delete(ONE, 2), delete(ONE, 2)], 1, 21, 5)
        .unchanged()
        .rolls_back(&[delete(ONE, 3), delete(ONE, 3)], 1, 21, 5)
        .unchanged()
        .rolls_back(
            &[
                delete(ONE, 3),
                delete(TWO, 1),
                delete(ONE, 1),
                delete(TWO, 3),
            ],
            3,
            21,
            5,
        )
        .unchanged()
        .rolls_back(&[insert(TWO, 2, 1)], 0, 20, 6)
        .unchanged()
}

/// Inserted, deleted and inserted again; modified, deleted and inserted.
fn one_key_many_times() -> Case {
    let batch = [
        insert(ONE, 4, 1),
        delete(ONE, 4),
        insert(ONE, 4, 2),
        modify(ONE, 2, 3),
        modify(ONE, 2, 4),
        delete(ONE, 2),
        insert(ONE, 2, 5),
        modify(ONE, 2, 6),
        modify(TWO, 1, 7),
        delete(TWO, 1),
        modify(TWO, 1, 8),
    ];
    let mut done = vec![plain(ONE, 1, 0x11), plain(ONE, 3, 0x13)];
    done.extend([plain(ONE, 4, 2), plain(ONE, 2, 6), plain(TWO, 2, 0x22)]);
    halls("one key many times")
        .rolls_back(&batch, 10, 21, 5)
        .unchanged()
        .takes_all(&batch[..10])
        .shows(read_all(DEVICE, 0, 0), &done)
}

/// Keys are compared in shortest form also within a batch.
fn as_though_those_before_had() -> Case {
    let mut padded = plain(ONE, 4, 1);
    padded.key.slots[0].first = Value::padded(4, 9);
    halls("as though those before had taken effect")
        .rolls_back(&[insert(ONE, 4, 1), Update::insert(padded)], 1, 20, 6)
        .rolls_back(&[delete(ONE, 1), modify(ONE, 1, 1)], 1, 21, 5)
        .rolls_back(&[insert(ONE, 4, 1), insert(ONE, 5, 1)], 1, 22, 8)
        .unchanged()
        .takes_all(&[Update::insert(padded), modify(ONE, 4, 9), delete(ONE, 4)])
        .unchanged()
}

/// A DELETE makes room, and what is rolled back takes none.
fn full_tables() -> Case {
    halls("full tables and rollback")
        .takes_all(&[insert(ONE, 4, 1), insert(TWO, 3, 1)])
        .rolls_back(
            &[delete(ONE, 4), insert(TWO, 4, 1), delete(TWO, 3)],
            1,
            22,
            8,
        )
        .rolls_back(
            &[delete(TWO, 3), insert(TWO, 4, 1), insert(TWO, 5, 1)],
            2,
            22,
            8,
        )
        .rolls_back(&[insert(TWO, 3, 1)], 0, 20, 6)
        .takes_all(&[delete(TWO, 3), insert(TWO, 4, 1), delete(ONE, 4)])
        .takes_all(&[delete(TWO, 4)])
        .unchanged()
}

/// 16 in the middle, by a role that may write one of the tables.
fn some_of_the_tables() -> Case {
    let role_1 = Head::set(DEVICE, 1, 9);
    let batch = [modify(TWO, 1, 1), modify(ONE, 1, 1), delete(TWO, 2)];
    halls("some of the tables")
        .ok(open(1))
        .tells(arbitrate(1, role_1), &[rec(1, 1, 0, 9)])
        .answers(
            write(role_1, 1, &batch),
            vec![23, 2, 0, 3, 25, 10, 16, 7, 25, 10],
        )
        .unchanged()
        .takes_all(&batch)
        .answers(
            write(role_1, 1, &[insert(TWO, 2, 1)]),
            vec![0, 0, 0, 1, 0, 0],
        )
}

/// Updates after the failed one are not judged, whatever they are.
fn never_tried() -> Case {
    let no_type = Update {
        kind: 4,
        entry: plain(ONE, 4, 1),
    };
    let mut no_length = insert(ONE, 4, 1);
    no_length.entry.key.slots[0].first = Value::NONE;
    let too_wide = insert(ONE, 0x1_0000, 1);
    let mut priority = insert(ONE, 4, 1);
    priority.entry.key.priority = 1;
    let no_table = insert(0x0200_0009, 1, 1);
    let batch = [no_type, no_length, too_wide, priority, no_table];
    halls("never tried")
        .rolls_back(&batch, 0, 17, 3)
        .rolls_back(&batch[1..], 0, 17, 3)
        .rolls_back(&batch[2..], 0, 18, 11)
        .rolls_back(&batch[3..], 0, 19, 3)
        .rolls_back(&batch[4..], 0, 15, 5)
        .rolls_back(&[delete(ONE, 1), no_table, no_type, too_wide], 1, 15, 5)
        .rolls_back(&[insert(ONE, 1, 1), priority, no_length], 0, 20, 6)
        .unchanged()
}

/// What refuses a WRITE refuses it under atomicity 1 as well.
fn refusals() -> Case {
    let update = [insert(ONE, 1, 1)];
    let with = |head: Head| write(head, 1, &update);
    Case::new("refusals under atomicity 1")
        .refused(with(primary()), 10, 7)
        .ok(open(0))
        .tells(arbitrate(0, primary()), &[rec(0, 0, 0, 1)])
        .refused(with(primary()), 12, 9)
        .refused(write(primary(), 1, &[]), 12, 9)
        .ok(configure(primary(), &[plain_row(ONE, 0, 2)]))
        .refused(with(Head::set(3, 9, 1)), 5, 5)
        .refused(with(Head::set(DEVICE, 8, 1)), 6, 5)
        .refused(with(Head::set(DEVICE, 0, 2)), 10, 7)
        .refused(with(Head::unset(DEVICE, 0)), 10, 7)
        .ok(read_all(DEVICE, 0, 0))
        .takes_all(&update)
        .shows(read_all(DEVICE, 0, 0), &[plain(ONE, 1, 1)])
}

/// 256 entries: 64 updates at a time, and 63 DELETEs that come back.
fn full_store() -> Case {
    let entries: Vec<Entry> = (0..256).map(|field| plain(ONE, field, 1)).collect();
    let mut case = Case::configured("a full store and rollback", &[plain_row(ONE, 0, 256)]);
    for batch in entries.chunks(64) {
        let inserts: Vec<Update> = batch.iter().copied().map(Update::insert).collect();
        case = case.takes_all(&inserts);
    }
    let mut batch: Vec<Update> = (0..63).map(|at| delete(ONE, 4 * at)).collect();
    batch.push(insert(ONE, 1, 1));
    case.shows(read_all(DEVICE, 0, 0), &entries)
        .rolls_back(&batch, 63, 20, 6)
        .shows(read_all(DEVICE, 0, 0), &entries)
        .rolls_back(&[insert(ONE, 256, 1), delete(ONE, 0)], 0, 22, 8)
        .takes_all(&[delete(ONE, 0), insert(ONE, 256, 1)])
        .rolls_back(&[delete(ONE, 256), delete(ONE, 0)], 1, 21, 5)
}
