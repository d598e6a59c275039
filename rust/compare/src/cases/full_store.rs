//! Document 02, request Five: no test for a full store, and 24 is free.
//!
//! The sizes of the tables add to 256. So the store is full where every table
//! is, and an INSERT of a new key is 22 there, whatever its table. In answers
//! that are written out, 17 02 is the head 23 (2), 16 08 the pair 22 (8) and
//! 19 0a the pair 25 (10).

use reference::bytes::{
    arbitrate, configure, open, read_all, read_one, write, Entry, Head, Row, Update, Value,
};

use super::{delete, insert, plain, plain_row, primary, rec, Case, DEVICE, ONE, TWO};

const THREE: u32 = 0x0200_0003;

pub fn cases() -> Vec<Case> {
    vec![
        the_last_place(),
        one_out(),
        one_out_in_one_write(),
        atomic_batches(),
        what_comes_before_22(),
        by_a_role(),
        eight_tables(),
        emptied(),
    ]
}

fn rows() -> [Row; 3] {
    [
        plain_row(ONE, 0, 128),
        plain_row(TWO, 1, 127),
        plain_row(THREE, 0, 1),
    ]
}

/// All entries that there is room for, tables by row.
fn all() -> Vec<Entry> {
    let of = |table, count| (0..count).map(move |field| plain(table, field, 1));
    of(ONE, 128)
        .chain(of(TWO, 127))
        .chain(of(THREE, 1))
        .collect()
}

/// The first so many of [`all`] are stored.
fn stored(name: &'static str, count: usize) -> Case {
    let mut case = Case::configured(name, &rows());
    for batch in all()[..count].chunks(64) {
        let inserts: Vec<Update> = batch.iter().copied().map(Update::insert).collect();
        case = case.takes(&inserts);
    }
    case
}

/// 255 entries: two tables are full. The 256th goes into the third, and then
/// there is room in none.
fn the_last_place() -> Case {
    let batch = [insert(ONE, 128), insert(TWO, 127), insert(THREE, 0)];
    let again = [insert(ONE, 128), insert(TWO, 127), insert(THREE, 1)];
    stored("the last place of a store", 255)
        .answers(
            write(primary(), 0, &batch),
            vec![0x17, 0x02, 0, 3, 0x16, 0x08, 0x16, 0x08, 0, 0],
        )
        .shows(read_all(DEVICE, 0, 0), &all())
        .answers(
            write(primary(), 0, &again),
            vec![0x17, 0x02, 0, 3, 0x16, 0x08, 0x16, 0x08, 0x16, 0x08],
        )
        .answers(
            write(primary(), 0, &again[2..]),
            vec![0x17, 0x02, 0, 1, 0x16, 0x08],
        )
        .shows(read_all(DEVICE, 0, 0), &all())
}

/// A deleted entry leaves room in its own table and in no other.
fn one_out() -> Case {
    let mut left = all();
    left.remove(5);
    left.insert(127, plain(ONE, 128, 1));
    stored("one out of a full store", 256)
        .answers(
            write(primary(), 0, &[delete(ONE, 5)]),
            vec![0, 0, 0, 1, 0, 0],
        )
        .answers(
            write(primary(), 0, &[insert(TWO, 127)]),
            vec![0x17, 0x02, 0, 1, 0x16, 0x08],
        )
        .answers(
            write(primary(), 0, &[insert(THREE, 1)]),
            vec![0x17, 0x02, 0, 1, 0x16, 0x08],
        )
        .answers(
            write(primary(), 0, &[insert(ONE, 128)]),
            vec![0, 0, 0, 1, 0, 0],
        )
        .answers(
            write(primary(), 0, &[insert(ONE, 5)]),
            vec![0x17, 0x02, 0, 1, 0x16, 0x08],
        )
        .shows(read_all(DEVICE, 0, 0), &left)
}

fn one_out_in_one_write() -> Case {
    let batch = [
        insert(THREE, 1),
        delete(THREE, 0),
        insert(ONE, 128),
        insert(THREE, 1),
        insert(THREE, 0),
    ];
    let mut left = all();
    left[255] = plain(THREE, 1, 1);
    stored("one out of a full store and one in, in one WRITE", 256)
        .answers(
            write(primary(), 0, &batch),
            vec![
                0x17, 0x02, 0, 5, 0x16, 0x08, 0, 0, 0x16, 0x08, 0, 0, 0x16, 0x08,
            ],
        )
        .shows(read_all(DEVICE, 0, 0), &left)
}

/// The same with atomicity 1: 22 ends the batch, and the room that a DELETE
/// made in it is gone with it.
fn atomic_batches() -> Case {
    let [out, too_many, one_in] = [delete(TWO, 0), insert(THREE, 1), insert(TWO, 127)];
    let mut left = all();
    left.remove(128);
    left.insert(254, plain(TWO, 127, 1));
    stored("a full store and atomic batches", 255)
        .answers(
            write(primary(), 1, &[insert(THREE, 0), too_many]),
            vec![0x17, 0x02, 0, 2, 0x19, 0x0a, 0x16, 0x08],
        )
        .shows(read_all(DEVICE, 0, 0), &all()[..255])
        .answers(
            write(primary(), 1, &[insert(THREE, 0)]),
            vec![0, 0, 0, 1, 0, 0],
        )
        .answers(
            write(primary(), 1, &[too_many, out]),
            vec![0x17, 0x02, 0, 2, 0x16, 0x08, 0x19, 0x0a],
        )
        .answers(
            write(primary(), 1, &[out, too_many, one_in]),
            vec![0x17, 0x02, 0, 3, 0x19, 0x0a, 0x16, 0x08, 0x19, 0x0a],
        )
        .answers(
            write(primary(), 1, &[one_in]),
            vec![0x17, 0x02, 0, 1, 0x16, 0x08],
        )
        .shows(read_all(DEVICE, 0, 0), &all())
        .answers(
            write(primary(), 1, &[out, one_in]),
            vec![0, 0, 0, 2, 0, 0, 0, 0],
        )
        .answers(
            write(primary(), 1, &[insert(TWO, 0)]),
            vec![0x17, 0x02, 0, 1, 0x16, 0x08],
        )
        .shows(read_all(DEVICE, 0, 0), &left)
}

/// In a full store as elsewhere: the other reasons first, and MODIFY and DELETE
/// need no room.
fn what_comes_before_22() -> Case {
    let mut formless = plain(ONE, 128, 1);
    formless.key.slots[0].first = Value::NONE;
    let mut ruled_out = plain(ONE, 128, 1);
    ruled_out.key.priority = 1;
    stored("what comes before 22 in a full store", 256)
        .fails(
            &[
                insert(0x0200_0009, 1),
                Update::insert(formless),
                insert(ONE, 0x1_0000),
                Update::insert(ruled_out),
                insert(THREE, 0),
                insert(THREE, 1),
            ],
            &[[15, 5], [17, 3], [18, 11], [19, 3], [20, 6], [22, 8]],
        )
        .takes(&[Update::modify(plain(THREE, 0, 2))])
        .fails(
            &[Update::modify(plain(THREE, 1, 2)), delete(THREE, 1)],
            &[[21, 5], [21, 5]],
        )
        .shows(
            read_one(DEVICE, 0, THREE, plain(THREE, 0, 2).key),
            &[plain(THREE, 0, 2)],
        )
}

/// The owner of one table makes room in it, and may not write the others.
fn by_a_role() -> Case {
    let role_1 = Head::set(DEVICE, 1, 9);
    stored("a full store and a role with one table", 256)
        .ok(open(1))
        .tells(arbitrate(1, role_1), &[rec(1, 1, 0, 9)])
        .answers(
            write(role_1, 0, &[insert(TWO, 127), insert(ONE, 128)]),
            vec![0x17, 0x02, 0, 2, 0x16, 0x08, 0x10, 0x07],
        )
        .answers(write(role_1, 0, &[delete(TWO, 3)]), vec![0, 0, 0, 1, 0, 0])
        .answers(
            write(primary(), 0, &[insert(ONE, 128)]),
            vec![0x17, 0x02, 0, 1, 0x16, 0x08],
        )
        .answers(
            write(role_1, 1, &[insert(TWO, 127)]),
            vec![0, 0, 0, 1, 0, 0],
        )
        .answers(
            write(role_1, 1, &[insert(TWO, 3)]),
            vec![0x17, 0x02, 0, 1, 0x16, 0x08],
        )
}

/// One table of 249 and seven of 1.
fn eight_tables() -> Case {
    let table = |at: u32| ONE + at;
    let rows: Vec<Row> = (0..8)
        .map(|at| plain_row(table(at), 0, if at == 3 { 249 } else { 1 }))
        .collect();
    let mut case = Case::configured("a full store of eight tables", &rows);
    let large: Vec<Update> = (0..249).map(|field| insert(table(3), field)).collect();
    for batch in large.chunks(64) {
        case = case.takes(batch);
    }
    let one_each: Vec<Update> = (0..8).map(|at| insert(table(at), 300)).collect();
    let moved = [
        insert(table(7), 301),
        delete(table(3), 0),
        insert(table(7), 301),
        insert(table(3), 300),
        insert(table(0), 301),
    ];
    case.answers(
        write(primary(), 0, &one_each),
        vec![
            0x17, 0x02, 0, 8, 0, 0, 0, 0, 0, 0, 0x16, 0x08, 0, 0, 0, 0, 0, 0, 0, 0,
        ],
    )
    .answers(
        write(primary(), 0, &moved),
        vec![
            0x17, 0x02, 0, 5, 0x16, 0x08, 0, 0, 0x16, 0x08, 0, 0, 0x16, 0x08,
        ],
    )
}

/// An accepted CONFIGURE empties a full store, a refused one does not.
fn emptied() -> Case {
    let too_large = [plain_row(ONE, 0, 256), plain_row(TWO, 0, 1)];
    let one = [plain_row(ONE, 0, 256)];
    stored("a full store is emptied", 256)
        .refused(configure(primary(), &too_large), 14, 3)
        .fails(&[insert(ONE, 128)], &[[22, 8]])
        .ok(configure(primary(), &one))
        .takes(&[insert(ONE, 128)])
        .shows(read_all(DEVICE, 0, 0), &[plain(ONE, 128, 1)])
}
