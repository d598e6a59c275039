//! P4Runtime 12 to 14: batches, their order of refusals, configuration.

use reference::bytes::{
    arbitrate, close, configure, open, read_all, write, Entry, Head, Row, Update,
};

use super::{delete, insert, plain, plain_row, primary, rec, Case, DEVICE, ONE, TWO};

pub fn cases() -> Vec<Case> {
    vec![
        example_of_12_3(),
        in_order(),
        atomicity(),
        before_a_configuration(),
        configured_again(),
        capacity(),
    ]
}

/// Exhausted, done, there already; and the same batch by 12.2's second mode,
/// which stops at the first and changes nothing.
fn example_of_12_3() -> Case {
    let rows = [plain_row(ONE, 0, 1), plain_row(TWO, 0, 8)];
    let batch = [insert(ONE, 2), insert(TWO, 2), insert(TWO, 1)];
    let shown = [plain(ONE, 1, 1), plain(TWO, 1, 1), plain(TWO, 2, 1)];
    Case::configured("batch_12_3", &rows)
        .takes(&[insert(ONE, 1), insert(TWO, 1)])
        .answers(
            write(primary(), 1, &batch),
            vec![23, 2, 0, 3, 0x16, 0x08, 0x19, 0x0a, 0x19, 0x0a],
        )
        .shows(read_all(DEVICE, 0, 0), &shown[..2])
        .answers(
            write(primary(), 0, &batch),
            vec![23, 2, 0, 3, 0x16, 0x08, 0x00, 0x00, 0x14, 0x06],
        )
        .shows(read_all(DEVICE, 0, 0), &shown)
        // There already comes before full.
        .fails(&[insert(ONE, 1)], &[[20, 6]])
        .fails(
            &[insert(ONE, 3), delete(ONE, 1), insert(ONE, 3)],
            &[[22, 8], [0, 0], [0, 0]],
        )
        .shows(read_all(DEVICE, 0, ONE), &[plain(ONE, 3, 1)])
}

/// Later updates see the earlier ones, and a failure stops nothing.
fn in_order() -> Case {
    let modify = |field, param| Update::modify(plain(TWO, field, param));
    Case::configured("a batch goes in order", &[plain_row(TWO, 0, 2)])
        .fails(
            &[delete(TWO, 9), insert(TWO, 1), insert(TWO, 1)],
            &[[21, 5], [0, 0], [20, 6]],
        )
        .fails(
            &[insert(TWO, 4), modify(4, 7), delete(TWO, 4), delete(TWO, 4)],
            &[[0, 0], [0, 0], [0, 0], [21, 5]],
        )
        .takes(&[insert(TWO, 5), modify(5, 6), modify(5, 7)])
        .fails(
            &[
                insert(TWO, 6),
                delete(TWO, 1),
                insert(TWO, 6),
                insert(TWO, 1),
            ],
            &[[22, 8], [0, 0], [0, 0], [22, 8]],
        )
        .shows(
            read_all(DEVICE, 0, 0),
            &[plain(TWO, 5, 7), plain(TWO, 6, 1)],
        )
        .takes(&[])
}

fn atomicity() -> Case {
    let update = [insert(ONE, 1)];
    let with = |head: Head, atomicity: u8| write(head, atomicity, &update);
    Case::configured("atomicity 2 and 3", &[plain_row(ONE, 0, 2)])
        .refused(with(primary(), 2), 13, 12)
        .refused(with(primary(), 3), 1, 3)
        .refused(write(primary(), 2, &[]), 13, 12)
        .refused(with(Head::set(3, 0, 1), 2), 5, 5)
        .refused(with(Head::set(3, 9, 1), 2), 5, 5)
        .refused(with(Head::set(DEVICE, 8, 1), 2), 6, 5)
        .refused(with(Head::set(DEVICE, 0, 2), 2), 10, 7)
        .refused(with(Head::unset(DEVICE, 0), 2), 10, 7)
        .ok(read_all(DEVICE, 0, 0))
        .ok(write(primary(), 0, &[]))
}

fn before_a_configuration() -> Case {
    let rows = [plain_row(ONE, 0, 2)];
    let set = |head: Head| configure(head, &rows);
    Case::new("batch_before_config")
        .refused(read_all(DEVICE, 0, 0), 12, 9)
        .refused(read_all(DEVICE, 0, ONE), 12, 9)
        .refused(write(primary(), 0, &[]), 10, 7)
        .refused(set(Head::unset(DEVICE, 0)), 10, 7)
        .refused(set(primary()), 10, 7)
        .refused(set(Head::set(DEVICE, 1, 1)), 11, 7)
        .refused(set(Head::set(DEVICE, 8, 1)), 6, 5)
        .refused(set(Head::set(3, 8, 1)), 5, 5)
        .ok(open(0))
        .tells(arbitrate(0, primary()), &[rec(0, 0, 0, 1)])
        .refused(write(primary(), 0, &[insert(ONE, 1)]), 12, 9)
        .refused(write(primary(), 2, &[insert(ONE, 1)]), 12, 9)
        .refused(configure(primary(), &[plain_row(ONE, 0, 0)]), 14, 3)
        .refused(read_all(DEVICE, 0, 0), 12, 9)
        .ok(set(primary()))
        .inserts(plain(ONE, 1, 1))
        .ok(close(0))
        .shows(read_all(DEVICE, 0, 0), &[plain(ONE, 1, 1)])
}

/// A refused CONFIGURE changes nothing; an accepted one empties the store,
/// also where its rows are the same, and leaves streams and marks alone.
fn configured_again() -> Case {
    let rows = [plain_row(ONE, 0, 2), plain_row(TWO, 1, 2)];
    let given_away = [plain_row(ONE, 1, 2), plain_row(TWO, 0, 2)];
    let entry = plain(ONE, 1, 1);
    let role_1 = Head::set(DEVICE, 1, 9);
    let gone: [Row; 1] = [plain_row(TWO, 0, 2)];
    Case::configured("configured again", &rows)
        .inserts(entry)
        .refused(configure(primary(), &[rows[0], rows[0]]), 14, 3)
        .refused(configure(Head::set(DEVICE, 0, 2), &rows), 10, 7)
        .refused(configure(role_1, &rows), 11, 7)
        .shows(read_all(DEVICE, 0, 0), &[entry])
        .ok(configure(primary(), &rows))
        .ok(read_all(DEVICE, 0, 0))
        .inserts(entry)
        .ok(open(1))
        .tells(arbitrate(1, role_1), &[rec(1, 1, 0, 9)])
        .answers(
            write(role_1, 0, &[insert(ONE, 1), insert(TWO, 1)]),
            vec![23, 2, 0, 2, 16, 7, 0, 0],
        )
        // The owners change under a live primary.
        .ok(configure(primary(), &given_away))
        .answers(
            write(role_1, 0, &[insert(ONE, 1), insert(TWO, 1)]),
            vec![23, 2, 0, 2, 0, 0, 16, 7],
        )
        .tells(arbitrate(0, primary()), &[rec(0, 0, 0, 1)])
        .ok(configure(primary(), &gone))
        .rejects(entry, 15, 5)
        .refused(read_all(DEVICE, 0, ONE), 15, 5)
        .ok(read_all(DEVICE, 0, 0))
}

/// The store holds 256 entries when its tables do.
fn capacity() -> Case {
    let rows = [plain_row(ONE, 0, 200), plain_row(TWO, 0, 56)];
    let numbers: Vec<Entry> = (0..200)
        .map(|field| plain(ONE, field, 1))
        .chain((0..56).map(|field| plain(TWO, field, 1)))
        .collect();
    let mut case = Case::configured("capacity_256", &rows);
    for batch in numbers.chunks(64) {
        let inserts: Vec<Update> = batch.iter().copied().map(Update::insert).collect();
        case = case.takes(&inserts);
    }
    case.shows(read_all(DEVICE, 0, 0), &numbers)
        .fails(
            &[insert(ONE, 200), insert(TWO, 56), insert(ONE, 199)],
            &[[22, 8], [22, 8], [20, 6]],
        )
        .fails(
            &[delete(ONE, 0), insert(ONE, 200), insert(ONE, 201)],
            &[[0, 0], [0, 0], [22, 8]],
        )
        .shows(read_all(DEVICE, 0, TWO), &numbers[200..])
        .takes(&[delete(TWO, 0), delete(TWO, 55)])
        .fails(&[insert(ONE, 0)], &[[22, 8]])
        .takes(&[insert(TWO, 56), insert(TWO, 0)])
        .refused(read_all(DEVICE, 9, 0), 6, 5)
}
