//! P4Runtime 5 and 16.2: controllers arbitrating.

use reference::bytes::{arbitrate, close, configure, open, read_all, write, Head, Update};

use super::{plain, plain_row, rec, rec_none, Case, DEVICE, TABLE};

pub fn cases() -> Vec<Case> {
    vec![
        failover(),
        downgrade(),
        downgrade_to_unset(),
        unset_first(),
        repeated_by_the_primary(),
        takeover(),
        roles_are_independent(),
        errors_of_a_first_message(),
        errors_of_a_second_message(),
        limit_of_a_role(),
        ids_of_128_bits(),
        unbound_is_not_role_0(),
        refused_id_raises_no_mark(),
        own_id_is_no_clash(),
    ]
}

fn id(id: u128) -> Head {
    Head::set(DEVICE, 0, id)
}

fn unset() -> Head {
    Head::unset(DEVICE, 0)
}

/// A WRITE without updates: only its head counts.
fn probe(head: Head) -> Vec<u8> {
    write(head, 0, &[])
}

fn two_open(name: &'static str) -> Case {
    Case::new(name).ok(open(1)).ok(open(2))
}

fn failover() -> Case {
    two_open("arb_ha_failover")
        .tells(arbitrate(1, id(5)), &[rec(1, 0, 0, 5)])
        .tells(arbitrate(2, id(3)), &[rec(2, 0, 6, 5)])
        .tells(close(1), &[rec(2, 0, 5, 5)])
        .refused(probe(id(3)), 10, 7)
        .refused(probe(id(5)), 10, 7)
        .tells(arbitrate(2, id(4)), &[rec(2, 0, 5, 5)])
        .tells(arbitrate(2, id(5)), &[rec(2, 0, 0, 5)])
        .ok(open(1))
        .refused(arbitrate(1, id(5)), 8, 3)
        .refused(close(1), 4, 5)
}

fn downgrade() -> Case {
    two_open("arb_downgrade")
        .tells(arbitrate(1, id(5)), &[rec(1, 0, 0, 5)])
        .tells(arbitrate(2, id(3)), &[rec(2, 0, 6, 5)])
        .tells(arbitrate(1, id(4)), &[rec(1, 0, 5, 5), rec(2, 0, 5, 5)])
        .refused(probe(id(4)), 10, 7)
        .refused(probe(id(5)), 10, 7)
        .tells(arbitrate(2, id(5)), &[rec(1, 0, 6, 5), rec(2, 0, 0, 5)])
        .refused(arbitrate(1, id(5)), 8, 3)
        .refused(close(1), 4, 5)
}

fn downgrade_to_unset() -> Case {
    two_open("arb_downgrade_unset")
        .tells(arbitrate(1, id(5)), &[rec(1, 0, 0, 5)])
        .tells(arbitrate(2, unset()), &[rec(2, 0, 6, 5)])
        .tells(arbitrate(1, unset()), &[rec(1, 0, 5, 5), rec(2, 0, 5, 5)])
        .refused(probe(id(5)), 10, 7)
        .tells(arbitrate(2, unset()), &[rec(2, 0, 5, 5)])
}

fn unset_first() -> Case {
    let set_to_zero = Head { flag: 1, ..unset() };
    let unset_to_five = Head { flag: 0, ..id(5) };
    Case::new("arb_unset_first")
        .ok(open(7))
        .tells(arbitrate(7, unset()), &[rec_none(7, 0, 5)])
        .refused(probe(unset()), 10, 7)
        .refused(arbitrate(7, set_to_zero), 1, 3)
        .refused(arbitrate(7, unset_to_five), 1, 3)
        .refused(open(7), 3, 9)
        .tells(arbitrate(7, unset()), &[rec_none(7, 0, 5)])
        .tells(arbitrate(7, id(1)), &[rec(7, 0, 0, 1)])
}

fn repeated_by_the_primary() -> Case {
    two_open("arb_noop_primary")
        .tells(arbitrate(1, id(5)), &[rec(1, 0, 0, 5)])
        .tells(arbitrate(2, id(3)), &[rec(2, 0, 6, 5)])
        .tells(arbitrate(1, id(5)), &[rec(1, 0, 0, 5)])
        .tells(arbitrate(1, id(6)), &[rec(1, 0, 0, 6), rec(2, 0, 6, 6)])
        .refused(probe(id(5)), 10, 7)
        .refused(probe(id(6)), 12, 9)
}

fn takeover() -> Case {
    two_open("arb_takeover")
        .ok(open(3))
        .tells(arbitrate(2, id(5)), &[rec(2, 0, 0, 5)])
        .tells(arbitrate(3, unset()), &[rec(3, 0, 6, 5)])
        .tells(
            arbitrate(1, id(9)),
            &[rec(1, 0, 0, 9), rec(2, 0, 6, 9), rec(3, 0, 6, 9)],
        )
        .refused(probe(id(5)), 10, 7)
        .ok(close(2))
        .tells(close(1), &[rec(3, 0, 5, 9)])
}

fn roles_are_independent() -> Case {
    let (one, two) = (0x0200_0001, 0x0200_0002);
    let role_1 = Head::set(DEVICE, 1, 5);
    let role_2 = Head::set(DEVICE, 2, 5);
    let rows = [plain_row(one, 1, 4), plain_row(two, 2, 4)];
    let entry = plain(one, 1, 1);
    let batch = [Update::insert(entry), Update::insert(plain(two, 1, 1))];
    two_open("arb_roles_independent")
        .ok(open(3))
        .tells(arbitrate(1, role_1), &[rec(1, 1, 0, 5)])
        .tells(arbitrate(2, role_2), &[rec(2, 2, 0, 5)])
        .tells(arbitrate(3, id(2)), &[rec(3, 0, 0, 2)])
        .ok(configure(id(2), &rows))
        .answers(write(role_1, 0, &batch), vec![23, 2, 0, 2, 0, 0, 16, 7])
        .refused(probe(id(5)), 10, 7)
        .ok(read_all(DEVICE, 2, 0))
        .refused(read_all(DEVICE, 2, one), 16, 7)
        .shows(read_all(DEVICE, 1, 0), &[entry])
        .shows(read_all(DEVICE, 1, one), &[entry])
        .shows(read_all(DEVICE, 0, 0), &[entry])
        .shows(read_all(DEVICE, 0, one), &[entry])
        .refused(configure(role_1, &rows), 11, 7)
        .refused(configure(Head::set(DEVICE, 1, 4), &rows), 11, 7)
        .refused(configure(Head::unset(DEVICE, 1), &rows), 11, 7)
        .shows(read_all(DEVICE, 0, 0), &[entry])
}

/// Each closes the stream, and none raises a mark.
fn errors_of_a_first_message() -> Case {
    let bad = [
        (Head::set(3, 0, 99), 5, 5),
        (Head::set(DEVICE, 8, 99), 6, 5),
        (Head::set(0, 0, 99), 5, 5),
        (Head::set(2, 8, 99), 5, 5),
        (Head::set(DEVICE, 255, 99), 6, 5),
        (id(4), 8, 3),
    ];
    let mut case = Case::new("arb_first_message_errors")
        .ok(open(0))
        .tells(arbitrate(0, id(4)), &[rec(0, 0, 0, 4)]);
    for (head, reason, code) in bad {
        case = case
            .ok(open(1))
            .refused(arbitrate(1, head), reason, code)
            .refused(arbitrate(1, id(3)), 4, 5)
            .refused(close(1), 4, 5);
    }
    case.tells(arbitrate(0, id(4)), &[rec(0, 0, 0, 4)])
        .refused(probe(id(4)), 12, 9)
}

fn errors_of_a_second_message() -> Case {
    let role_1 = |id| Head::set(DEVICE, 1, id);
    two_open("arb_second_message_errors")
        .tells(arbitrate(1, role_1(5)), &[rec(1, 1, 0, 5)])
        .tells(arbitrate(2, role_1(3)), &[rec(2, 1, 6, 5)])
        // The primary names another role.
        .refused_telling(
            arbitrate(1, Head::set(DEVICE, 2, 9)),
            7,
            9,
            &[rec(2, 1, 5, 5)],
        )
        .refused(close(1), 4, 5)
        // A backup names another device, then an unknown role.
        .refused(arbitrate(2, Head::set(9, 1, 3)), 7, 9)
        .refused(close(2), 4, 5)
        .ok(open(2))
        .tells(arbitrate(2, role_1(3)), &[rec(2, 1, 5, 5)])
        .refused(arbitrate(2, Head::set(DEVICE, 200, 3)), 7, 9)
        .refused(close(2), 4, 5)
        // The primary lowers its id onto a live one.
        .ok(open(1))
        .ok(open(2))
        .tells(arbitrate(1, role_1(5)), &[rec(1, 1, 0, 5)])
        .tells(arbitrate(2, role_1(3)), &[rec(2, 1, 6, 5)])
        .refused_telling(arbitrate(1, role_1(3)), 8, 3, &[rec(2, 1, 5, 5)])
        .refused(close(1), 4, 5)
        // The marks are where they were.
        .ok(open(3))
        .tells(arbitrate(3, Head::unset(DEVICE, 2)), &[rec_none(3, 2, 5)])
        .tells(arbitrate(2, role_1(4)), &[rec(2, 1, 5, 5)])
}

fn limit_of_a_role() -> Case {
    let role_3 = |id| Head::set(DEVICE, 3, id);
    let unset = Head::unset(DEVICE, 3);
    let mut case = Case::new("arb_limit");
    for stream in 0..8 {
        case = case
            .ok(open(stream))
            .tells(arbitrate(stream, unset), &[rec_none(stream, 3, 5)]);
    }
    let mut told = [[0; 20]; 8];
    for (stream, told) in told.iter_mut().enumerate() {
        *told = rec(stream as u8, 3, if stream == 0 { 0 } else { 6 }, 2);
    }
    case.ok(open(8))
        .refused(arbitrate(8, unset), 9, 8)
        .refused(close(8), 4, 5)
        .ok(open(8))
        .refused(arbitrate(8, role_3(100)), 9, 8)
        // A bound stream is never turned away, and 100 raised nothing.
        .tells(arbitrate(0, role_3(2)), &told)
        .ok(open(8))
        .refused(arbitrate(8, role_3(2)), 8, 3)
        .ok(open(8))
        .tells(arbitrate(8, Head::unset(DEVICE, 4)), &[rec_none(8, 4, 5)])
        // One leaves, one comes.
        .ok(close(7))
        .ok(open(9))
        .tells(arbitrate(9, unset), &[rec(9, 3, 6, 2)])
        .ok(open(7))
        .refused(arbitrate(7, unset), 9, 8)
}

fn ids_of_128_bits() -> Case {
    let word = u128::from(u64::MAX);
    let (above, top, half) = (1 << 64, u128::MAX, 1 << 127);
    two_open("arb_128bit")
        .ok(open(3))
        .ok(open(4))
        .tells(arbitrate(1, id(word)), &[rec(1, 0, 0, word)])
        .tells(
            arbitrate(2, id(above)),
            &[rec(1, 0, 6, above), rec(2, 0, 0, above)],
        )
        .tells(
            arbitrate(3, id(top)),
            &[rec(1, 0, 6, top), rec(2, 0, 6, top), rec(3, 0, 0, top)],
        )
        .tells(arbitrate(4, id(half)), &[rec(4, 0, 6, top)])
        .refused(probe(id(half)), 10, 7)
        .refused(probe(id(top)), 12, 9)
}

fn unbound_is_not_role_0() -> Case {
    let mut case = two_open("arb_unbound_is_not_role0")
        .tells(arbitrate(1, id(5)), &[rec(1, 0, 0, 5)])
        .tells(arbitrate(1, id(6)), &[rec(1, 0, 0, 6)])
        // Stream 2 is unbound and hears nothing.
        .ok(close(1))
        .tells(arbitrate(2, id(6)), &[rec(2, 0, 0, 6)])
        // Opened again, stream 1 is unbound.
        .ok(open(1))
        .tells(arbitrate(2, id(7)), &[rec(2, 0, 0, 7)]);
    // Neither does it count: seven more find their places.
    for stream in 3..10 {
        case = case
            .ok(open(stream))
            .tells(arbitrate(stream, unset()), &[rec(stream, 0, 6, 7)]);
    }
    case.refused(arbitrate(1, unset()), 9, 8)
}

fn refused_id_raises_no_mark() -> Case {
    two_open("a refused id raises no mark")
        .tells(arbitrate(1, id(5)), &[rec(1, 0, 0, 5)])
        .refused(arbitrate(2, Head::set(2, 0, 9)), 5, 5)
        .refused(probe(id(9)), 10, 7)
        .refused(probe(id(5)), 12, 9)
        .refused(arbitrate(1, Head::set(2, 0, 9)), 7, 9)
        .ok(open(1))
        .tells(arbitrate(1, id(5)), &[rec(1, 0, 0, 5)])
        .refused(
            write(id(5), 0, &[Update::insert(plain(TABLE, 1, 1))]),
            12,
            9,
        )
}

fn own_id_is_no_clash() -> Case {
    two_open("a stream's own id is no clash")
        .tells(arbitrate(1, id(5)), &[rec(1, 0, 0, 5)])
        .tells(arbitrate(1, id(5)), &[rec(1, 0, 0, 5)])
        .tells(arbitrate(2, id(4)), &[rec(2, 0, 6, 5)])
        .tells(arbitrate(2, id(4)), &[rec(2, 0, 6, 5)])
        // The same id in another role clashes with nothing.
        .ok(open(3))
        .tells(arbitrate(3, Head::set(DEVICE, 1, 5)), &[rec(3, 1, 0, 5)])
        .refused_telling(arbitrate(1, id(4)), 8, 3, &[rec(2, 0, 5, 5)])
}
