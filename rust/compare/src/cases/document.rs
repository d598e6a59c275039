//! Document 01: bench cases P1 to P9, its examples, and its story of an old
//! primary that comes back.

use reference::bytes::{
    arbitrate, close, configure, kind, open, read_all, read_one, write, Action, Entry, Head, Row,
    Slot, Update, Value,
};

use super::{
    entry, key, one_row, plain, plain_row, primary, rec, rec_none, string, Case, DEVICE, TABLE,
};
use crate::bench::{Call, ANSWER_ROOM, STORE_ROOM};

pub fn cases() -> Vec<Case> {
    vec![
        p1_ids_of_128_bits(),
        p2_to_p4_failover(),
        p5_lone_primary_lowers_its_id(),
        p6_width_9(),
        p7_lpm(),
        p8_range(),
        p9_twice_in_one_write(),
        sample_of_play(),
        old_primary_comes_back(),
        short_buffers_come_first(),
        every_stream_number(),
        padded_key_is_the_same_key(),
        deleted_entry_is_not_charged(),
        device_zero(),
        largest_device(),
    ]
}

fn id(role: u8, id: u128) -> Head {
    Head::set(DEVICE, role, id)
}

/// 1 followed by 64 zero bits exceeds 64 one bits.
fn p1_ids_of_128_bits() -> Case {
    let ones = u128::from(u64::MAX);
    let above = 1 << 64;
    Case::new("P1: ids are 128 bits")
        .ok(open(1))
        .ok(open(2))
        .tells(arbitrate(1, id(0, ones)), &[rec(1, 0, 0, ones)])
        .tells(
            arbitrate(2, id(0, above)),
            &[rec(1, 0, 6, above), rec(2, 0, 0, above)],
        )
        .refused(write(id(0, ones), 0, &[]), 10, 7)
        .refused(write(id(0, above), 0, &[]), 12, 9)
}

fn p2_to_p4_failover() -> Case {
    Case::new("P2 to P4: the primary closes")
        .ok(open(1))
        .ok(open(2))
        .tells(arbitrate(1, id(0, 5)), &[rec(1, 0, 0, 5)])
        .tells(arbitrate(2, id(0, 3)), &[rec(2, 0, 6, 5)])
        .tells(close(1), &[rec(2, 0, 5, 5)])
        .tells(arbitrate(2, id(0, 4)), &[rec(2, 0, 5, 5)])
        .tells(arbitrate(2, id(0, 5)), &[rec(2, 0, 0, 5)])
}

fn p5_lone_primary_lowers_its_id() -> Case {
    Case::new("P5: a lone primary lowers its id")
        .ok(open(1))
        .tells(arbitrate(1, id(0, 5)), &[rec(1, 0, 0, 5)])
        .tells(arbitrate(1, id(0, 4)), &[rec(1, 0, 5, 5)])
        .refused(write(id(0, 4), 0, &[]), 10, 7)
        .refused(write(id(0, 5), 0, &[]), 10, 7)
}

/// 01FF fits, 0200 is 18, 0001FF is stored as 01FF.
fn p6_width_9() -> Case {
    let exact = |bytes: &[u8]| entry(0, Slot::exact(string(bytes)));
    Case::configured("P6: width 9", &[one_row(kind::EXACT, 9)])
        .rejects(exact(&[0x02, 0x00]), 18, 11)
        .inserts(exact(&[0x01, 0xff]))
        .rejects(exact(&[0x00, 0x01, 0xff]), 20, 6)
        .takes(&[Update::delete(exact(&[0x01, 0xff]))])
        .inserts(exact(&[0x00, 0x01, 0xff]))
        .shows(read_all(DEVICE, 0, TABLE), &[exact(&[0x01, 0xff])])
}

fn p7_lpm() -> Case {
    let lpm = |value: u128, prefix: u128| entry(0, Slot::lpm(value, prefix));
    Case::configured("P7: lpm, width 32", &[one_row(kind::LPM, 32)])
        .inserts(lpm(0x0a00_0000, 8))
        .rejects(lpm(0x0a00_0001, 8), 19, 3)
        .rejects(lpm(0x0a00_0000, 0), 19, 3)
        .rejects(lpm(0x0a00_0000, 33), 19, 3)
        .inserts(lpm(0x0a00_0000, 32))
}

fn p8_range() -> Case {
    let range = |low: u128, high: u128| entry(1, Slot::range(low, high));
    Case::configured("P8: range, width 8", &[one_row(kind::RANGE, 8)])
        .inserts(range(0x00, 0xfe))
        .rejects(range(0x00, 0xff), 19, 3)
}

fn p9_twice_in_one_write() -> Case {
    let insert = Update::insert(plain(TABLE, 1, 1));
    Case::configured("P9: one entry twice", &[plain_row(TABLE, 0, 4)])
        .fails(&[insert, insert], &[[0, 0], [20, 6]])
        .shows(read_all(DEVICE, 0, 0), &[plain(TABLE, 1, 1)])
}

/// The input and output that the text prints for the program.
fn sample_of_play() -> Case {
    let mut told = vec![0, 0, 0, 1, 0x03, 0x00, 0x00, 0x01];
    told.extend([0; 15]);
    told.push(0x05);
    Case::new("the sample of play")
        .answers(vec![0x01, 0x03], vec![0, 0, 0, 0])
        .answers(arbitrate(3, id(0, 5)), told)
        .answers(vec![0x02, 0x03], vec![0, 0, 0, 0])
        .answers(vec![0x02, 0x03], vec![4, 5, 0, 0])
}

/// The old primary's batch does not get past the mark, whatever became of the
/// one that raised it.
fn old_primary_comes_back() -> Case {
    let old = id(0, 5);
    let new = id(0, 6);
    let batch = write(old, 0, &[Update::insert(plain(TABLE, 1, 0x0a))]);
    let rows = [plain_row(TABLE, 0, 4)];
    Case::new("the old primary comes back")
        .ok(open(1))
        .tells(arbitrate(1, old), &[rec(1, 0, 0, 5)])
        .ok(configure(old, &rows))
        .answers(batch.clone(), vec![0, 0, 0, 1, 0, 0])
        .ok(open(2))
        .tells(arbitrate(2, new), &[rec(1, 0, 6, 6), rec(2, 0, 0, 6)])
        .answers(
            write(new, 0, &[Update::modify(plain(TABLE, 1, 0x0b))]),
            vec![0, 0, 0, 1, 0, 0],
        )
        .tells(arbitrate(2, id(0, 4)), &[rec(1, 0, 5, 6), rec(2, 0, 5, 6)])
        .ok(close(2))
        .refused(batch, 10, 7)
        .shows(read_all(DEVICE, 0, 0), &[plain(TABLE, 1, 0x0b)])
}

/// Reason 2 comes before all else, also for a frame that is malformed, and
/// nothing is written. Longer buffers are as good as those that just suffice.
fn short_buffers_come_first() -> Case {
    let lent = |frame: Vec<u8>, answer_len: usize, store_len: usize| Call {
        answer_len,
        store_len,
        ..Call::new(frame)
    };
    Case::new("short buffers come first")
        .step(lent(open(1), ANSWER_ROOM - 1, STORE_ROOM), vec![])
        .step(lent(open(1), ANSWER_ROOM, STORE_ROOM - 1), vec![])
        .step(lent(open(1), 0, 0), vec![])
        .step(lent(vec![], 3, STORE_ROOM), vec![])
        .step(lent(vec![0xff], ANSWER_ROOM, 0), vec![])
        .step(lent(open(1), ANSWER_ROOM + 1, STORE_ROOM + 1), vec![0; 4])
        .step(lent(open(1), 70_000, 60_000), vec![3, 9, 0, 0])
        .step(lent(close(1), ANSWER_ROOM, STORE_ROOM - 1), vec![])
        .step(lent(close(1), ANSWER_ROOM, STORE_ROOM), vec![0; 4])
}

fn every_stream_number() -> Case {
    let mut case = Case::new("streams 0 to 31");
    for stream in 0..32 {
        case = case
            .refused(close(stream), 4, 5)
            .ok(open(stream))
            .refused(open(stream), 3, 9);
    }
    for stream in 0..32u8 {
        // Four streams in each role, all without an id.
        let role = stream / 4;
        case = case.tells(
            arbitrate(stream, Head::unset(DEVICE, role)),
            &[rec_none(stream, role, 5)],
        );
    }
    for stream in 0..32 {
        case = case.ok(close(stream)).refused(close(stream), 4, 5);
    }
    case.refused(open(32), 1, 3).refused(close(32), 1, 3)
}

/// Keys are compared as numbers, in every slot and in a READ.
fn padded_key_is_the_same_key() -> Case {
    let fields = [
        (kind::EXACT, 9),
        (kind::LPM, 32),
        (kind::TERNARY, 12),
        (kind::RANGE, 16),
    ];
    let row = Row::new(TABLE, 0, 4, &fields, &[Action::new(0x0100_0005, &[9])]);
    let made = |length: usize, param: u128| {
        let value = |number: u128, shortest: usize| Value::padded(number, shortest.max(length));
        let slots = [
            Slot::exact(value(0x1ff, 2)),
            Slot::lpm(value(0x0a00_0000, 4), value(8, 1)),
            Slot::ternary(value(0x05, 1), value(0x0f, 1)),
            Slot::range(value(0, 1), value(0x0100, 2)),
        ];
        let key = reference::bytes::Key::new(7, &slots);
        Entry::new(TABLE, key, 0x0100_0005, &[value(param, 2)])
    };
    let short = |param| made(1, param);
    let long = |param| made(16, param);
    Case::configured("a padded key is the same key", &[row])
        .inserts(long(0x1fe))
        .rejects(short(0x1fe), 20, 6)
        .rejects(made(5, 0x1fe), 20, 6)
        .shows(read_all(DEVICE, 0, 0), &[short(0x1fe)])
        .shows(read_one(DEVICE, 0, TABLE, long(0).key), &[short(0x1fe)])
        .shows(read_one(DEVICE, 0, TABLE, short(0).key), &[short(0x1fe)])
        .takes(&[Update::modify(made(9, 0x101))])
        .shows(read_one(DEVICE, 0, TABLE, short(0).key), &[short(0x101)])
        .takes(&[Update::delete(long(0x1ff))])
        .ok(read_all(DEVICE, 0, 0))
}

/// A table of one place takes one entry after the other.
fn deleted_entry_is_not_charged() -> Case {
    let mut case = Case::configured("a deleted entry is not charged", &[plain_row(TABLE, 0, 1)]);
    for number in 1..=5 {
        let this = plain(TABLE, number, 0x7f);
        case = case
            .inserts(this)
            .rejects(plain(TABLE, number + 1, 0x7f), 22, 8)
            .takes(&[Update::delete(this)]);
    }
    case.ok(read_all(DEVICE, 0, 0))
}

/// An agent's own device may be 0.
fn device_zero() -> Case {
    let here = Head::set(0, 0, 1);
    Case {
        device: 0,
        ..Case::new("an agent of device 0")
    }
    .ok(open(0))
    .tells(arbitrate(0, here), &[rec(0, 0, 0, 1)])
    .ok(configure(here, &[plain_row(TABLE, 0, 1)]))
    .refused(configure(primary(), &[plain_row(TABLE, 0, 1)]), 5, 5)
    .ok(read_all(0, 0, 0))
    .refused(read_all(1, 0, 0), 5, 5)
}

fn largest_device() -> Case {
    let here = Head::set(u64::MAX, 7, u128::MAX);
    Case {
        device: u64::MAX,
        ..Case::new("an agent of the largest device")
    }
    .ok(open(31))
    .tells(arbitrate(31, here), &[rec(31, 7, 0, u128::MAX)])
    .refused(write(here, 2, &[]), 12, 9)
    .refused(write(Head::set(u64::MAX >> 1, 7, u128::MAX), 0, &[]), 5, 5)
    .refused(read_one(u64::MAX, 7, TABLE, key(0, Slot::exact(0))), 12, 9)
}
