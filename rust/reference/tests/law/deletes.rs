//! Document 02, request One: DELETE needs only the key. Answers are written
//! out: 17 02 is the head 23 (2), 19 0a the pair 25 (10).

use crate::support::*;
use reference::bytes::*;

const FIRST: u32 = 0x0200_0001;
const SECOND: u32 = 0x0200_0002;

/// The first table's actions, and the second one's.
const FORWARD: u32 = 0x0100_0001;
const DROP: u32 = 0x0100_0002;
const MIRROR: u32 = 0x0100_0003;

/// Where the action is in an update; the parameters follow, up to its end.
const ACTION_AT: usize = 149;

/// An action and four values: the 72 bytes after a key.
type Rest = (u32, [Value; 4]);

/// Two tables, of role 0 and of role 1. The first has an action of two
/// parameters, of 16 and 9 bits, and one without.
fn configured() -> Bench {
    let fields = [(kind::EXACT, 16), (kind::TERNARY, 8)];
    let actions = [Action::new(FORWARD, &[16, 9]), Action::new(DROP, &[])];
    let second = [Action::new(MIRROR, &[8])];
    let mut bench = Bench::configured(&[
        Row::new(FIRST, 0, 3, &fields, &actions),
        Row::new(SECOND, 1, 2, &[(kind::EXACT, 16)], &second),
    ]);
    bench.ok(&open(1));
    bench.told(1, 1, 5, &[(1, 0)], Some(5));
    bench
}

/// An entry of the first table, in order.
fn route(field: u128, port: u128) -> Entry {
    let key = Key::new(5, &[Slot::exact(field), Slot::ternary(0x0a, 0x0f)]);
    let params = [Value::of(port), Value::of(0x1ff)];
    Entry::new(FIRST, key, FORWARD, &params)
}

fn with(entry: Entry, (action, params): Rest) -> Entry {
    Entry {
        action,
        params,
        ..entry
    }
}

fn rest(action: u32, params: &[Value]) -> Rest {
    let entry = Entry::new(FIRST, Key::ZERO, action, params);
    (entry.action, entry.params)
}

/// The value with one of its bytes 1.
fn stray(mut value: Value, at: usize) -> Value {
    value.bytes[at] = 1;
    value
}

/// What no entry of the first table may have after its key, each with the
/// reason that an INSERT or a MODIFY gets for it.
fn rubbish() -> Vec<(Rest, (u8, u8))> {
    let (form, width) = ((17, 3), (18, 11));
    let (port, lane, none) = (Value::of(7), Value::of(1), Value::NONE);
    let long = |length| Value { length, ..port };
    let ff = Value {
        length: 255,
        bytes: [255; 16],
    };
    vec![
        // 72 zero bytes, 72 bytes FF.
        (rest(0, &[]), form),
        (rest(u32::MAX, &[ff; 4]), form),
        // An unknown action; another table's; an id that is no action's.
        (rest(MIRROR + 1, &[port, lane]), form),
        (rest(MIRROR, &[port]), form),
        (rest(FIRST, &[port, lane]), form),
        // A parameter too wide.
        (rest(FORWARD, &[Value::of(0x1_0000), lane]), width),
        (rest(FORWARD, &[port, Value::of(0x200)]), width),
        // Of length 0, empty or not; of length 17 and 255.
        (rest(FORWARD, &[port]), form),
        (rest(FORWARD, &[port, stray(none, 0)]), form),
        (rest(FORWARD, &[long(17), lane]), form),
        (rest(FORWARD, &[long(255), lane]), form),
        // Nonzero padding.
        (rest(FORWARD, &[stray(port, 1), lane]), form),
        (rest(FORWARD, &[port, stray(lane, 15)]), form),
        // Parameters past the count.
        (rest(FORWARD, &[port, lane, Value::of(0)]), form),
        (rest(DROP, &[port]), form),
        (rest(DROP, &[none, none, none, stray(none, 15)]), form),
    ]
}

/// A WRITE by the primary of role 0, and its answer.
#[track_caller]
fn batch(bench: &mut Bench, atomicity: u8, updates: &[Update], answer: &str) {
    bench.answers(&write(primary(), atomicity, updates), &unhex(answer));
}

#[test]
fn a_table_and_a_key_are_enough() {
    for atomicity in ["00", "01"] {
        let mut bench = Bench::configured(&[plain_row(FIRST, 0, 4)]);
        bench.takes(plain(FIRST, 0x1234, 7));
        // A DELETE of the key 1234 in table 02000001, and no action.
        let slots = ["01 02 1234", &"00".repeat(14), &"00".repeat(17 + 3 * 35)].concat();
        let entry = ["02000001 00000000", &slots, &"00".repeat(72)].concat();
        let head = ["0000000000000001 00 01", &"00".repeat(15), "01"].concat();
        let frame = ["05", &head, atomicity, "01 03", &entry].concat();
        bench.answers(&unhex(&frame), &unhex("0000 0001 0000"));
        bench.shows(&read_all(DEVICE, 0, 0), &[]);
        bench.answers(&unhex(&frame), &unhex("1702 0001 1505"));
    }
}

#[test]
fn none_of_the_72_bytes_is_looked_at() {
    let mut bench = configured();
    let good = Update::delete(route(1, 7)).bytes();
    let mut none = good;
    none[ACTION_AT..].fill(0);
    for (at, byte) in (ACTION_AT..221).flat_map(|at| [1, 2, 0x80, 0xff].map(|byte| (at, byte))) {
        for (atomicity, mut update) in [(0, good), (1, good), (0, none), (1, none)] {
            update[at] = byte;
            bench.takes(route(1, 7));
            let frame = write_raw(primary(), atomicity, 1, &update);
            bench.answers(&frame, &unhex("0000 0001 0000"));
        }
    }
    bench.shows(&read_all(DEVICE, 0, 0), &[]);
}

#[test]
fn rubbish_after_the_key() {
    for (rest, _) in rubbish() {
        for atomicity in [0, 1] {
            let mut bench = configured();
            bench.takes(route(1, 7));
            bench.takes(route(2, 8));
            let delete = Update::delete(with(route(1, 0), rest));
            batch(&mut bench, atomicity, &[delete], "0000 0001 0000");
            bench.shows(&read_all(DEVICE, 0, 0), &[route(2, 8)]);
            // Absent, inserted, deleted again, inserted anew.
            let insert = Update::insert(route(1, 9));
            let updates = [insert, delete, insert];
            batch(&mut bench, atomicity, &updates, "0000 0003 0000 0000 0000");
            bench.shows(&read_all(DEVICE, 0, 0), &[route(2, 8), route(1, 9)]);
        }
    }
}

#[test]
fn insert_and_modify_are_checked_as_before() {
    for (rest, (reason, code)) in rubbish() {
        for atomicity in [0, 1] {
            let mut bench = configured();
            bench.takes(route(1, 7));
            let answer = format!("1702 0001 {reason:02x}{code:02x}");
            let modify = Update::modify(with(route(1, 0), rest));
            batch(&mut bench, atomicity, &[modify], &answer);
            for field in [1, 2] {
                let insert = Update::insert(with(route(field, 0), rest));
                batch(&mut bench, atomicity, &[insert], &answer);
            }
            bench.shows(&read_all(DEVICE, 0, 0), &[route(1, 7)]);
        }
    }
}

/// DELETEs whose table or key is not in order, each with its reason.
fn broken() -> Vec<(Update, (u8, u8))> {
    let of = |priority, slots: &[Slot]| {
        let key = Key::new(priority, slots);
        Update::delete(Entry { key, ..route(1, 7) })
    };
    let (one, mask) = (Slot::exact(1), Slot::ternary(0x0a, 0x0f));
    let unknown = Entry {
        table: SECOND + 1,
        ..route(1, 7)
    };
    let mut unused = of(5, &[one, mask]);
    unused.entry.key.slots[3].second.bytes[15] = 1;
    let mut padding = of(5, &[one, mask]);
    padding.entry.key.slots[0].first.bytes[1] = 1;
    vec![
        (Update::delete(unknown), (15, 5)),
        // The kind, a length of 0, padding, an unused slot.
        (of(5, &[Slot::lpm(1, 16), mask]), (17, 3)),
        (of(5, &[Slot::OMITTED, mask]), (17, 3)),
        (of(5, &[Slot::exact(Value::NONE), mask]), (17, 3)),
        (padding, (17, 3)),
        (unused, (17, 3)),
        // The field, the mask.
        (of(5, &[Slot::exact(0x1_0000), mask]), (18, 11)),
        (of(5, &[one, Slot::ternary(0x0a, 0x10f)]), (18, 11)),
        // The rule of the kind, the priority.
        (of(5, &[one, Slot::ternary(0x0a, 0x05)]), (19, 3)),
        (of(0, &[one, mask]), (19, 3)),
        (of(0x8000_0000, &[one, mask]), (19, 3)),
        // Another priority, another field, another mask: no such entry.
        (of(6, &[one, mask]), (21, 5)),
        (of(5, &[Slot::exact(2), mask]), (21, 5)),
        (of(5, &[one, Slot::OMITTED]), (21, 5)),
    ]
}

#[test]
fn the_key_is_checked_as_before() {
    let good = (FORWARD, route(1, 7).params);
    let rests = rubbish().into_iter().map(|(rest, _)| rest).chain([good]);
    let mut bench = configured();
    bench.takes(route(1, 7));
    for rest in rests {
        for (mut update, (reason, code)) in broken() {
            update.entry = with(update.entry, rest);
            let alone = format!("1702 0001 {reason:02x}{code:02x}");
            batch(&mut bench, 0, &[update], &alone);
            batch(&mut bench, 1, &[update], &alone);
            // Rolled back, failed, never tried.
            let delete = Update::delete(with(route(1, 7), rest));
            let among = format!("1702 0003 190a {reason:02x}{code:02x} 190a");
            batch(&mut bench, 1, &[delete, update, delete], &among);
        }
    }
    bench.shows(&read_all(DEVICE, 0, 0), &[route(1, 7)]);
}

#[test]
fn the_type_and_the_owner_are_checked_as_before() {
    let role_1 = Head::set(DEVICE, 1, 5);
    let mut bench = configured();
    bench.takes(route(1, 7));
    for (rest, _) in rubbish() {
        let entry = with(route(1, 7), rest);
        for atomicity in [0, 1] {
            let frame = write(role_1, atomicity, &[Update::delete(entry)]);
            bench.answers(&frame, &unhex("1702 0001 1007"));
            for kind in [0, 4, 255] {
                let update = Update { kind, entry };
                batch(&mut bench, atomicity, &[update], "1702 0001 1103");
            }
        }
    }
    bench.shows(&read_all(DEVICE, 0, 0), &[route(1, 7)]);
}

#[test]
fn seventeen_and_eighteen_of_a_delete_are_those_of_its_key() {
    let mut bench = configured();
    let mut wide = route(1, 7);
    wide.key.slots[0] = Slot::exact(0x1_0000);
    let mut rule = route(1, 7);
    rule.key.priority = 0;
    // 17 or 18 after the key, 18 or 19 in it: DELETE and MODIFY.
    let (port, none) = (Value::of(7), Value::NONE);
    let unknown = (MIRROR, [none; 4]);
    let unused = (DROP, [port, none, none, none]);
    let exceeds = (FORWARD, [Value::of(0x1_0000), port, none, none]);
    for (entry, delete, modify) in [
        (with(wide, unknown), "120b", "1103"),
        (with(wide, unused), "120b", "1103"),
        (with(rule, unknown), "1303", "1103"),
        (with(rule, exceeds), "1303", "120b"),
    ] {
        for atomicity in [0, 1] {
            let answer = |pair| format!("1702 0001 {pair}");
            let update = [Update::delete(entry)];
            batch(&mut bench, atomicity, &update, &answer(delete));
            let update = [Update::modify(entry)];
            batch(&mut bench, atomicity, &update, &answer(modify));
        }
    }
}

#[test]
fn the_entry_is_found_by_its_key_alone() {
    for (rest, _) in rubbish() {
        let mut bench = configured();
        let mut others = [route(1, 8), route(2, 7)];
        others[0].key.priority = 6;
        bench.takes(others[0]);
        bench.takes(route(1, 7));
        bench.takes(others[1]);
        // Values compare as numbers, so padding finds it too.
        let mut padded = with(route(1, 7), rest);
        padded.key.slots[0].first = Value::padded(1, 16);
        padded.key.slots[1].second = Value::padded(0x0f, 3);
        let delete = Update::delete(padded);
        batch(&mut bench, 0, &[delete], "0000 0001 0000");
        bench.shows(&read_all(DEVICE, 0, 0), &others);
        // The table was full, and has room for one.
        let inserts = [3, 4].map(|field| Update::insert(route(field, 7)));
        batch(&mut bench, 0, &inserts, "1702 0002 0000 1608");
    }
}

#[test]
fn what_is_rolled_back_has_the_action_it_had() {
    for (rest, _) in rubbish() {
        let mut bench = configured();
        let stored = [route(1, 7), route(2, 8), route(3, 9)];
        let updates = stored.map(Update::insert);
        batch(&mut bench, 0, &updates, "0000 0003 0000 0000 0000");
        let delete = |field| Update::delete(with(route(field, 0), rest));
        let updates = [delete(1), delete(3), delete(1)];
        batch(&mut bench, 1, &updates, "1702 0003 190a 190a 1505");
        bench.shows(&read_all(DEVICE, 0, 0), &stored);
        let image: Vec<u8> = stored.iter().flat_map(Entry::bytes).collect();
        assert_eq!(hex(&bench.agent.store_image()), hex(&image));
        // Without the last one nothing fails.
        batch(&mut bench, 1, &updates[..2], "0000 0002 0000 0000");
        bench.shows(&read_all(DEVICE, 0, 0), &stored[1..2]);
    }
}

#[test]
fn looking_back_notes_the_key_alone() {
    for (rest, _) in rubbish() {
        for atomicity in [0, 1] {
            let mut bench = configured();
            let delete = Update::delete(with(route(1, 0), rest));
            let updates = [
                Update::insert(route(1, 7)),
                Update::insert(route(2, 8)),
                Update::modify(route(1, 9)),
                delete,
                Update::insert(route(1, 10)),
            ];
            let outcome = bench.call(&write(primary(), atomicity, &updates));
            assert!(outcome.accepted);
            assert_eq!(outcome.effects, [true; 5]);
            // The latest INSERT gives order, action and parameters.
            bench.shows(&read_all(DEVICE, 0, 0), &[route(2, 8), route(1, 10)]);
            let outcome = bench.call(&write(primary(), atomicity, &[delete]));
            assert_eq!(outcome.effects, [true]);
            let outcome = bench.call(&write(primary(), atomicity, &[delete]));
            assert_eq!(outcome.effects, [false]);
        }
    }
}
