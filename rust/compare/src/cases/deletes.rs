//! Document 02, request One: a DELETE's action and parameters are not looked
//! at. In each case every kind of rubbish takes its turn there.

use reference::bytes::{
    arbitrate, kind, open, read_all, read_one, write, write_raw, Action, Entry, Head, Key, Row,
    Slot, Update, Value,
};

use super::{primary, rec, Case, DEVICE, ONE, TWO};

/// Actions of the first table, of 12 and 48 bits and without parameters, and
/// of the second.
const FORWARD: u32 = 0x0100_0001;
const DROP: u32 = 0x0100_0002;
const MIRROR: u32 = 0x0100_0003;

pub fn cases() -> Vec<Case> {
    vec![
        no_action(),
        every_byte(),
        rubbish_is_done(),
        others_are_checked(),
        keys_are_checked(),
        tables_are_checked(),
        order(),
        rolled_back(),
        clean_up(),
    ]
}

/// A table of role 0, and one of role 1 with an action of its own.
fn halls(name: &'static str) -> Case {
    let fields = [(kind::LPM, 32), (kind::RANGE, 16)];
    let actions = [Action::new(FORWARD, &[12, 48]), Action::new(DROP, &[])];
    let exact = [(kind::EXACT, 16)];
    let rows = [
        Row::new(ONE, 0, 4, &fields, &actions),
        Row::new(TWO, 1, 2, &exact, &[Action::new(MIRROR, &[8])]),
    ];
    Case::configured(name, &rows)
}

/// An entry of the first table.
fn route(third: u128) -> Entry {
    let prefix = Slot::lpm(0x0a00_0000 + (third << 8), 24);
    let key = Key::new(9, &[prefix, Slot::range(80, 443)]);
    let params = [Value::of(0x800), Value::of(0x1122_3344_5566)];
    Entry::new(ONE, key, FORWARD, &params)
}

/// What follows a key: an action and four values.
type Rest = (u32, [Value; 4]);

/// The entry with another action and other parameters.
fn with(entry: Entry, (action, params): Rest) -> Entry {
    Entry {
        action,
        params,
        ..entry
    }
}

/// What may not follow a key of the first table, each with the pair of an
/// INSERT or MODIFY that has it there.
fn rubbish() -> Vec<(Rest, [u8; 2])> {
    let (form, width) = ([17, 3], [18, 11]);
    let (none, one) = (Value::NONE, Value::of(1));
    let of = |length, byte| Value {
        length,
        bytes: [byte; 16],
    };
    vec![
        ((0, [none; 4]), form),
        ((u32::MAX, [of(0xff, 0xff); 4]), form),
        ((0x5a5a_5a5a, [of(0x5a, 0x5a); 4]), form),
        // Actions: unknown, another table's, another sort of id.
        ((MIRROR + 1, [one, one, none, none]), form),
        ((MIRROR, [one, none, none, none]), form),
        ((ONE, [none; 4]), form),
        // Parameters: too wide, of length 0, of 17, padding, past the count.
        ((FORWARD, [Value::of(0x1000), one, none, none]), width),
        ((FORWARD, [one, Value::of(1 << 48), none, none]), width),
        ((FORWARD, [none, one, none, none]), form),
        ((FORWARD, [one, of(0, 1), none, none]), form),
        ((FORWARD, [of(17, 0), one, none, none]), form),
        ((FORWARD, [one, of(1, 1), none, none]), form),
        ((FORWARD, [one, one, Value::of(0), none]), form),
        ((DROP, [none, none, none, of(0, 1)]), form),
    ]
}

/// For each kind of rubbish some calls, by the atomicities in turn.
fn for_each(mut case: Case, calls: impl Fn(Case, u8, Rest, [u8; 2]) -> Case) -> Case {
    for (rest, pair) in rubbish() {
        for atomicity in [0, 1] {
            case = calls(case, atomicity, rest, pair);
        }
    }
    case
}

impl Case {
    /// A WRITE by the primary of role 0 of one update, and its pair.
    fn one(self, atomicity: u8, update: Update, [reason, code]: [u8; 2]) -> Case {
        let head = if reason == 0 { [0, 0] } else { [23, 2] };
        let answer = vec![head[0], head[1], 0, 1, reason, code];
        self.answers(write(primary(), atomicity, &[update]), answer)
    }
}

/// What the controllers of two halls send: a table, a key, and no action.
fn no_action() -> Case {
    let bare = Update::delete(with(route(1), (0, [Value::NONE; 4])));
    halls("a DELETE with no action")
        .one(0, bare, [21, 5])
        .inserts(route(1))
        .one(0, bare, [0, 0])
        .ok(read_all(DEVICE, 0, 0))
        .one(0, bare, [21, 5])
        .inserts(route(1))
        .one(1, bare, [0, 0])
        .ok(read_all(DEVICE, 0, 0))
        .one(1, bare, [21, 5])
}

/// Each of the 72 bytes, one at a time.
fn every_byte() -> Case {
    let mut case = halls("each of the 72 bytes of a DELETE");
    for at in 149..221 {
        let mut update = Update::delete(route(1)).bytes();
        update[at] ^= 0xff;
        let frame = write_raw(primary(), at as u8 % 2, 1, &update);
        case = case
            .inserts(route(1))
            .answers(frame, vec![0, 0, 0, 1, 0, 0]);
    }
    case.ok(read_all(DEVICE, 0, 0))
}

fn rubbish_is_done() -> Case {
    let case = halls("a DELETE with rubbish after its key").inserts(route(1));
    for_each(case, |case, atomicity, rest, _| {
        // A padded key is the same key.
        let mut padded = with(route(2), rest);
        padded.key.slots[0].second = Value::padded(24, 16);
        padded.key.slots[1].first = Value::padded(80, 2);
        case.inserts(route(2))
            .inserts(route(3))
            .one(atomicity, Update::delete(padded), [0, 0])
            .shows(read_one(DEVICE, 0, ONE, route(2).key), &[])
            .shows(read_all(DEVICE, 0, 0), &[route(1), route(3)])
            .one(atomicity, Update::delete(with(route(3), rest)), [0, 0])
    })
}

/// INSERT and MODIFY with the same bytes are refused as before.
fn others_are_checked() -> Case {
    let case = halls("INSERT and MODIFY with the same rubbish").inserts(route(1));
    for_each(case, |case, atomicity, rest, pair| {
        case.one(atomicity, Update::modify(with(route(1), rest)), pair)
            .one(atomicity, Update::insert(with(route(1), rest)), pair)
            .one(atomicity, Update::insert(with(route(2), rest)), pair)
            .shows(read_all(DEVICE, 0, 0), &[route(1)])
    })
}

/// Keys that are not in order, each with its pair.
fn broken_keys() -> Vec<(Key, [u8; 2])> {
    let (prefix, range) = (Slot::lpm(0x0a00_0100, 24), Slot::range(80, 443));
    let mut unused = Key::new(9, &[prefix, range]);
    unused.slots[3].second.bytes[15] = 1;
    let mut omitted = Key::new(9, &[prefix]);
    omitted.slots[1].first = Value::of(0);
    vec![
        // 17: kinds, lengths, unused parts.
        (Key::new(9, &[range, prefix]), [17, 3]),
        (
            Key::new(9, &[prefix, Slot::range(80, Value::NONE)]),
            [17, 3],
        ),
        (unused, [17, 3]),
        (omitted, [17, 3]),
        // 18: the value, a bound.
        (Key::new(9, &[Slot::lpm(1 << 32, 24), range]), [18, 11]),
        (Key::new(9, &[prefix, Slot::range(80, 0x1_0000)]), [18, 11]),
        // 19: the prefix length, the bounds, the priority.
        (Key::new(9, &[Slot::lpm(0x0a00_0101, 24), range]), [19, 3]),
        (Key::new(9, &[Slot::lpm(0x0a00_0100, 0), range]), [19, 3]),
        (Key::new(9, &[prefix, Slot::range(443, 80)]), [19, 3]),
        (Key::new(0, &[prefix, range]), [19, 3]),
        // 21: another prefix length, another priority, a slot less.
        (Key::new(9, &[Slot::lpm(0x0a00_0100, 25), range]), [21, 5]),
        (Key::new(8, &[prefix, range]), [21, 5]),
        (Key::new(9, &[prefix]), [21, 5]),
    ]
}

/// Whatever follows the key.
fn keys_are_checked() -> Case {
    let case = halls("the key of a DELETE is checked as before").inserts(route(1));
    let case = for_each(case, |mut case, atomicity, rest, _| {
        for (key, pair) in broken_keys() {
            let entry = Entry { key, ..route(1) };
            case = case.one(atomicity, Update::delete(with(entry, rest)), pair);
        }
        case
    });
    case.shows(read_all(DEVICE, 0, 0), &[route(1)])
}

/// 17 of the type, 15, 16.
fn tables_are_checked() -> Case {
    let role_1 = Head::set(DEVICE, 1, 5);
    let case = halls("the table of a DELETE is checked as before")
        .inserts(route(1))
        .ok(open(1))
        .tells(arbitrate(1, role_1), &[rec(1, 1, 0, 5)]);
    let case = for_each(case, |case, atomicity, rest, _| {
        let entry = with(route(1), rest);
        let unknown = Entry {
            table: TWO + 1,
            ..entry
        };
        let no_type = Update { kind: 4, entry };
        case.one(atomicity, no_type, [17, 3])
            .one(atomicity, Update::delete(unknown), [15, 5])
            .answers(
                write(role_1, atomicity, &[Update::delete(entry)]),
                vec![23, 2, 0, 1, 16, 7],
            )
    });
    case.shows(read_all(DEVICE, 0, 0), &[route(1)])
}

/// Two things wrong at once: of a DELETE the key's is said, of a MODIFY the
/// first in the order.
fn order() -> Case {
    let but = |slot: Slot| {
        let mut entry = route(1);
        entry.key.slots[0] = slot;
        entry
    };
    let wide = but(Slot::lpm(1 << 32, 24));
    let rule = but(Slot::lpm(0x0a00_0101, 24));
    let unknown = (0, [Value::NONE; 4]);
    let mut exceeds = (FORWARD, route(1).params);
    exceeds.1[0] = Value::of(0x1000);
    let mut case = halls("17 and 18 of a DELETE are those of its key").inserts(route(1));
    for (entry, delete, modify) in [
        (with(wide, unknown), [18, 11], [17, 3]),
        (with(rule, unknown), [19, 3], [17, 3]),
        (with(rule, exceeds), [19, 3], [18, 11]),
        (with(route(2), unknown), [21, 5], [17, 3]),
        (with(route(2), exceeds), [21, 5], [18, 11]),
    ] {
        for atomicity in [0, 1] {
            case = case.one(atomicity, Update::delete(entry), delete).one(
                atomicity,
                Update::modify(entry),
                modify,
            );
        }
    }
    case
}

/// Entries come back with the action that they had.
fn rolled_back() -> Case {
    let stored = [route(1), route(2), route(3)];
    let case = halls("a DELETE with rubbish rolled back").takes(&stored.map(Update::insert));
    for_each(case, |case, _, rest, [reason, code]| {
        let delete = |third: u128| Update::delete(with(route(third), rest));
        let modify = Update::modify(with(route(3), rest));
        case.rolls_back(&[delete(1), delete(2), delete(2)], 2, 21, 5)
            .rolls_back(&[delete(3), modify, delete(1)], 1, reason, code)
            .shows(read_all(DEVICE, 0, 0), &stored)
    })
}

/// A full table is emptied by one batch, and filled by the next.
fn clean_up() -> Case {
    let stored = [route(1), route(2), route(3), route(4)];
    for_each(
        halls("a table is cleaned up"),
        |case, atomicity, rest, _| {
            let deletes = stored.map(|entry| Update::delete(with(entry, rest)));
            let done = vec![0, 0, 0, 4, 0, 0, 0, 0, 0, 0, 0, 0];
            case.takes(&stored.map(Update::insert))
                .rejects(route(5), 22, 8)
                .answers(write(primary(), atomicity, &deletes), done)
                .ok(read_all(DEVICE, 0, 0))
        },
    )
}
