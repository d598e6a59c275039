//! WRITE and READ.

use reference::bytes::{self, Entry, Update};

use super::keys::TABLE;
use super::state::{batch, eight_tables, modifies, single, stored, BATCH, DEVICE};
use super::{state, Case, Frame, Keys, ENTRY, FULL};

/// WRITE into one table.
pub fn write(keys: Keys) -> Vec<Case> {
    let half = FULL / 2;
    let last = FULL - 1;
    let mut cases = vec![
        insert("1 INSERT, store empty", keys, 0),
        insert("1 INSERT, store half full (128)", keys, half),
        insert("1 INSERT, at the last place (255)", keys, last),
        on("1 INSERT, store full (256): 22", keys, FULL)
            .pairs(1, 22)
            .timed(vec![single(keys, Update::insert, FULL)]),
        insert_many("64 INSERTs, store empty", keys, 0),
        insert_many("64 INSERTs, store half full (128)", keys, half),
        insert_many("64 INSERTs, up to the last place (192)", keys, FULL - BATCH),
        on("64 INSERTs, store full (256): 22 each", keys, FULL)
            .pairs(BATCH, 22)
            .timed(vec![batch(keys, Update::insert, FULL..FULL + BATCH)]),
        modify("1 MODIFY, first of 256", keys, 0),
        modify("1 MODIFY, last of 256", keys, last),
        modify_many("64 MODIFYs, every fourth of 256", keys),
        delete_first("1 DELETE, first of 256", keys, 1),
        delete_first("64 DELETEs, each the first, of 256", keys, BATCH),
    ];
    cases.extend(deletes_at_the_end(keys));
    cases
}

/// WRITE where every slot and every parameter is used.
pub fn write_four_slots() -> Vec<Case> {
    let keys = Keys::Four;
    let mut cases = vec![
        insert("1 INSERT, store empty", keys, 0),
        insert("1 INSERT, at the last place (255)", keys, FULL - 1),
        insert_many("64 INSERTs, store empty", keys, 0),
        modify("1 MODIFY, last of 256", keys, FULL - 1),
        delete_first("1 DELETE, first of 256", keys, 1),
    ];
    cases.extend(deletes_at_the_end(keys));
    cases
}

/// WRITE where the store is full and its entries are of eight tables.
pub fn write_full() -> Vec<Case> {
    let keys = Keys::Late;
    let too_many = |number| Update::insert(keys.entry_in(TABLE + 3, number, 7));
    let case = |name, count| {
        let updates: Vec<Update> = (32..32 + count).map(too_many).collect();
        let case = Case::new("WRITE", name, eight_tables(true)).keys(keys);
        case.pairs(count, 22).timed(vec![state::write(&updates)])
    };
    vec![
        case("1 INSERT, store full, 8 tables: 22", 1),
        case("64 INSERTs, store full, 8 tables: 22 each", BATCH),
    ]
}

/// READ of more than one entry.
pub fn read_many() -> Vec<Case> {
    let case = |name: &str, setup: Vec<Frame>| Case::new("READ", name, setup);
    let all = || vec![bytes::read_all(DEVICE, 0, 0)];
    let one = || vec![bytes::read_all(DEVICE, 0, TABLE + 3)];
    let role_3 = || vec![bytes::read_all(DEVICE, 3, 0)];
    let keys = Keys::Late;
    vec![
        case("all, store empty", stored(keys, 0)).timed(all()),
        case("all 256, 1 table", stored(keys, FULL))
            .timed(all())
            .records(FULL)
            .beside_copy(FULL * ENTRY),
        case("all 256, 8 tables in turn", eight_tables(true))
            .timed(all())
            .records(FULL),
        case("all 256, 8 tables one after another", eight_tables(false))
            .timed(all())
            .records(FULL),
        case("1 table of 8 (32 of 256), in turn", eight_tables(true))
            .timed(one())
            .records(32),
        case(
            "1 table of 8 (32 of 256), one after another",
            eight_tables(false),
        )
        .timed(one())
        .records(32),
        case("all of role 3 (1 table of 8), in turn", eight_tables(true))
            .timed(role_3())
            .records(32),
    ]
}

/// READ of one key.
pub fn read_key() -> Vec<Case> {
    let mut cases = Vec::new();
    for keys in [Keys::Early, Keys::Late, Keys::Four] {
        cases.extend([
            read_one("1 key, first of 256", keys, 0),
            read_one("1 key, last of 256", keys, FULL - 1),
            read_one("1 key, absent from 256", keys, FULL),
        ]);
    }
    let keys = Keys::Late;
    let last = bytes::read_one(DEVICE, 0, TABLE + 7, keys.key(31));
    let case = Case::new(
        "READ",
        "1 key, last of 8 tables in turn",
        eight_tables(true),
    );
    cases.push(case.keys(keys).timed(vec![last]).records(1));
    cases
}

/// READ of the key of a number, which is there if it is one of the first 256.
pub fn read_one(name: &str, keys: Keys, number: usize) -> Case {
    let frame = bytes::read_one(DEVICE, 0, TABLE, keys.key(number));
    let case = Case::new("READ", name, stored(keys, FULL)).keys(keys);
    case.timed(vec![frame]).records(usize::from(number < FULL))
}

/// A WRITE where the first `count` entries are stored.
fn on(name: &str, keys: Keys, count: usize) -> Case {
    Case::new("WRITE", name, stored(keys, count)).keys(keys)
}

/// INSERT of the entry that comes after the first `count`.
pub fn insert(name: &str, keys: Keys, count: usize) -> Case {
    on(name, keys, count).pairs(1, 0).step(
        vec![single(keys, Update::insert, count)],
        vec![single(keys, Update::delete, count)],
    )
}

fn insert_many(name: &str, keys: Keys, count: usize) -> Case {
    let numbers = count..count + BATCH;
    on(name, keys, count).pairs(BATCH, 0).step(
        vec![batch(keys, Update::insert, numbers.clone())],
        vec![batch(keys, Update::delete, numbers.rev())],
    )
}

pub fn modify(name: &str, keys: Keys, number: usize) -> Case {
    on(name, keys, FULL)
        .pairs(1, 0)
        .timed(modifies(keys, number))
}

/// MODIFY of every fourth entry.
pub fn modify_many(name: &str, keys: Keys) -> Case {
    on(name, keys, FULL).pairs(BATCH, 0).timed(vec![batch(
        keys,
        Update::modify,
        (0..FULL).step_by(4),
    )])
}

/// DELETE of the first entries, so many in a WRITE. They are inserted again at the end, so the next
/// step has others in front, and after the last step the order is what it was.
fn delete_first(name: &str, keys: Keys, each: usize) -> Case {
    let case = on(name, keys, FULL).pairs(each, 0);
    (0..FULL).step_by(each).fold(case, |case, first| {
        let numbers = first..first + each;
        case.step(
            vec![batch(keys, Update::delete, numbers.clone())],
            vec![batch(keys, Update::insert, numbers)],
        )
    })
}

/// DELETE of the last entry and of the last 64, with an action and by key alone.
fn deletes_at_the_end(keys: Keys) -> [Case; 4] {
    let many = "64 DELETEs, each the last, of 256";
    let many_by_key = "64 DELETEs by key alone, each the last, of 256";
    [
        delete_last("1 DELETE, last of 256", keys, 1, Update::delete),
        delete_last("1 DELETE by key alone, last of 256", keys, 1, by_key),
        delete_last(many, keys, BATCH, Update::delete),
        delete_last(many_by_key, keys, BATCH, by_key),
    ]
}

/// DELETE of the last entries, so many in a WRITE and each the last when it is its turn.
pub fn delete_last(name: &str, keys: Keys, each: usize, delete: fn(Entry) -> Update) -> Case {
    let numbers = FULL - each..FULL;
    on(name, keys, FULL).pairs(each, 0).step(
        vec![batch(keys, delete, numbers.clone().rev())],
        vec![batch(keys, Update::insert, numbers)],
    )
}

/// DELETE of an entry's key: the 72 bytes of action and parameters are zeros.
pub fn by_key(entry: Entry) -> Update {
    Update::delete(Entry::new(entry.table, entry.key, 0, &[]))
}
