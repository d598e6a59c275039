//! WRITE: its refusals, its updates in order, and what they leave.

use crate::support::*;
use reference::bytes::*;

const FIRST: u32 = 0x0200_0001;
const SECOND: u32 = 0x0200_0002;

#[test]
fn refusals_come_in_order() {
    let mut bench = Bench::fresh();
    let update = [Update::insert(plain(FIRST, 1, 1))];
    bench.refused(&write(Head::set(2, 8, 5), 2, &update), 5, 5);
    bench.refused(&write(Head::set(DEVICE, 8, 5), 2, &update), 6, 5);
    bench.refused(&write(Head::set(DEVICE, 0, 5), 2, &update), 10, 7);
    bench.ok(&open(0));
    bench.told(0, 0, 1, &[(0, 0)], Some(1));
    bench.refused(&write(Head::unset(DEVICE, 0), 2, &update), 10, 7);
    bench.refused(&write(Head::set(DEVICE, 0, 2), 2, &update), 10, 7);
    bench.refused(&write(Head::set(DEVICE, 1, 1), 2, &update), 10, 7);
    bench.refused(&write(primary(), 2, &update), 12, 9);
    bench.ok(&configure(primary(), &[plain_row(FIRST, 0, 4)]));
    bench.refused(&write(primary(), 2, &update), 13, 12);
    bench.shows(&read_all(DEVICE, 0, 0), &[]);
    bench.writes(&update, (0, 0), &[(0, 0)]);
}

#[test]
fn no_update_at_all() {
    let mut bench = Bench::configured(&[plain_row(FIRST, 0, 4)]);
    bench.writes(&[], (0, 0), &[]);
    bench.refused(&write(Head::set(DEVICE, 0, 9), 0, &[]), 10, 7);
    bench.refused(&write(primary(), 2, &[]), 13, 12);
}

#[test]
fn only_the_live_primarys_id_writes() {
    let mut bench = Bench::configured(&[plain_row(FIRST, 0, 4)]);
    bench.ok(&open(1));
    bench.told(1, 0, 7, &[(0, 6), (1, 0)], Some(7));
    bench.refused(&write(Head::set(DEVICE, 0, 1), 0, &[]), 10, 7);
    bench.writes_as(Head::set(DEVICE, 0, 7), &[], (0, 0), &[]);
    bench.tells(&close(1), (0, 0), 0, &[(0, 5)], Some(7));
    bench.refused(&write(Head::set(DEVICE, 0, 1), 0, &[]), 10, 7);
    bench.refused(&write(Head::set(DEVICE, 0, 7), 0, &[]), 10, 7);
}

#[test]
fn tables_and_their_owners() {
    let rows = [
        plain_row(FIRST, 1, 4),
        plain_row(SECOND, 2, 4),
        plain_row(SECOND + 1, 0, 4),
    ];
    let mut bench = Bench::configured(&rows);
    bench.ok(&open(1));
    bench.told(1, 1, 5, &[(1, 0)], Some(5));
    let insert = |table| Update::insert(plain(table, 1, 1));
    // Role 1: its own, another's, the default role's, an unknown one, none.
    bench.writes_as(
        Head::set(DEVICE, 1, 5),
        &[FIRST, SECOND, SECOND + 1, SECOND + 2, 0].map(insert),
        (23, 2),
        &[(0, 0), (16, 7), (16, 7), (15, 5), (15, 5)],
    );
    // Role 0: every table.
    bench.writes(
        &[FIRST, SECOND, SECOND + 1, SECOND + 2].map(insert),
        (23, 2),
        &[(20, 6), (0, 0), (0, 0), (15, 5)],
    );
}

#[test]
fn the_type_comes_first_then_15_then_16_then_17() {
    let mut bench = Bench::configured(&[plain_row(FIRST, 2, 4)]);
    bench.ok(&open(1));
    bench.told(1, 1, 5, &[(1, 0)], Some(5));
    let role_1 = Head::set(DEVICE, 1, 5);
    let mut malformed = plain(FIRST, 1, 1);
    malformed.params[3] = Value::of(1);
    let unknown = Entry {
        table: SECOND,
        ..malformed
    };
    let update = |kind, entry| Update { kind, entry };
    bench.writes_as(
        role_1,
        &[
            update(0, unknown),
            update(4, unknown),
            update(255, unknown),
            update(1, unknown),
            update(1, malformed),
        ],
        (23, 2),
        &[(17, 3), (17, 3), (17, 3), (15, 5), (16, 7)],
    );
    bench.writes(&[update(1, malformed)], (23, 2), &[(17, 3)]);
    bench.writes(&[update(0, plain(FIRST, 1, 1))], (23, 2), &[(17, 3)]);
}

#[test]
fn modify_and_delete_of_no_entry_are_21() {
    let mut bench = Bench::configured(&[plain_row(FIRST, 0, 4), plain_row(SECOND, 0, 4)]);
    bench.takes(plain(FIRST, 1, 1));
    // The same key in another table is another key.
    bench.writes(
        &[
            Update::modify(plain(FIRST, 2, 1)),
            Update::delete(plain(FIRST, 2, 1)),
            Update::modify(plain(SECOND, 1, 1)),
            Update::delete(plain(SECOND, 1, 1)),
        ],
        (23, 2),
        &[(21, 5); 4],
    );
    bench.shows(&read_all(DEVICE, 0, 0), &[plain(FIRST, 1, 1)]);
}

#[test]
fn insert_and_modify_are_checked_as_whole_entries() {
    let mut bench = Bench::configured(&[plain_row(FIRST, 0, 4)]);
    bench.takes(plain(FIRST, 1, 1));
    let mut no_action = plain(FIRST, 1, 1);
    no_action.action = 0;
    let mut no_param = plain(FIRST, 1, 1);
    no_param.params[0] = Value::NONE;
    let wide = plain(FIRST, 1, 0x1_0000);
    for update in [Update::insert, Update::modify] {
        bench.writes(
            &[update(no_action), update(no_param), update(wide)],
            (23, 2),
            &[(17, 3), (17, 3), (18, 11)],
        );
    }
    // Of a DELETE table and key alone: the first of them finds the entry.
    bench.writes(
        &[no_action, no_param, wide].map(Update::delete),
        (23, 2),
        &[(0, 0), (21, 5), (21, 5)],
    );
}

#[test]
fn modify_replaces_in_its_place() {
    let row = Row::new(
        FIRST,
        0,
        4,
        &[(kind::EXACT, 16)],
        &[Action::new(ACTION, &[16]), Action::new(ACTION + 1, &[])],
    );
    let mut bench = Bench::configured(&[row]);
    for at in 1..=3 {
        bench.takes(plain(FIRST, at, 10 + at));
    }
    bench.writes(&[Update::modify(plain(FIRST, 2, 99))], (0, 0), &[(0, 0)]);
    let kept = [
        plain(FIRST, 1, 11),
        plain(FIRST, 2, 99),
        plain(FIRST, 3, 13),
    ];
    bench.shows(&read_all(DEVICE, 0, FIRST), &kept);
    // To what is stored already.
    bench.writes(&[Update::modify(plain(FIRST, 2, 99))], (0, 0), &[(0, 0)]);
    bench.shows(&read_all(DEVICE, 0, FIRST), &kept);
    // To an action without parameters: none of the old ones is left.
    let bare = Entry::new(FIRST, plain(FIRST, 1, 0).key, ACTION + 1, &[]);
    bench.writes(&[Update::modify(bare)], (0, 0), &[(0, 0)]);
    bench.shows(&read_all(DEVICE, 0, FIRST), &[bare, kept[1], kept[2]]);
}

#[test]
fn modify_under_a_padded_key_keeps_the_short_form() {
    let mut bench = Bench::configured(&[plain_row(FIRST, 0, 4)]);
    bench.takes(plain(FIRST, 7, 1));
    let padded = Key::new(0, &[Slot::exact(Value::padded(7, 16))]);
    let update = Entry::new(FIRST, padded, ACTION, &[Value::padded(2, 5)]);
    bench.writes(&[Update::modify(update)], (0, 0), &[(0, 0)]);
    bench.shows(&read_all(DEVICE, 0, FIRST), &[plain(FIRST, 7, 2)]);
}

#[test]
fn delete_closes_the_gap_and_insert_appends() {
    let mut bench = Bench::configured(&[plain_row(FIRST, 0, 4)]);
    for at in 1..=3 {
        bench.takes(plain(FIRST, at, at));
    }
    bench.writes(&[Update::delete(plain(FIRST, 1, 1))], (0, 0), &[(0, 0)]);
    bench.shows(
        &read_all(DEVICE, 0, FIRST),
        &[plain(FIRST, 2, 2), plain(FIRST, 3, 3)],
    );
    bench.takes(plain(FIRST, 1, 5));
    let kept = [plain(FIRST, 2, 2), plain(FIRST, 3, 3), plain(FIRST, 1, 5)];
    bench.shows(&read_all(DEVICE, 0, FIRST), &kept);
    let image: Vec<u8> = kept.iter().flat_map(Entry::bytes).collect();
    assert_eq!(bench.agent.store_image(), image);
}

#[test]
fn the_store_is_in_order_of_insertion_over_all_tables() {
    let mut bench = Bench::configured(&[plain_row(FIRST, 0, 4), plain_row(SECOND, 0, 4)]);
    assert!(bench.agent.store_image().is_empty());
    bench.takes(plain(SECOND, 1, 1));
    bench.takes(plain(FIRST, 1, 1));
    bench.takes(plain(SECOND, 2, 2));
    let image = [
        plain(SECOND, 1, 1).bytes(),
        plain(FIRST, 1, 1).bytes(),
        plain(SECOND, 2, 2).bytes(),
    ];
    assert_eq!(bench.agent.store_image(), image.concat());
}

#[test]
fn a_table_holds_its_size() {
    let mut bench = Bench::configured(&[plain_row(FIRST, 0, 1), plain_row(SECOND, 0, 2)]);
    bench.takes(plain(SECOND, 1, 1));
    bench.takes(plain(FIRST, 1, 1));
    // Full, exists, has room: as 12.3 of the source has it.
    bench.answers(
        &write(
            primary(),
            0,
            &[
                Update::insert(plain(FIRST, 2, 1)),
                Update::insert(plain(SECOND, 2, 1)),
                Update::insert(plain(SECOND, 1, 1)),
            ],
        ),
        &unhex("1702 0003 1608 0000 1406"),
    );
    // A key that exists is 20 though the table is full.
    bench.fails(plain(FIRST, 1, 1), 20, 6);
    // A deleted entry is not charged against the size.
    bench.writes(
        &[
            Update::insert(plain(FIRST, 2, 1)),
            Update::delete(plain(FIRST, 1, 1)),
            Update::insert(plain(FIRST, 2, 1)),
            Update::insert(plain(FIRST, 1, 1)),
        ],
        (23, 2),
        &[(22, 8), (0, 0), (0, 0), (22, 8)],
    );
}

#[test]
fn later_updates_see_earlier_ones() {
    let mut bench = Bench::configured(&[plain_row(FIRST, 0, 4)]);
    bench.writes(
        &[
            Update::modify(plain(FIRST, 1, 1)),
            Update::insert(plain(FIRST, 1, 1)),
            Update::modify(plain(FIRST, 1, 2)),
            Update::delete(plain(FIRST, 1, 3)),
            Update::delete(plain(FIRST, 1, 4)),
            Update::insert(plain(FIRST, 1, 5)),
        ],
        (23, 2),
        &[(21, 5), (0, 0), (0, 0), (0, 0), (21, 5), (0, 0)],
    );
    bench.shows(&read_all(DEVICE, 0, FIRST), &[plain(FIRST, 1, 5)]);
}

#[test]
fn priorities_and_omissions_make_different_keys() {
    let mut bench = Bench::configured(&[one_row(kind::TERNARY, 8)]);
    bench.takes(entry(1, Slot::ternary(1, 1)));
    bench.takes(entry(2, Slot::ternary(1, 1)));
    bench.takes(entry(1, Slot::ternary(1, 3)));
    bench.takes(entry(1, Slot::ternary(0, 1)));
    bench.takes(entry(1, Slot::OMITTED));
    bench.fails(entry(1, Slot::OMITTED), 20, 6);
    // An optional zero is not an omitted one.
    let mut bench = Bench::configured(&[one_row(kind::OPTIONAL, 8)]);
    bench.takes(entry(1, Slot::optional(0)));
    bench.takes(entry(1, Slot::OMITTED));
    bench.fails(entry(1, Slot::optional(Value::string(&[0, 0]))), 20, 6);
}

#[test]
fn values_change_places_into_different_keys() {
    let fields = [(kind::EXACT, 8), (kind::EXACT, 8)];
    let row = Row::new(FIRST, 0, 4, &fields, &[Action::new(ACTION, &[])]);
    let of = |a: u128, b: u128| {
        let key = Key::new(0, &[Slot::exact(a), Slot::exact(b)]);
        Entry::new(FIRST, key, ACTION, &[])
    };
    let mut bench = Bench::configured(&[row]);
    bench.takes(of(1, 2));
    bench.takes(of(2, 1));
    bench.fails(of(1, 2), 20, 6);
}

#[test]
fn the_whole_store() {
    let mut bench = Bench::configured(&[plain_row(FIRST, 0, 200), plain_row(SECOND, 0, 56)]);
    let all: Vec<Entry> = (0..200)
        .map(|at| plain(FIRST, at, at))
        .chain((0..56).map(|at| plain(SECOND, at, at)))
        .collect();
    for batch in all.chunks(64) {
        let updates: Vec<Update> = batch.iter().copied().map(Update::insert).collect();
        bench.writes(&updates, (0, 0), &vec![(0, 0); updates.len()]);
    }
    let answer = bench.call(&read_all(DEVICE, 0, 0)).answer;
    assert_eq!(answer.len(), 56_324);
    bench.shows(&read_all(DEVICE, 0, 0), &all);
    assert_eq!(bench.agent.store_image().len(), 56_320);
    // The sizes add to 256: where the store is full, both tables are.
    bench.writes(
        &[
            Update::insert(plain(FIRST, 999, 0)),
            Update::insert(plain(SECOND, 999, 0)),
            Update::insert(plain(SECOND, 55, 0)),
            Update::delete(plain(FIRST, 100, 0)),
            Update::insert(plain(SECOND, 999, 0)),
            Update::insert(plain(FIRST, 999, 0)),
            Update::insert(plain(FIRST, 100, 0)),
        ],
        (23, 2),
        &[(22, 8), (22, 8), (20, 6), (0, 0), (22, 8), (0, 0), (22, 8)],
    );
}
