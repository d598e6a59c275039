//! CONFIGURE: the order 5, 6, 11, 10, 14, and each clause of 14.

use crate::support::*;
use reference::bytes::*;

#[test]
fn refusals_come_in_order() {
    let rows = [plain_row(TABLE, 0, 4)];
    let bad_rows = [plain_row(TABLE, 0, 0)];
    let mut bench = Bench::fresh();
    bench.refused(&configure(Head::set(2, 8, 5), &bad_rows), 5, 5);
    bench.refused(&configure(Head::set(DEVICE, 8, 5), &bad_rows), 6, 5);
    bench.refused(&configure(Head::set(DEVICE, 7, 5), &bad_rows), 11, 7);
    bench.refused(&configure(Head::set(DEVICE, 0, 5), &bad_rows), 10, 7);

    bench.ok(&open(0));
    bench.told(0, 0, 5, &[(0, 0)], Some(5));
    bench.refused(&configure(Head::unset(DEVICE, 0), &rows), 10, 7);
    bench.refused(&configure(Head::set(DEVICE, 0, 4), &rows), 10, 7);
    bench.refused(&configure(Head::set(DEVICE, 0, 6), &rows), 10, 7);
    bench.refused(&configure(Head::set(DEVICE, 0, 5), &bad_rows), 14, 3);
    bench.ok(&configure(Head::set(DEVICE, 0, 5), &rows));
}

#[test]
fn other_roles_may_not_configure_even_as_primary() {
    let mut bench = Bench::fresh();
    bench.ok(&open(0));
    bench.told(0, 1, 5, &[(0, 0)], Some(5));
    let rows = [plain_row(TABLE, 1, 4)];
    bench.refused(&configure(Head::set(DEVICE, 1, 5), &rows), 11, 7);
    bench.refused(&configure(Head::set(DEVICE, 1, 4), &rows), 11, 7);
}

#[test]
fn a_primary_that_left_may_not_configure() {
    let rows = [plain_row(TABLE, 0, 4)];
    let mut bench = Bench::fresh();
    bench.ok(&open(0));
    bench.told(0, 0, 5, &[(0, 0)], Some(5));
    bench.ok(&close(0));
    bench.refused(&configure(Head::set(DEVICE, 0, 5), &rows), 10, 7);
}

#[test]
fn a_new_configuration_empties_the_store_and_a_refused_one_does_not() {
    let rows = [plain_row(TABLE, 0, 4)];
    let mut bench = Bench::configured(&rows);
    bench.takes(plain(TABLE, 1, 2));
    bench.refused(&configure(primary(), &[plain_row(TABLE, 9, 4)]), 14, 3);
    bench.shows(&read_all(DEVICE, 0, 0), &[plain(TABLE, 1, 2)]);
    // The same rows again still empty it.
    bench.ok(&configure(primary(), &rows));
    bench.shows(&read_all(DEVICE, 0, 0), &[]);
    bench.takes(plain(TABLE, 1, 3));
    // Rows are replaced, not added.
    bench.ok(&configure(primary(), &[plain_row(TABLE + 1, 0, 4)]));
    bench.refused(&read_all(DEVICE, 0, TABLE), 15, 5);
    bench.shows(&read_all(DEVICE, 0, TABLE + 1), &[]);
}

#[test]
fn a_refused_first_configuration_is_none() {
    let mut bench = Bench::fresh();
    bench.ok(&open(0));
    bench.told(0, 0, 1, &[(0, 0)], Some(1));
    bench.refused(&configure(primary(), &[plain_row(TABLE, 0, 0)]), 14, 3);
    bench.refused(&read_all(DEVICE, 0, 0), 12, 9);
    bench.refused(&write(primary(), 0, &[]), 12, 9);
}

/// A row that uses every place but one of each sort.
fn full_row() -> Row {
    Row::new(
        0x0212_ab34,
        7,
        256,
        &[(kind::EXACT, 1), (kind::LPM, 128), (kind::OPTIONAL, 9)],
        &[
            Action::new(0x0100_0000, &[1, 128, 9, 9]),
            Action::new(0x01ff_ffff, &[]),
            Action::new(0x0112_ab34, &[8, 8]),
        ],
    )
}

#[track_caller]
fn accepted(rows: &[Row]) {
    Bench::configured(&[plain_row(TABLE, 0, 1)]).ok(&configure(primary(), rows));
}

#[track_caller]
fn wrong(rows: &[Row]) {
    Bench::configured(&[plain_row(TABLE, 0, 1)]).refused(&configure(primary(), rows), 14, 3);
}

/// A row as it should be, with one change, is 14.
#[track_caller]
fn spoiled(change: impl FnOnce(&mut Row)) {
    let mut row = full_row();
    accepted(&[row]);
    change(&mut row);
    wrong(&[row]);
}

#[test]
fn table_ids() {
    spoiled(|row| row.table = 0x0112_ab34);
    spoiled(|row| row.table = 0x0012_ab34);
    spoiled(|row| row.table = 0x0312_ab34);
    // The low 24 bits may be 0.
    accepted(&[Row {
        table: 0x0200_0000,
        ..full_row()
    }]);
    let rows = [plain_row(TABLE, 0, 1), plain_row(TABLE + 1, 0, 1)];
    accepted(&rows);
    wrong(&[rows[0], rows[1], rows[0]]);
    wrong(&[rows[0], plain_row(TABLE, 1, 2)]);
}

#[test]
fn owners_and_sizes() {
    spoiled(|row| row.owner = 8);
    spoiled(|row| row.size = 0);
    spoiled(|row| row.size = 257);
    let row = |at: u32, size| plain_row(TABLE + at, 0, size);
    accepted(&[row(0, 200), row(1, 56)]);
    wrong(&[row(0, 200), row(1, 57)]);
    // A sum that would wrap round in sixteen bits.
    wrong(&[row(0, 65_535), row(1, 1), row(2, 1)]);
    // Eight rows of 32.
    let eight: Vec<Row> = (0..8).map(|at| row(at, 32)).collect();
    accepted(&eight);
}

#[test]
fn fields() {
    spoiled(|row| row.field_count = 0);
    spoiled(|row| row.field_count = 5);
    spoiled(|row| row.fields[0].0 = 0);
    spoiled(|row| row.fields[0].0 = 6);
    spoiled(|row| row.fields[2].1 = 0);
    spoiled(|row| row.fields[2].1 = 129);
    // The place past the count.
    spoiled(|row| row.fields[3].0 = kind::EXACT);
    spoiled(|row| row.fields[3].1 = 1);
    // A field that the count leaves out, and a count that takes in an empty one.
    spoiled(|row| row.field_count = 2);
    spoiled(|row| row.field_count = 4);
    // No field at all.
    wrong(&[Row::new(TABLE, 0, 1, &[], &[Action::new(ACTION, &[])])]);
}

#[test]
fn actions() {
    spoiled(|row| row.action_count = 0);
    spoiled(|row| row.action_count = 5);
    spoiled(|row| row.actions[1].id = 0x02ff_ffff);
    spoiled(|row| row.actions[1].id = 0x00ff_ffff);
    spoiled(|row| row.actions[1].id = row.actions[0].id);
    spoiled(|row| row.actions[2].id = row.actions[0].id);
    spoiled(|row| row.actions[0].count = 5);
    spoiled(|row| row.actions[0].widths[0] = 0);
    spoiled(|row| row.actions[0].widths[3] = 129);
    // Widths past the parameter count.
    spoiled(|row| row.actions[0].count = 3);
    spoiled(|row| row.actions[1].widths[0] = 1);
    spoiled(|row| row.actions[2].widths[3] = 1);
    // A count that takes in an empty width.
    spoiled(|row| row.actions[2].count = 3);
    // The place past the action count.
    spoiled(|row| row.actions[3].id = 0x0100_0007);
    spoiled(|row| row.actions[3].count = 1);
    spoiled(|row| row.actions[3].widths[3] = 1);
    spoiled(|row| row.action_count = 2);
    spoiled(|row| row.action_count = 4);
    wrong(&[Row::new(TABLE, 0, 1, &[(kind::EXACT, 8)], &[])]);
}

#[test]
fn one_action_id_in_two_rows_with_other_widths() {
    let fields = [(kind::EXACT, 8)];
    let rows = [
        Row::new(TABLE, 0, 4, &fields, &[Action::new(ACTION, &[8])]),
        Row::new(TABLE + 1, 0, 4, &fields, &[Action::new(ACTION, &[4, 4])]),
    ];
    let mut bench = Bench::configured(&rows);
    let key = Key::new(0, &[Slot::exact(1)]);
    bench.takes(Entry::new(TABLE, key, ACTION, &[Value::of(0xff)]));
    bench.takes(Entry::new(TABLE + 1, key, ACTION, &[Value::of(0xf); 2]));
    bench.fails(Entry::new(TABLE + 1, key, ACTION, &[Value::of(1)]), 17, 3);
}
