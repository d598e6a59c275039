//! Ways for rows not to be allowed.

use reference::bytes::Row;

use crate::dice::Dice;

/// A way for rows not to be allowed (14).
pub struct RowsWay {
    pub name: &'static str,
    /// Spoils rows that are allowed; false where it does not apply to them.
    pub spoil: fn(&mut Dice, &mut Vec<Row>) -> bool,
}

const fn way(name: &'static str, spoil: fn(&mut Dice, &mut Vec<Row>) -> bool) -> RowsWay {
    RowsWay { name, spoil }
}

pub const ROWS_WAYS: &[RowsWay] = &[
    way("table id of another sort", |dice, rows| {
        let top = dice.pick(&[0x00, 0x01, 0x03, 0x12, 0x82]);
        let row = any_row(dice, rows);
        row.table = row.table & 0x00ff_ffff | top << 24;
        true
    }),
    way("table repeated", |dice, rows| {
        if rows.len() < 2 {
            return false;
        }
        let at = dice.between(1, rows.len() - 1);
        rows[at].table = rows[dice.below(at)].table;
        true
    }),
    way("owner over 7", |dice, rows| {
        let row = any_row(dice, rows);
        row.owner = dice.pick(&[8, 8, 9, 0x10 | row.owner, 0x80 | row.owner, 255]);
        true
    }),
    way("size 0", |dice, rows| {
        any_row(dice, rows).size = 0;
        true
    }),
    way("sizes adding to over 256", |dice, rows| {
        let sum: u16 = rows.iter().map(|row| row.size).sum();
        let over = dice.pick(&[1, 1, 1, 2, 0xfe00]);
        any_row(dice, rows).size += 256 - sum + over;
        true
    }),
    way("sizes adding to 65,536 and more", |_, rows| {
        let [first, .., last] = &mut rows[..] else {
            return false;
        };
        (first.size, last.size) = (0xffff, 1 + last.size);
        true
    }),
    way("field count 0", |dice, rows| {
        let row = any_row(dice, rows);
        row.field_count = 0;
        if dice.percent(50) {
            row.fields = [(0, 0); 4];
        }
        true
    }),
    way("field count over 4", |dice, rows| {
        any_row(dice, rows).field_count = dice.pick(&[5, 6, 0x81, 255]);
        true
    }),
    way("a field of no kind", |dice, rows| {
        any_field(dice, rows).0 = dice.pick(&[0, 6, 6, 7, 0x81, 255]);
        true
    }),
    way("a field of no width", |dice, rows| {
        any_field(dice, rows).1 = 0;
        true
    }),
    way("a field too wide", |dice, rows| {
        any_field(dice, rows).1 = dice.pick(&[129, 129, 130, 136, 255]);
        true
    }),
    way("an unused field", |dice, rows| {
        let row = any_row(dice, rows);
        let used = usize::from(row.field_count);
        if used == 4 {
            return false;
        }
        let field = &mut row.fields[dice.between(used, 3)];
        *field = dice.pick(&[(1, 0), (0, 1), (1, 8), (0, 128)]);
        true
    }),
    way("action count 0", |dice, rows| {
        let row = any_row(dice, rows);
        row.action_count = 0;
        if dice.percent(50) {
            row.actions = Default::default();
        }
        true
    }),
    way("action count over 4", |dice, rows| {
        any_row(dice, rows).action_count = dice.pick(&[5, 6, 129, 132, 255]);
        true
    }),
    way("action id of another sort", |dice, rows| {
        let top = dice.pick(&[0x00, 0x02, 0x03, 0x11, 0x81]);
        let row = any_row(dice, rows);
        let action = &mut row.actions[dice.below(usize::from(row.action_count))];
        action.id = action.id & 0x00ff_ffff | top << 24;
        true
    }),
    way("action repeated in its row", |dice, rows| {
        let row = any_row(dice, rows);
        if row.action_count < 2 {
            return false;
        }
        let at = dice.between(1, usize::from(row.action_count) - 1);
        row.actions[at].id = row.actions[dice.below(at)].id;
        true
    }),
    way("parameters over 4", |dice, rows| {
        let row = any_row(dice, rows);
        let action = &mut row.actions[dice.below(usize::from(row.action_count))];
        action.count = dice.pick(&[5, 6, 0x84, 255]);
        true
    }),
    way("a parameter of no width", |dice, rows| {
        parameter(dice, rows).map(|width| *width = 0).is_some()
    }),
    way("a parameter too wide", |dice, rows| {
        let wide = dice.pick(&[129, 129, 136, 255]);
        parameter(dice, rows).map(|width| *width = wide).is_some()
    }),
    way("an unused width", |dice, rows| {
        let row = any_row(dice, rows);
        let action = &mut row.actions[dice.below(usize::from(row.action_count))];
        let used = usize::from(action.count);
        if used == 4 {
            return false;
        }
        action.widths[dice.between(used, 3)] = dice.pick(&[1, 8, 128, 255]);
        true
    }),
    way("an unused action", |dice, rows| {
        let row = any_row(dice, rows);
        let used = usize::from(row.action_count);
        if used == 4 {
            return false;
        }
        let action = &mut row.actions[dice.between(used, 3)];
        match dice.below(3) {
            0 => action.id = 0x0100_0077,
            1 => action.count = 1,
            _ => action.widths[dice.below(4)] = 8,
        }
        true
    }),
];

fn any_row<'a>(dice: &mut Dice, rows: &'a mut [Row]) -> &'a mut Row {
    let at = dice.below(rows.len());
    &mut rows[at]
}

/// A field within its row's count.
fn any_field<'a>(dice: &mut Dice, rows: &'a mut [Row]) -> &'a mut (u8, u8) {
    let row = any_row(dice, rows);
    &mut row.fields[dice.below(usize::from(row.field_count))]
}

/// The width of a parameter within its action's count.
fn parameter<'a>(dice: &mut Dice, rows: &'a mut [Row]) -> Option<&'a mut u8> {
    let row = any_row(dice, rows);
    let action = &mut row.actions[dice.below(usize::from(row.action_count))];
    let at = dice.below(usize::from(action.count));
    (action.count > 0).then_some(&mut action.widths[at])
}
