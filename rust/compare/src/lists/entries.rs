//! Rows and entries that are allowed, drawn so that they meet again.

use reference::bytes::{kind, Action, Entry, Key, Row, Slot, Value};

use super::digits::{self, pad_by};
use crate::dice::Dice;

/// Widths at and around the places where bytes and words end.
const WIDTHS: [u8; 18] = [
    1, 2, 7, 8, 9, 12, 15, 16, 17, 31, 32, 33, 48, 63, 64, 65, 127, 128,
];

/// How the numbers of entries are drawn.
#[derive(Clone, Copy, Debug, PartialEq, Eq)]
pub enum Spread {
    /// Few, so that keys are met again.
    Narrow,
    /// Many, so that tables fill up.
    Wide,
    /// Of any number of bytes, for keys that are nearly the same.
    Long,
}

/// The number with the lowest `width` bits set.
pub fn ones(width: u8) -> u128 {
    match width {
        0 => 0,
        1..=127 => (1 << width) - 1,
        _ => u128::MAX,
    }
}

/// A number below 2 to the width, often at one of its ends.
pub fn number(dice: &mut Dice, width: u8, spread: Spread) -> u128 {
    let top = ones(width);
    let weights = match spread {
        Spread::Narrow => [15, 15, 15, 10, 35, 10, 0],
        Spread::Wide => [2, 2, 2, 2, 2, 90, 0],
        Spread::Long => [5, 5, 5, 5, 15, 5, 60],
    };
    match dice.weighted(&weights) {
        0 => 0,
        1 => 1,
        2 => top,
        3 => top ^ (top >> 1),
        4 => dice.below(6) as u128 & top,
        5 => dice.wide() & top,
        _ => dice.wide() >> (8 * dice.below(16)) & top,
    }
}

/// A slot that its field allows, omitted now and then.
pub fn slot(dice: &mut Dice, (kind, width): (u8, u8), spread: Spread) -> Slot {
    if kind != kind::EXACT && dice.percent(12) {
        return Slot::OMITTED;
    }
    present_slot(dice, (kind, width), spread)
}

/// A slot that its field allows, not omitted.
pub fn present_slot(dice: &mut Dice, (kind, width): (u8, u8), spread: Spread) -> Slot {
    let value = number(dice, width, spread);
    match kind {
        kind::EXACT => Slot::exact(value),
        kind::LPM => {
            let prefix = match dice.below(4) {
                0 => 1,
                1 => width,
                _ => dice.between(1, usize::from(width)) as u8,
            };
            let below = ones(width - prefix);
            Slot::lpm(value & !below, u128::from(prefix))
        }
        kind::TERNARY => {
            let mask = number(dice, width, spread).max(1);
            Slot::ternary(value & mask, mask)
        }
        kind::RANGE => {
            let other = number(dice, width, spread);
            let (low, high) = (value.min(other), value.max(other));
            if (low, high) == (0, ones(width)) {
                return Slot::range(low, high - 1);
            }
            Slot::range(low, high)
        }
        _ => Slot::optional(value),
    }
}

/// Does the row allow a key with values of good form, in slots that are as it
/// has them?
pub fn allows(row: &Row, key: &Key) -> bool {
    let mut slots = fields(row).iter().zip(&key.slots);
    let priority = match is_prioritised(row) {
        true => 1..=i32::MAX as u32,
        false => 0..=0,
    };
    priority.contains(&key.priority) && slots.all(|(&field, slot)| allows_slot(field, slot))
}

fn allows_slot((kind, width): (u8, u8), slot: &Slot) -> bool {
    if slot.kind == kind::OMITTED {
        return kind != kind::EXACT;
    }
    let (top, first, second) = (
        ones(width),
        digits::number(&slot.first),
        digits::number(&slot.second),
    );
    first <= top
        && match kind {
            kind::LPM => {
                let allowed = 1..=u128::from(width);
                allowed.contains(&second) && first & ones(width - second as u8) == 0
            }
            kind::TERNARY => second != 0 && second <= top && first & !second == 0,
            kind::RANGE => first <= second && second <= top && (first, second) != (0, top),
            _ => true,
        }
}

/// Do the fields of the row ask for a priority?
pub fn is_prioritised(row: &Row) -> bool {
    fields(row).iter().any(|&(kind, _)| kind >= kind::TERNARY)
}

/// The fields within the row's count.
pub fn fields(row: &Row) -> &[(u8, u8)] {
    &row.fields[..usize::from(row.field_count).min(4)]
}

/// The actions within the row's count.
pub fn actions(row: &Row) -> &[Action] {
    &row.actions[..usize::from(row.action_count).min(4)]
}

/// The widths of an action's parameters.
pub fn widths(action: &Action) -> &[u8] {
    &action.widths[..usize::from(action.count).min(4)]
}

/// An entry that its row allows.
pub fn entry(dice: &mut Dice, row: &Row, spread: Spread) -> Entry {
    let slots: Vec<Slot> = fields(row)
        .iter()
        .map(|&field| slot(dice, field, spread))
        .collect();
    let priority = match (is_prioritised(row), spread) {
        (false, _) => 0,
        (true, Spread::Narrow | Spread::Long) => dice.pick(&[1, 1, 1, 2, 3, 0x7fff_ffff]),
        (true, Spread::Wide) => dice.between(1, 0x7fff_ffff) as u32,
    };
    let mut entry = Entry {
        table: row.table,
        key: Key::new(priority, &slots),
        ..Entry::default()
    };
    act(dice, row, &mut entry);
    entry
}

/// Gives the entry an action of its row, and parameters.
pub fn act(dice: &mut Dice, row: &Row, entry: &mut Entry) {
    let Some(action) = dice.choose(actions(row)) else {
        return;
    };
    entry.action = action.id;
    entry.params = [Value::NONE; 4];
    for (param, &width) in entry.params.iter_mut().zip(widths(action)) {
        *param = Value::of(number(dice, width, Spread::Narrow));
    }
}

/// Gives some values leading zeros, where they have room for them.
pub fn pad(dice: &mut Dice, entry: &mut Entry) {
    for slot in &mut entry.key.slots {
        pad_value(dice, &mut slot.first);
        pad_value(dice, &mut slot.second);
    }
    for param in &mut entry.params {
        pad_value(dice, param);
    }
}

fn pad_value(dice: &mut Dice, value: &mut Value) {
    let length = usize::from(value.length);
    if (1..16).contains(&length) && dice.percent(60) {
        let more = match dice.below(3) {
            0 => 1,
            1 => 16 - length,
            _ => dice.between(1, 16 - length),
        };
        pad_by(value, more);
    }
}

/// How the sizes of tables are drawn.
#[derive(Clone, Copy, Debug, PartialEq, Eq)]
pub enum Sizes {
    /// One to three entries each.
    Tiny,
    /// Anything that adds to no more than 256.
    Any,
    /// Exactly 256 together.
    Full,
}

/// Rows that are allowed, of tables that are often the same.
pub fn rows(dice: &mut Dice, sizes: Sizes, owners: &[u8]) -> Vec<Row> {
    let count = dice.pick(&[1, 1, 2, 2, 3, 4, 6, 8]);
    let mut tables: Vec<u32> = (1..=9).map(|low| 0x0200_0000 + low).collect();
    tables.extend([0x0200_0000, 0x02ff_ffff, 0x0212_ab34]);
    dice.shuffle(&mut tables);
    let drawn = draw_sizes(dice, sizes, count);
    let mut rows: Vec<Row> = Vec::new();
    for (table, size) in tables.into_iter().zip(drawn) {
        let mut row = row(dice, table, size, owners);
        // A table that is to be filled needs keys enough.
        if sizes == Sizes::Full {
            row.fields[0].1 = row.fields[0].1.max(16);
        }
        // Keys of two tables are the same only where their fields allow it.
        if let (Some(before), true) = (rows.last(), dice.percent(25)) {
            (row.field_count, row.fields) = (before.field_count, before.fields);
        }
        rows.push(row);
    }
    rows
}

fn draw_sizes(dice: &mut Dice, sizes: Sizes, count: usize) -> Vec<u16> {
    match sizes {
        Sizes::Tiny => (0..count).map(|_| dice.between(1, 3) as u16).collect(),
        Sizes::Any => {
            let share = 256 / count;
            (0..count)
                .map(|_| match dice.below(3) {
                    0 => 1,
                    1 => dice.between(1, 8.min(share)) as u16,
                    _ => dice.between(1, share) as u16,
                })
                .collect()
        }
        Sizes::Full => {
            let mut left = 256;
            let mut all = Vec::new();
            for after in (0..count).rev() {
                let size = if after == 0 {
                    left
                } else {
                    dice.between(1, left - after)
                };
                all.push(size as u16);
                left -= size;
            }
            all
        }
    }
}

fn row(dice: &mut Dice, table: u32, size: u16, owners: &[u8]) -> Row {
    let fields: Vec<(u8, u8)> = (0..dice.between(1, 4))
        .map(|_| (dice.between(1, 5) as u8, dice.pick(&WIDTHS)))
        .collect();
    let mut ids: Vec<u32> = vec![0x0100_0000, 0x0100_0001, 0x0100_0002, 0x0112_ab34];
    ids.push(0x01ff_ffff);
    dice.shuffle(&mut ids);
    let actions: Vec<Action> = ids[..dice.between(1, 4)]
        .iter()
        .map(|&id| {
            let widths: Vec<u8> = (0..dice.below(5)).map(|_| dice.pick(&WIDTHS)).collect();
            Action::new(id, &widths)
        })
        .collect();
    Row::new(table, dice.pick(owners), size, &fields, &actions)
}
