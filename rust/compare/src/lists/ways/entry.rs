//! Ways for an entry, or the key of a READ, not to be allowed by its row.

use reference::bytes::{kind, Entry, Key, Row, Slot, Value};

use crate::dice::Dice;
use crate::lists::entries::{
    actions, fields, is_prioritised, number, ones, present_slot, widths, Spread,
};

/// A way for an entry not to be allowed by its row (17, 18, 19).
pub struct EntryWay {
    pub name: &'static str,
    pub reason: u8,
    change: Change,
}

/// Kind and width of a field.
type Field = (u8, u8);

/// What is done to an entry that is allowed.
enum Change {
    /// To the slot of a field that is apt for it; the slot is present.
    Slot(fn(Field) -> bool, fn(&mut Dice, Field, &mut Slot)),
    /// To a parameter whose width is apt for it.
    Param(fn(u8) -> bool, fn(&mut Dice, u8, &mut Value)),
    /// To the key; false where it does not apply.
    Key(fn(&mut Dice, &Row, &mut Key) -> bool),
    /// To action and parameters; false where it does not apply.
    Deed(fn(&mut Dice, &Row, &mut Entry) -> bool),
}

impl EntryWay {
    /// Is it about the key, so that a DELETE or a READ can go wrong in the same
    /// way?
    pub fn is_of_key(&self) -> bool {
        matches!(self.change, Change::Slot(..) | Change::Key(_))
    }

    /// The entry with its rule broken, where the way applies to it.
    pub fn spoil(&self, dice: &mut Dice, row: &Row, entry: &Entry) -> Option<Entry> {
        let mut entry = *entry;
        let applies = match self.change {
            Change::Slot(apt, spoil) => change_slot(dice, row, &mut entry.key, apt, spoil),
            Change::Param(apt, spoil) => change_param(dice, row, &mut entry, apt, spoil),
            Change::Key(spoil) => spoil(dice, row, &mut entry.key),
            Change::Deed(spoil) => spoil(dice, row, &mut entry),
        };
        applies.then_some(entry)
    }
}

fn change_slot(
    dice: &mut Dice,
    row: &Row,
    key: &mut Key,
    apt: fn(Field) -> bool,
    spoil: fn(&mut Dice, Field, &mut Slot),
) -> bool {
    let places: Vec<usize> = (0..fields(row).len())
        .filter(|&at| apt(row.fields[at]))
        .collect();
    let Some(&at) = dice.choose(&places) else {
        return false;
    };
    let (field, slot) = (row.fields[at], &mut key.slots[at]);
    if *slot == Slot::OMITTED {
        *slot = present_slot(dice, field, Spread::Narrow);
    }
    spoil(dice, field, slot);
    true
}

fn change_param(
    dice: &mut Dice,
    row: &Row,
    entry: &mut Entry,
    apt: fn(u8) -> bool,
    spoil: fn(&mut Dice, u8, &mut Value),
) -> bool {
    let widths = param_widths(row, entry);
    let at = dice.below(widths.len());
    match widths.get(at) {
        Some(&width) if apt(width) => {
            spoil(dice, width, &mut entry.params[at]);
            true
        }
        _ => false,
    }
}

/// The widths of the parameters of the entry's action.
fn param_widths<'a>(row: &'a Row, entry: &Entry) -> &'a [u8] {
    actions(row)
        .iter()
        .find(|action| action.id == entry.action)
        .map_or(&[], widths)
}

const fn slot(
    name: &'static str,
    reason: u8,
    apt: fn(Field) -> bool,
    spoil: fn(&mut Dice, Field, &mut Slot),
) -> EntryWay {
    EntryWay {
        name,
        reason,
        change: Change::Slot(apt, spoil),
    }
}

const fn param(
    name: &'static str,
    reason: u8,
    apt: fn(u8) -> bool,
    spoil: fn(&mut Dice, u8, &mut Value),
) -> EntryWay {
    EntryWay {
        name,
        reason,
        change: Change::Param(apt, spoil),
    }
}

const fn key(
    name: &'static str,
    reason: u8,
    spoil: fn(&mut Dice, &Row, &mut Key) -> bool,
) -> EntryWay {
    EntryWay {
        name,
        reason,
        change: Change::Key(spoil),
    }
}

const fn deed(
    name: &'static str,
    reason: u8,
    spoil: fn(&mut Dice, &Row, &mut Entry) -> bool,
) -> EntryWay {
    EntryWay {
        name,
        reason,
        change: Change::Deed(spoil),
    }
}

pub const ENTRY_WAYS: &[EntryWay] = &[
    // 17 of the key.
    slot(
        "a slot of another kind",
        17,
        any,
        |dice, (kind, _), slot| {
            slot.kind = 1 + (kind - 1 + dice.between(1, 4) as u8) % 5;
        },
    ),
    slot("a slot of no kind", 17, any, |dice, (kind, _), slot| {
        slot.kind = dice.pick(&[6, 7, 0x80 | kind, 255]);
    }),
    slot("an exact field omitted", 17, exact, |_, _, slot| {
        *slot = Slot::OMITTED;
    }),
    slot(
        "an omitted slot not empty",
        17,
        omissible,
        |dice, _, slot| {
            if dice.percent(50) {
                *slot = stray(dice);
            } else {
                slot.kind = 0;
            }
        },
    ),
    key("an unused slot not empty", 17, |dice, row, key| {
        let used = fields(row).len();
        if used == 4 {
            return false;
        }
        let kind = dice.pick(&[1, 2, 255]);
        key.slots[dice.between(used, 3)] = match dice.below(3) {
            0 => stray(dice),
            1 => Slot {
                kind,
                ..Slot::OMITTED
            },
            _ => Slot::exact(1),
        };
        true
    }),
    slot("a value of length 0", 17, any, |dice, _, slot| {
        slot.first = nothing(dice);
    }),
    slot("a second value of length 0", 17, paired, |dice, _, slot| {
        slot.second = nothing(dice);
    }),
    slot("a value of length over 16", 17, any, |dice, field, slot| {
        either_value(dice, field, slot).length = too_long(dice);
    }),
    slot("bytes after a number", 17, any, |dice, field, slot| {
        let value = either_value(dice, field, slot);
        dirty(dice, value);
    }),
    slot(
        "a second value of an exact slot",
        17,
        exact,
        |dice, _, slot| {
            slot.second = unexpected(dice);
        },
    ),
    slot(
        "a second value of an optional slot",
        17,
        optional,
        |dice, _, slot| {
            slot.second = unexpected(dice);
        },
    ),
    // 17 of action and parameters.
    deed("an action that is not the row's", 17, |dice, row, entry| {
        let (first, second) = (0x0100_0000, 0x0112_ab34);
        entry.action = dice.pick(&[0, first, first + 1, first + 2, second, row.table]);
        actions(row).iter().all(|action| action.id != entry.action)
    }),
    param(
        "a parameter of length 0",
        17,
        of_any_width,
        |dice, _, param| {
            *param = nothing(dice);
        },
    ),
    param(
        "a parameter of length over 16",
        17,
        of_any_width,
        |dice, _, param| {
            param.length = too_long(dice);
        },
    ),
    param(
        "bytes after a parameter",
        17,
        of_any_width,
        |dice, _, param| {
            dirty(dice, param);
        },
    ),
    deed("an unused parameter", 17, |dice, row, entry| {
        let used = param_widths(row, entry).len();
        if used == 4 {
            return false;
        }
        entry.params[dice.between(used, 3)] = unexpected(dice);
        true
    }),
    deed("72 zero bytes after the key", 17, |_, _, entry| {
        (entry.action, entry.params) = (0, [Value::NONE; 4]);
        true
    }),
    deed("72 bytes FF after the key", 17, |_, _, entry| {
        let (length, bytes) = (0xff, [0xff; 16]);
        (entry.action, entry.params) = (u32::MAX, [Value { length, bytes }; 4]);
        true
    }),
    deed("72 random bytes after the key", 17, |dice, row, entry| {
        entry.action = dice.next() as u32;
        entry.params = entry.params.map(|_| Value {
            length: dice.next() as u8,
            bytes: dice.wide().to_be_bytes(),
        });
        actions(row).iter().all(|action| action.id != entry.action)
    }),
    // 18.
    slot(
        "a value too wide",
        18,
        narrow_single,
        |dice, (_, width), slot| {
            slot.first = too_wide(dice, width);
        },
    ),
    slot(
        "a ternary value too wide",
        18,
        narrow_ternary,
        |dice, (_, width), slot| {
            slot.first = too_wide(dice, width);
            if dice.percent(50) {
                slot.second = slot.first;
            }
        },
    ),
    slot(
        "a mask too wide",
        18,
        narrow_ternary,
        |dice, (_, width), slot| {
            slot.second = too_wide(dice, width);
        },
    ),
    slot(
        "a low bound too wide",
        18,
        narrow_range,
        |dice, (_, width), slot| {
            slot.first = too_wide(dice, width);
        },
    ),
    slot(
        "a high bound too wide",
        18,
        narrow_range,
        |dice, (_, width), slot| {
            slot.second = too_wide(dice, width);
        },
    ),
    param(
        "a parameter too wide",
        18,
        is_narrow,
        |dice, width, param| {
            *param = too_wide(dice, width);
        },
    ),
    // 19.
    slot("prefix length 0", 19, lpm, |dice, (_, width), slot| {
        let value = number(dice, width, Spread::Narrow);
        *slot = Slot::lpm(dice.pick(&[0, 0, value]), 0);
    }),
    slot(
        "prefix length over the width",
        19,
        lpm,
        |dice, (_, width), slot| {
            let width = u128::from(width);
            let good = 1 + dice.wide() % width;
            slot.second = Value::of(dice.pick(&[
                width + 1,
                width + 1,
                255,
                256 + good,
                (1 << 64) + good,
                (1 << 127) + good,
                u128::MAX,
            ]));
        },
    ),
    slot(
        "a bit below the prefix",
        19,
        lpm_of_two,
        |dice, (_, width), slot| {
            let prefix = dice.between(1, usize::from(width) - 1) as u8;
            let below = width - prefix;
            let high = number(dice, width, Spread::Narrow) & !ones(below);
            *slot = Slot::lpm(high | any_bit(dice, below), u128::from(prefix));
        },
    ),
    slot("mask 0", 19, ternary, |dice, (_, width), slot| {
        let value = number(dice, width, Spread::Narrow);
        *slot = Slot::ternary(dice.pick(&[0, 0, value]), 0);
    }),
    slot(
        "a value outside its mask",
        19,
        ternary_of_two,
        |dice, (_, width), slot| {
            let bit = any_bit(dice, width);
            let mask = match number(dice, width, Spread::Narrow) & !bit {
                0 => ones(width) & !bit,
                mask => mask,
            };
            let within = number(dice, width, Spread::Narrow) & mask;
            *slot = Slot::ternary(within | bit, mask);
        },
    ),
    slot("low over high", 19, range, |dice, (_, width), slot| {
        let top = ones(width);
        let high = number(dice, width, Spread::Narrow).min(top - 1);
        let anywhere = high + 1 + dice.wide() % (top - high);
        *slot = Slot::range(dice.pick(&[high + 1, top, anywhere]), high);
    }),
    slot("the whole range", 19, range, |_, (_, width), slot| {
        *slot = Slot::range(0, ones(width));
    }),
    key("priority missing", 19, |_, row, key| {
        key.priority = 0;
        is_prioritised(row)
    }),
    key("priority over 2,147,483,647", 19, |dice, row, key| {
        let over = 1 << 31;
        key.priority = dice.pick(&[over, over + 1, u32::MAX, over | key.priority]);
        is_prioritised(row)
    }),
    key("priority where none is due", 19, |dice, row, key| {
        key.priority = dice.pick(&[1, 11, 1 << 24, i32::MAX as u32, 1 << 31]);
        !is_prioritised(row)
    }),
];

// What fields are apt for.

fn any(_: Field) -> bool {
    true
}

fn exact((kind, _): Field) -> bool {
    kind == kind::EXACT
}

fn omissible(field: Field) -> bool {
    !exact(field)
}

fn lpm((kind, _): Field) -> bool {
    kind == kind::LPM
}

fn lpm_of_two(field: Field) -> bool {
    lpm(field) && field.1 > 1
}

fn ternary((kind, _): Field) -> bool {
    kind == kind::TERNARY
}

fn ternary_of_two(field: Field) -> bool {
    ternary(field) && field.1 > 1
}

fn range((kind, _): Field) -> bool {
    kind == kind::RANGE
}

fn optional((kind, _): Field) -> bool {
    kind == kind::OPTIONAL
}

/// Both values of its slots are due.
fn paired(field: Field) -> bool {
    lpm(field) || ternary(field) || range(field)
}

/// A number can be too wide for it, and the first value is the only such.
fn narrow_single(field: Field) -> bool {
    is_narrow(field.1) && !ternary(field) && !range(field)
}

fn narrow_ternary(field: Field) -> bool {
    is_narrow(field.1) && ternary(field)
}

fn narrow_range(field: Field) -> bool {
    is_narrow(field.1) && range(field)
}

fn is_narrow(width: u8) -> bool {
    width < 128
}

fn of_any_width(_: u8) -> bool {
    true
}

// What is put in.

/// One of the values that are due in a slot.
fn either_value<'a>(dice: &mut Dice, field: Field, slot: &'a mut Slot) -> &'a mut Value {
    if paired(field) && dice.percent(50) {
        &mut slot.second
    } else {
        &mut slot.first
    }
}

/// A slot of kind 0 with something in it.
fn stray(dice: &mut Dice) -> Slot {
    let mut slot = Slot::OMITTED;
    if dice.percent(50) {
        slot.first = unexpected(dice);
    } else {
        slot.second = unexpected(dice);
    }
    slot
}

/// A value where none belongs.
fn unexpected(dice: &mut Dice) -> Value {
    match dice.below(4) {
        0 => Value::of(0),
        1 => Value::of(1),
        _ => {
            let mut value = Value::NONE;
            value.bytes[dice.pick(&[0, 0, 7, 8, 15, 15])] = 1 << dice.below(8);
            value
        }
    }
}

/// A value of length 0, not always empty.
fn nothing(dice: &mut Dice) -> Value {
    let mut value = Value::NONE;
    if dice.percent(40) {
        value.bytes[dice.below(16)] = 1;
    }
    value
}

/// A length that no value has.
fn too_long(dice: &mut Dice) -> u8 {
    dice.pick(&[17, 17, 18, 0x81, 255])
}

/// Sets a byte after the number; a number of sixteen bytes is cut first.
fn dirty(dice: &mut Dice, value: &mut Value) {
    if value.length > 15 {
        *value = Value::string(&value.bytes[..15]);
    }
    let length = usize::from(value.length);
    let anywhere = dice.between(length, 15);
    value.bytes[dice.pick(&[length, 15, anywhere])] = dice.pick(&[1, 0x80, 0xff]);
}

/// A number of at least 2 to the width, which is below 128.
fn too_wide(dice: &mut Dice, width: u8) -> Value {
    let over = 1u128 << width;
    let below = number(dice, width, Spread::Narrow);
    Value::of(dice.pick(&[over, over, over | below, 1 << 127 | below, u128::MAX]))
}

/// A bit of a number of so many, often the lowest or the highest.
fn any_bit(dice: &mut Dice, width: u8) -> u128 {
    let anywhere = dice.below(usize::from(width)) as u8;
    1 << dice.pick(&[0, width - 1, anywhere])
}
