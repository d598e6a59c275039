//! Entries: the form (17), the widths (18) and the rules of the kinds (19).
//!
//! The three are judged over a whole update one after the other, so each is a
//! pass of its own. The first pass turns raw bytes into numbers; from there on
//! padding is gone and equal numbers are equal. An INSERT or a MODIFY is judged
//! as a whole ([`judge`]), of a DELETE and of a READ the key ([`Key::judge`]).

use crate::frame::{is_zero, KEY};
use crate::reason::Reason;
use crate::rows::{Field, Kind, Row, PLACES};

/// Bytes of an entry: table 4, key, action 4, four values.
pub const ENTRY: usize = 220;
/// Where the action stands in an entry; its parameters follow.
const ACTION_AT: usize = 4 + KEY;
/// Where the parameters stand in an entry.
const PARAMS_AT: usize = ACTION_AT + 4;
/// Bytes of a slot: kind 1, two values.
const SLOT: usize = 1 + 2 * VALUE;
/// Bytes of a value: length 1, then room for a number.
const VALUE: usize = 1 + NUMBER;
/// Bytes of the longest number.
const NUMBER: usize = 16;

/// The highest priority.
const TOP_PRIORITY: u32 = 2_147_483_647;

/// One slot of a key, as numbers.
#[derive(Clone, Copy, Debug, PartialEq, Eq, Hash)]
pub enum Match {
    /// Omitted, or past the row's fields.
    Nothing,
    Exact(u128),
    Lpm {
        value: u128,
        prefix: u128,
    },
    Ternary {
        value: u128,
        mask: u128,
    },
    Range {
        low: u128,
        high: u128,
    },
    Optional(u128),
}

/// A key within its table.
#[derive(Clone, Copy, Debug, PartialEq, Eq, Hash)]
pub struct Key {
    pub priority: u32,
    pub slots: [Match; PLACES],
}

/// What an entry does: an action of the row and its parameters, `None` past
/// their count.
#[derive(Clone, Copy, Debug, PartialEq, Eq)]
pub struct Deed {
    pub action: u32,
    pub params: [Option<u128>; PLACES],
}

impl Key {
    /// Reads a key by its row; 17 is the only refusal.
    pub fn read(row: &Row, bytes: &[u8; KEY]) -> Result<Key, Reason> {
        let (priority, slots_bytes) = bytes.split_at(4);
        let mut slots = [Match::Nothing; PLACES];
        for (at, bytes) in slots_bytes.chunks_exact(SLOT).enumerate() {
            slots[at] = read_slot(row.fields.get(at), bytes)?;
        }
        Ok(Key {
            priority: read_u32(priority),
            slots,
        })
    }

    /// 18: every value but a prefix length is below 2 to its field's width.
    pub fn check_widths(&self, row: &Row) -> Result<(), Reason> {
        for (field, slot) in row.fields.iter().zip(&self.slots) {
            slot.check_width(field.width)?;
        }
        Ok(())
    }

    /// 19: the rules of the kinds and of the priority.
    pub fn check_rules(&self, row: &Row) -> Result<(), Reason> {
        for (field, slot) in row.fields.iter().zip(&self.slots) {
            slot.check_rule(field.width)?;
        }
        check_priority(row, self.priority)
    }

    /// 17, 18 and 19 on a key alone, as in a READ and in a DELETE.
    pub fn judge(row: &Row, bytes: &[u8; KEY]) -> Result<Key, Reason> {
        let key = Key::read(row, bytes)?;
        key.check_widths(row)?;
        key.check_rules(row)?;
        Ok(key)
    }

    fn write(&self, out: &mut [u8]) {
        let (priority, slots) = out.split_at_mut(4);
        priority.copy_from_slice(&self.priority.to_be_bytes());
        for (slot, out) in self.slots.iter().zip(slots.chunks_exact_mut(SLOT)) {
            slot.write(out);
        }
    }
}

impl Deed {
    /// Reads action and parameters by their row; 17 is the only refusal.
    fn read(row: &Row, action: &[u8], params_bytes: &[u8]) -> Result<Deed, Reason> {
        let action = row.action(read_u32(action)).ok_or(Reason::BadForm)?;
        let mut params = [None; PLACES];
        for (at, bytes) in params_bytes.chunks_exact(VALUE).enumerate() {
            if at < action.widths.len() {
                params[at] = Some(read_value(bytes)?);
            } else {
                unused(bytes)?;
            }
        }
        Ok(Deed {
            action: action.id,
            params,
        })
    }

    /// 18: every parameter is below 2 to its width.
    fn check_widths(&self, row: &Row) -> Result<(), Reason> {
        let widths = row.action(self.action).map_or(&[][..], |a| &a.widths);
        for (&width, param) in widths.iter().zip(self.params.iter().flatten()) {
            check_width(*param, width)?;
        }
        Ok(())
    }

    fn write(&self, out: &mut [u8]) {
        let (action, params) = out.split_at_mut(4);
        action.copy_from_slice(&self.action.to_be_bytes());
        for (param, out) in self.params.iter().zip(params.chunks_exact_mut(VALUE)) {
            write_value(*param, out);
        }
    }
}

/// 17, then 18, then 19 over the whole of an entry, as in an INSERT and in a
/// MODIFY.
pub fn judge(row: &Row, bytes: &[u8; ENTRY]) -> Result<(Key, Deed), Reason> {
    let key = Key::read(row, key_of(bytes))?;
    let deed = Deed::read(row, &bytes[ACTION_AT..PARAMS_AT], &bytes[PARAMS_AT..])?;
    key.check_widths(row)?;
    deed.check_widths(row)?;
    key.check_rules(row)?;
    Ok((key, deed))
}

/// The table an entry names.
pub fn table_of(bytes: &[u8; ENTRY]) -> u32 {
    read_u32(&bytes[..4])
}

/// The bytes of an entry's key.
pub fn key_of(bytes: &[u8; ENTRY]) -> &[u8; KEY] {
    bytes[4..].first_chunk().expect("a key follows the table")
}

/// An entry in shortest form.
pub fn image(table: u32, key: &Key, deed: &Deed) -> [u8; ENTRY] {
    let mut image = [0; ENTRY];
    image[..4].copy_from_slice(&table.to_be_bytes());
    key.write(&mut image[4..ACTION_AT]);
    deed.write(&mut image[ACTION_AT..]);
    image
}

/// Replaces action and parameters in an entry's image.
pub fn replace_deed(image: &mut [u8; ENTRY], deed: &Deed) {
    deed.write(&mut image[ACTION_AT..]);
}

/// A slot of a field, or of none past the row's fields.
fn read_slot(field: Option<&Field>, bytes: &[u8]) -> Result<Match, Reason> {
    let Some(field) = field else {
        return unused(bytes).map(|()| Match::Nothing);
    };
    match bytes[0] {
        0 if may_be_omitted(field.kind) => unused(bytes).map(|()| Match::Nothing),
        kind if kind == field.kind as u8 => read_match(field.kind, &bytes[1..]),
        _ => Err(Reason::BadForm),
    }
}

fn may_be_omitted(kind: Kind) -> bool {
    kind != Kind::Exact
}

/// The two values of a slot that is present.
fn read_match(kind: Kind, bytes: &[u8]) -> Result<Match, Reason> {
    let (first, second) = bytes.split_at(VALUE);
    let value = read_value(first)?;
    Ok(match kind {
        Kind::Exact => {
            unused(second)?;
            Match::Exact(value)
        }
        Kind::Optional => {
            unused(second)?;
            Match::Optional(value)
        }
        Kind::Lpm => Match::Lpm {
            value,
            prefix: read_value(second)?,
        },
        Kind::Ternary => Match::Ternary {
            value,
            mask: read_value(second)?,
        },
        Kind::Range => Match::Range {
            low: value,
            high: read_value(second)?,
        },
    })
}

impl Match {
    /// A prefix length has no width of its own.
    fn check_width(&self, width: u8) -> Result<(), Reason> {
        match *self {
            Match::Nothing => Ok(()),
            Match::Exact(value) | Match::Optional(value) => check_width(value, width),
            Match::Lpm { value, prefix: _ } => check_width(value, width),
            Match::Ternary { value, mask } => {
                check_width(value, width)?;
                check_width(mask, width)
            }
            Match::Range { low, high } => {
                check_width(low, width)?;
                check_width(high, width)
            }
        }
    }

    /// The rule of the kind, for values that fit the width.
    fn check_rule(&self, width: u8) -> Result<(), Reason> {
        let kept = match *self {
            Match::Nothing | Match::Exact(_) | Match::Optional(_) => true,
            Match::Lpm { value, prefix } => lpm_rule(value, prefix, width),
            Match::Ternary { value, mask } => ternary_rule(value, mask),
            Match::Range { low, high } => range_rule(low, high, width),
        };
        if kept {
            Ok(())
        } else {
            Err(Reason::RuleBroken)
        }
    }

    /// An omitted slot and an unused second value stay all zero.
    fn write(&self, out: &mut [u8]) {
        let (kind, first, second) = match *self {
            Match::Nothing => (0, None, None),
            Match::Exact(value) => (Kind::Exact as u8, Some(value), None),
            Match::Lpm { value, prefix } => (Kind::Lpm as u8, Some(value), Some(prefix)),
            Match::Ternary { value, mask } => (Kind::Ternary as u8, Some(value), Some(mask)),
            Match::Range { low, high } => (Kind::Range as u8, Some(low), Some(high)),
            Match::Optional(value) => (Kind::Optional as u8, Some(value), None),
        };
        out[0] = kind;
        write_value(first, &mut out[1..=VALUE]);
        write_value(second, &mut out[1 + VALUE..]);
    }
}

/// The prefix is 1 to the width; bits below it are 0.
fn lpm_rule(value: u128, prefix: u128, width: u8) -> bool {
    (1..=u128::from(width)).contains(&prefix) && {
        let below = u32::from(width) - prefix as u32;
        value & low_bits(below) == 0
    }
}

/// The mask is not 0; no bit of the value lies outside it.
fn ternary_rule(value: u128, mask: u128) -> bool {
    mask != 0 && value & !mask == 0
}

/// The bounds are in order and are not the whole range.
fn range_rule(low: u128, high: u128, width: u8) -> bool {
    low <= high && !(low == 0 && high == low_bits(u32::from(width)))
}

/// The row's fields decide whether a priority is due, whatever is omitted.
fn check_priority(row: &Row, priority: u32) -> Result<(), Reason> {
    let kept = if row.prioritised {
        (1..=TOP_PRIORITY).contains(&priority)
    } else {
        priority == 0
    };
    if kept {
        Ok(())
    } else {
        Err(Reason::RuleBroken)
    }
}

fn check_width(value: u128, width: u8) -> Result<(), Reason> {
    if value <= low_bits(u32::from(width)) {
        Ok(())
    } else {
        Err(Reason::TooWide)
    }
}

/// A number with the lowest `count` bits set, for counts up to 128.
fn low_bits(count: u32) -> u128 {
    match count {
        0 => 0,
        _ => u128::MAX >> (128 - count),
    }
}

/// A value that is due: a length of 1 to 16, the number, zero after it.
fn read_value(bytes: &[u8]) -> Result<u128, Reason> {
    let length = u32::from(bytes[0]);
    if !(1..=NUMBER as u32).contains(&length) {
        return Err(Reason::BadForm);
    }
    let number: [u8; NUMBER] = *bytes[1..]
        .first_chunk()
        .expect("sixteen bytes follow the length");
    let placed = u128::from_be_bytes(number);
    let padding = 8 * (NUMBER as u32 - length);
    if placed & low_bits(padding) != 0 {
        return Err(Reason::BadForm);
    }
    Ok(placed >> padding)
}

/// Shortest form: no leading zero byte, but at least one byte. No value is 17
/// zero bytes.
fn write_value(value: Option<u128>, out: &mut [u8]) {
    let Some(value) = value else {
        out.fill(0);
        return;
    };
    let length = (NUMBER as u32 - value.leading_zeros() / 8).max(1);
    let padding = 8 * (NUMBER as u32 - length);
    out[0] = length as u8;
    out[1..].copy_from_slice(&(value << padding).to_be_bytes());
}

/// 17: an unused part is all zero.
fn unused(bytes: &[u8]) -> Result<(), Reason> {
    if is_zero(bytes) {
        Ok(())
    } else {
        Err(Reason::BadForm)
    }
}

fn read_u32(bytes: &[u8]) -> u32 {
    bytes
        .first_chunk()
        .map_or(0, |bytes| u32::from_be_bytes(*bytes))
}
