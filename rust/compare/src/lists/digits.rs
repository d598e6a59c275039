//! The digits of values: shortest form, padding, and one value for another.
//!
//! A digit is a byte of a number. A value is padded by the leading zero bytes
//! that its shortest form does not have.

use reference::bytes::{Key, Value};

use crate::dice::Dice;

/// The bytes of the shortest form; none of a value that has no number.
pub fn digits(value: &Value) -> &[u8] {
    let given = value.bytes.get(..usize::from(value.length));
    let given = given.unwrap_or_default();
    let zeros = given.iter().take_while(|&&byte| byte == 0).count();
    &given[zeros.min(given.len().saturating_sub(1))..]
}

/// By how many bytes a value is padded.
pub fn padding(value: &Value) -> usize {
    match digits(value).len() {
        0 => 0,
        shortest => usize::from(value.length) - shortest,
    }
}

/// The number of a value of good form.
pub fn number(value: &Value) -> u128 {
    let digits = digits(value).iter();
    digits.fold(0, |number, &digit| number << 8 | u128::from(digit))
}

/// Puts so many zero bytes before a number; there must be room for them.
pub fn pad_by(value: &mut Value, bytes: usize) {
    value.bytes.rotate_right(bytes);
    value.length += bytes as u8;
}

/// How many zero bytes a value has room for; none where it has no number.
fn room(value: &Value) -> usize {
    match value.length {
        1..=16 => usize::from(16 - value.length),
        _ => 0,
    }
}

/// The values of a key that have room for padding.
fn apt(key: &mut Key) -> Vec<&mut Value> {
    let slots = key.slots.iter_mut();
    slots
        .flat_map(|slot| [&mut slot.first, &mut slot.second])
        .filter(|value| room(value) > 0)
        .collect()
}

/// Pads one value of a key, some or all of them, by any number of bytes.
pub fn pad_key(dice: &mut Dice, key: &mut Key) {
    let mut values = apt(key);
    let one = dice.below(values.len());
    let share = dice.pick(&[0, 50, 100]);
    for (at, value) in values.iter_mut().enumerate() {
        if at == one || dice.percent(share) {
            let bytes = dice.between(1, room(value));
            pad_by(value, bytes);
        }
    }
}

/// Moves the last digit of one value of a key to the start of the next; nothing
/// where that leaves no digit, or is not seen.
pub fn move_digit(dice: &mut Dice, key: &mut Key) {
    let slots = key.slots.iter_mut();
    let values = slots.flat_map(|slot| [&mut slot.first, &mut slot.second]);
    let mut present: Vec<&mut Value> = values.filter(|value| value.length > 0).collect();
    let at = dice.below(present.len().saturating_sub(1));
    if let Some([one, other]) = present.get_mut(at..at + 2) {
        let (from, to) = (number(one), number(other));
        let (digit, length) = (from & 0xff, digits(other).len());
        if from > 0xff && digit > 0 && length < 16 {
            **one = Value::of(from >> 8);
            **other = Value::of(to | digit << (8 * length));
        }
    }
}

/// The ways in which a number may be nearly another.
pub const WAYS: usize = 9;

/// A number that a wrong comparison may take for the one that is given, in one
/// of the ways; the number itself where it has too few digits for that.
pub fn nearly(dice: &mut Dice, way: usize, number: u128) -> u128 {
    let length = digits(&Value::of(number)).len();
    let byte = dice.between(1, 255) as u128;
    let word = dice.wide() >> (64 + 8 * dice.below(8));
    match way {
        // One digit is another: the first, one in the middle, the last.
        0 => number ^ byte << (8 * (length - 1)),
        1 if length > 2 => number ^ byte << (8 * dice.between(1, length - 2)),
        2 => number ^ byte,
        // A digit less or more at the end.
        3 if length > 1 => number >> 8,
        4 => number << 8 | dice.pick(&[0, 0, byte]),
        // A digit less or more at the start.
        5 if length > 1 => number & !(0xff << (8 * (length - 1))),
        6 if length < 16 => number | byte << (8 * length),
        // The same low word, or the same high one.
        7 => number ^ word << 64,
        8 if length > 8 => number ^ word,
        _ => number,
    }
}

#[cfg(test)]
mod tests {
    use super::*;

    #[test]
    fn digits_and_padding() {
        for (value, shortest, by) in [
            (Value::NONE, &[][..], 0),
            (Value::string(&[0]), &[0], 0),
            (Value::string(&[0, 0]), &[0], 1),
            (Value::string(&[0; 16]), &[0], 15),
            (Value::string(&[0x0a]), &[0x0a], 0),
            (Value::string(&[0, 0x0a]), &[0x0a], 1),
            (Value::string(&[0x0a, 0]), &[0x0a, 0], 0),
            (Value::string(&[0, 0, 0x0a, 0]), &[0x0a, 0], 2),
        ] {
            assert_eq!((digits(&value), padding(&value)), (shortest, by));
        }
        let too_long = Value {
            length: 17,
            bytes: [0; 16],
        };
        assert_eq!((digits(&too_long), padding(&too_long)), (&[][..], 0));
    }

    #[test]
    fn padded_values_are_the_same_numbers() {
        let mut dice = Dice::new(1);
        for shift in 0..128 {
            let number = dice.wide() >> shift;
            let value = Value::of(number);
            for bytes in 1..=room(&value) {
                let mut padded = value;
                pad_by(&mut padded, bytes);
                assert_eq!(padding(&padded), bytes);
                assert_eq!(digits(&padded), digits(&value));
                assert_eq!(super::number(&padded), number);
            }
        }
    }
}
