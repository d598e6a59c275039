//! How values and ids are written, and how the trace writes them again.

use std::collections::HashMap;
use std::fmt::Write;

use savorylatch::wire::Value;

/// A way to write a value.
#[derive(Clone, Copy, Debug, PartialEq, Eq)]
pub enum Notation {
    Decimal,
    Hex,
    Mac,
    Ipv4,
}

/// A place where values stand, by table: a field's first or second value, or a parameter.
#[derive(Clone, Copy, Debug, PartialEq, Eq, Hash)]
pub enum Spot {
    First { table: u32, field: usize },
    Second { table: u32, field: usize },
    Parameter { table: u32, action: u32, at: usize },
}

/// How the script first wrote each place, and each id.
#[derive(Clone, Debug, Default)]
pub struct Notations {
    spots: HashMap<Spot, Notation>,
    ids: HashMap<u128, Notation>,
}

impl Notations {
    /// The script wrote a value so; the first time counts.
    pub fn note(&mut self, spot: Spot, notation: Notation) {
        self.spots.entry(spot).or_insert(notation);
    }

    /// The script wrote an id so; the first time counts.
    pub fn note_id(&mut self, id: u128, notation: Notation) {
        self.ids.entry(id).or_insert(notation);
    }

    /// A value as the script wrote its place, or as hex.
    pub fn value(&self, spot: Spot, value: &Value) -> String {
        let notation = self.spots.get(&spot).copied();
        show(value, notation.unwrap_or(Notation::Hex))
    }

    /// An id as the script wrote it, or in decimal up to 64 bits.
    pub fn id(&self, id: u128) -> String {
        match self.ids.get(&id) {
            Some(Notation::Hex) => format!("0x{id:x}"),
            None if id > u128::from(u64::MAX) => format!("0x{id:x}"),
            _ => id.to_string(),
        }
    }
}

/// A value in a notation if that loses nothing that the bytes say, else as hex; one that is not well
/// formed with its length.
pub fn show(value: &Value, notation: Notation) -> String {
    let (Some(digits), Some(number)) = (value.digits(), value.number()) else {
        return ill_formed(value);
    };
    let shortest = *value == Value::new(number);
    match notation {
        Notation::Decimal if shortest => number.to_string(),
        Notation::Mac if digits.len() <= 6 => {
            let bytes: Vec<String> = last(number, 6).map(|byte| format!("{byte:02x}")).collect();
            bytes.join(":")
        }
        Notation::Ipv4 if digits.len() <= 4 => {
            let bytes: Vec<String> = last(number, 4).map(|byte| byte.to_string()).collect();
            bytes.join(".")
        }
        _ => format!("0x{}", hex(digits)),
    }
}

fn ill_formed(value: &Value) -> String {
    if value.is_none() {
        return "[empty]".to_owned();
    }
    format!("[length {}: {}]", value.length, hex(&value.bytes))
}

/// The last bytes of a number.
fn last(number: u128, bytes: usize) -> impl Iterator<Item = u8> {
    number.to_be_bytes().into_iter().skip(16 - bytes)
}

/// Lowercase hexadecimal.
pub fn hex(bytes: &[u8]) -> String {
    bytes.iter().fold(String::new(), |mut text, byte| {
        let _ = write!(text, "{byte:02x}");
        text
    })
}

#[cfg(test)]
mod tests {
    use super::*;

    #[test]
    fn values_are_shown_as_they_were_written() {
        use Notation::{Decimal, Hex, Ipv4, Mac};
        for (bytes, notation, text) in [
            (&[7][..], Decimal, "7"),
            (&[0], Decimal, "0"),
            (&[1, 0], Decimal, "256"),
            (&[0, 7], Decimal, "0x0007"), // so that the padding is seen
            (&[7], Hex, "0x07"),
            (&[0, 1, 0xff], Hex, "0x0001ff"),
            (&[10, 0, 0, 1], Ipv4, "10.0.0.1"),
            (&[1], Ipv4, "0.0.0.1"),
            (&[1, 0, 0, 0, 0], Ipv4, "0x0100000000"),
            (&[2, 0, 0, 0, 0, 1], Mac, "02:00:00:00:00:01"),
            (&[0x11, 0x22, 0x33, 0x44, 0x55], Mac, "00:11:22:33:44:55"),
            (&[1, 0, 0, 0, 0, 0, 0], Mac, "0x01000000000000"),
        ] {
            let value = Value::from_bytes(bytes).unwrap();
            assert_eq!(show(&value, notation), text);
        }
    }

    #[test]
    fn values_that_are_not_well_formed_are_shown_too() {
        assert_eq!(show(&Value::default(), Notation::Decimal), "[empty]");
        let mut long = Value::new(7);
        long.length = 17;
        let text = format!("[length 17: 07{}]", "00".repeat(15));
        assert_eq!(show(&long, Notation::Mac), text);
    }

    #[test]
    fn the_first_notation_counts() {
        let spot = Spot::First { table: 1, field: 0 };
        let ten = Value::new(10);
        let mut notations = Notations::default();
        assert_eq!(notations.value(spot, &ten), "0x0a");
        notations.note(spot, Notation::Decimal);
        notations.note(spot, Notation::Hex);
        assert_eq!(notations.value(spot, &ten), "10");
        let other = Spot::Second { table: 1, field: 0 };
        assert_eq!(notations.value(other, &ten), "0x0a");
    }

    #[test]
    fn ids() {
        let mut notations = Notations::default();
        assert_eq!(notations.id(u64::MAX.into()), "18446744073709551615");
        assert_eq!(notations.id(1 << 64), "0x10000000000000000");
        notations.note_id(1 << 64, Notation::Decimal);
        notations.note_id(16, Notation::Hex);
        notations.note_id(16, Notation::Decimal);
        assert_eq!(notations.id(1 << 64), "18446744073709551616");
        assert_eq!(notations.id(16), "0x10");
    }
}
