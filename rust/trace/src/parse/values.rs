//! Numbers and values as they are written.

use savorylatch::wire::Value;

use crate::notation::Notation;

/// A value, and how it was written.
#[derive(Clone, Copy, Debug, PartialEq, Eq)]
pub struct Literal {
    pub value: Value,
    pub notation: Notation,
}

/// A number in decimal or, after 0x, in hex.
pub fn number(text: &str) -> Option<(u128, Notation)> {
    match text.strip_prefix("0x") {
        Some(digits) => {
            // Leading zeros are fine, signs are not.
            let hex = digits.chars().all(|c| c.is_ascii_hexdigit());
            let number = u128::from_str_radix(digits, 16).ok().filter(|_| hex);
            Some((number?, Notation::Hex))
        }
        None => {
            let decimal = text.chars().all(|c| c.is_ascii_digit());
            let number = text.parse().ok().filter(|_| decimal);
            Some((number?, Notation::Decimal))
        }
    }
}

/// A value: decimal, hex with its leading zeros, MAC or IPv4. At most 16 bytes.
pub fn literal(text: &str) -> Option<Literal> {
    let (value, notation) = if let Some(digits) = text.strip_prefix("0x") {
        (Value::from_bytes(&bytes(digits)?)?, Notation::Hex)
    } else if text.contains(':') {
        (mac(text)?, Notation::Mac)
    } else if text.contains('.') {
        (ipv4(text)?, Notation::Ipv4)
    } else {
        (Value::new(number(text)?.0), Notation::Decimal)
    };
    Some(Literal { value, notation })
}

/// Does a text look like a number that does not fit?
pub fn is_too_long(text: &str) -> bool {
    let digits = match text.strip_prefix("0x") {
        Some(hex) => hex.chars().all(|c| c.is_ascii_hexdigit()) && !hex.is_empty(),
        None => text.chars().all(|c| c.is_ascii_digit()) && !text.is_empty(),
    };
    digits && literal(text).is_none()
}

/// A letter or `_`, then letters, digits, `_` and `-`.
pub fn is_name(text: &str) -> bool {
    text.starts_with(|c: char| c.is_ascii_alphabetic() || c == '_')
        && text
            .chars()
            .all(|c| c.is_ascii_alphanumeric() || c == '_' || c == '-')
}

/// Hex digits as bytes; an odd number of them begins with half a byte.
fn bytes(digits: &str) -> Option<Vec<u8>> {
    let even = match digits.len() % 2 {
        0 => digits.to_owned(),
        _ => format!("0{digits}"),
    };
    pairs(&even)
}

/// Pairs of hex digits as bytes.
pub fn pairs(digits: &str) -> Option<Vec<u8>> {
    let nibble = |c: &u8| char::from(*c).to_digit(16);
    let byte = |pair: &[u8]| match pair {
        [high, low] => u8::try_from(nibble(high)? << 4 | nibble(low)?).ok(),
        _ => None,
    };
    digits.as_bytes().chunks(2).map(byte).collect()
}

fn mac(text: &str) -> Option<Value> {
    let group = |group: &str| match group.len() {
        2 => pairs(group)?.first().copied(),
        _ => None,
    };
    let bytes: Option<Vec<u8>> = text.split(':').map(group).collect();
    Value::from_bytes(&bytes.filter(|bytes| bytes.len() == 6)?)
}

fn ipv4(text: &str) -> Option<Value> {
    let group = |group: &str| {
        let digits = group.chars().all(|c| c.is_ascii_digit());
        group.parse().ok().filter(|_: &u8| digits)
    };
    let bytes: Option<Vec<u8>> = text.split('.').map(group).collect();
    Value::from_bytes(&bytes.filter(|bytes| bytes.len() == 4)?)
}

#[cfg(test)]
mod tests {
    use super::*;

    #[test]
    fn literals() {
        use Notation::{Decimal, Hex, Ipv4, Mac};
        for (text, bytes, notation) in [
            ("0", &[0][..], Decimal),
            ("7", &[7], Decimal),
            ("007", &[7], Decimal),
            ("256", &[1, 0], Decimal),
            ("0x7", &[7], Hex),
            ("0x1ff", &[1, 0xff], Hex),
            ("0x0001ff", &[0, 1, 0xff], Hex),
            ("0xAb", &[0xab], Hex),
            ("0x00000000000000000000000000000000", &[0; 16], Hex),
            ("10.0.0.1", &[10, 0, 0, 1], Ipv4),
            ("0.0.0.0", &[0; 4], Ipv4),
            ("02:00:00:00:00:0f", &[2, 0, 0, 0, 0, 15], Mac),
            ("fe:DC:00:00:00:00", &[0xfe, 0xdc, 0, 0, 0, 0], Mac),
        ] {
            let value = Value::from_bytes(bytes).unwrap();
            assert_eq!(literal(text), Some(Literal { value, notation }), "{text}");
        }
        let most = u128::MAX.to_string();
        assert_eq!(literal(&most).unwrap().value, Value::new(u128::MAX));
    }

    #[test]
    fn what_is_no_literal() {
        for text in [
            "",
            "x",
            "-1",
            "+1",
            "0x",
            "0x+1",
            "0xg",
            "1.2.3",
            "1.2.3.4.5",
            "1.2.3.256",
            "1.2.3.+4",
            "1..2",
            "1:2:3:4:5:6",
            "02:00:00:00:00",
            "02:00:00:00:00:0g",
            "1_0",
            "0X10",
            "٣",
        ] {
            assert_eq!(literal(text), None, "{text}");
        }
        for text in [
            "0x0000000000000000000000000000000000",
            "340282366920938463463374607431768211456",
        ] {
            assert_eq!(literal(text), None);
            assert!(is_too_long(text));
        }
        assert!(!is_too_long("0x") && !is_too_long("") && !is_too_long("7") && !is_too_long("x"));
    }

    #[test]
    fn numbers() {
        assert_eq!(number("0x00ff"), Some((255, Notation::Hex)));
        assert_eq!(number("255"), Some((255, Notation::Decimal)));
        for text in ["", "0x", "0x+f", "+1", "-1", "a", "1.0"] {
            assert_eq!(number(text), None, "{text}");
        }
    }

    #[test]
    fn names() {
        for name in ["a", "_", "tenant-a", "A9_"] {
            assert!(is_name(name));
        }
        for name in ["", "9", "-a", "a.b", "a:b", "é"] {
            assert!(!is_name(name), "{name}");
        }
    }
}
