//! Keys that are padded and are nearly the key of a stored entry.
//!
//! A wrong comparison takes such a key for the stored one, so it has to be met
//! while no entry has it: with a stored entry that differs in its table, or in
//! one part of its key only. And it has to be met where an entry has it, but
//! one that differs so little stands before that.

use std::collections::BTreeMap;
use std::fmt;

use reference::bytes::{Entry, Key, Slot, Value};

use super::padded::paddings;
use crate::lists::digits::{digits, number, padding};

/// Who asks for a key: the types of updates, then READ.
const ASKERS: [&str; 5] = ["", "INSERT", "MODIFY", "DELETE", "READ"];
pub const READ: usize = 4;

/// In what a key differs from a stored one.
#[derive(Clone, Copy, Debug, PartialEq, Eq, PartialOrd, Ord)]
pub enum Miss {
    Table,
    /// A byte of the priority.
    Priority(usize),
    /// A slot is omitted, and present in the store.
    Omitted(usize),
    /// A slot is present, and omitted in the store.
    Present(usize),
    /// An omitted slot, and one that has no value but 0.
    Zero,
    /// A value of a slot.
    Value(usize, Which),
    /// A padded value, in this way.
    Digits(Which, Way),
    /// Where one value ends and the next starts, but in no digit.
    Ends,
}

#[derive(Clone, Copy, Debug, PartialEq, Eq, PartialOrd, Ord)]
pub enum Which {
    First,
    Second,
}

/// In what the digits of a padded value differ from those that are stored.
#[derive(Clone, Copy, Debug, PartialEq, Eq, PartialOrd, Ord)]
pub enum Way {
    FirstDigit,
    MiddleDigit,
    LastDigit,
    Start,
    LongerEnd,
    End,
    LongerStart,
    LowWord,
    HighWord,
}

const WHICH: [(Which, &str); 2] = [(Which::First, "first"), (Which::Second, "second")];

const WAYS: [(Way, &str); 9] = [
    (Way::FirstDigit, "with another first digit"),
    (Way::MiddleDigit, "with another middle digit"),
    (Way::LastDigit, "with another last digit"),
    (Way::Start, "that is the start of the stored one"),
    (Way::LongerEnd, "that starts with the stored one"),
    (Way::End, "that is the end of the stored one"),
    (Way::LongerStart, "that ends with the stored one"),
    (Way::LowWord, "with the low word of the stored one"),
    (Way::HighWord, "with all but the low word of the stored one"),
];

/// One thing to be met.
#[derive(Clone, Copy, Debug, PartialEq, Eq, PartialOrd, Ord)]
pub enum Cell {
    /// Who asks for a key that is absent, and in what it differs.
    Absent(usize, Miss),
    /// Who asks for a key that is found behind one that it nearly is.
    Behind(usize),
}

/// How often each was met.
#[derive(Default)]
pub struct Counts(BTreeMap<Cell, u64>);

impl Counts {
    /// Counts what a key nearly is, among the entries as the call finds them;
    /// `found` says whether one of them has it. The entry is also given in
    /// shortest form.
    pub fn count(
        &mut self,
        asker: usize,
        found: Option<bool>,
        entries: &[Entry],
        entry: &Entry,
        short: &Entry,
    ) {
        let padded = paddings(&entry.key).into_iter().any(|bytes| bytes > 0);
        let (Some(found), true) = (found, padded) else {
            return;
        };
        let before = entries
            .iter()
            .take_while(|stored| (stored.table, stored.key) != (short.table, short.key));
        let misses = before.flat_map(|stored| misses(entry, short, stored));
        if found {
            if misses.count() > 0 {
                *self.0.entry(Cell::Behind(asker)).or_default() += 1;
            }
        } else {
            for miss in misses {
                *self.0.entry(Cell::Absent(asker, miss)).or_default() += 1;
            }
        }
    }

    pub fn of(&self, cell: Cell) -> u64 {
        self.0.get(&cell).copied().unwrap_or(0)
    }
}

/// All that a run has to come by.
pub fn cells() -> impl Iterator<Item = Cell> {
    (1..ASKERS.len()).flat_map(|asker| {
        let absent = all_misses().into_iter();
        let absent = absent.map(move |miss| Cell::Absent(asker, miss));
        absent.chain([Cell::Behind(asker)])
    })
}

fn all_misses() -> Vec<Miss> {
    let mut all = vec![Miss::Table, Miss::Zero, Miss::Ends];
    for at in 0..4 {
        all.extend([Miss::Priority(at), Miss::Omitted(at), Miss::Present(at)]);
        all.extend(WHICH.map(|(which, _)| Miss::Value(at, which)));
    }
    for (which, _) in WHICH {
        all.extend(WAYS.map(|(way, _)| Miss::Digits(which, way)));
    }
    all
}

/// In what a key differs from a stored one; nothing where it differs in more
/// than one part.
fn misses(entry: &Entry, short: &Entry, stored: &Entry) -> Vec<Miss> {
    let (asked, kept) = (&short.key, &stored.key);
    let slots: Vec<usize> = (0..4)
        .filter(|&at| asked.slots[at] != kept.slots[at])
        .collect();
    let same_table = short.table == stored.table;
    match (same_table, asked.priority == kept.priority, &slots[..]) {
        (false, true, []) => vec![Miss::Table],
        (true, false, []) => {
            let bits = (asked.priority ^ kept.priority).to_be_bytes();
            let mut bytes = (0..4).filter(|&at| bits[at] != 0);
            match (bytes.next(), bytes.next()) {
                (Some(at), None) => vec![Miss::Priority(at)],
                _ => Vec::new(),
            }
        }
        (true, true, &[at]) if !has_digits_of(asked, kept) => {
            let padded = [entry.key.slots[at].first, entry.key.slots[at].second]
                .map(|value| padding(&value) > 0);
            in_a_slot(at, padded, &asked.slots[at], &kept.slots[at])
        }
        (true, true, _) if has_digits_of(asked, kept) => vec![Miss::Ends],
        _ => Vec::new(),
    }
}

/// Do two keys have the same kinds, and the same digits one after the other?
fn has_digits_of(asked: &Key, stored: &Key) -> bool {
    let kinds = |key: &Key| key.slots.map(|slot| slot.kind);
    let digits = |key: &Key| -> Vec<u8> {
        let slots = key.slots.iter();
        let values = slots.flat_map(|slot| [digits(&slot.first), digits(&slot.second)]);
        values.flatten().copied().collect()
    };
    kinds(asked) == kinds(stored) && digits(asked) == digits(stored)
}

/// The same of a slot, whose values are padded or not.
fn in_a_slot(at: usize, padded: [bool; 2], asked: &Slot, stored: &Slot) -> Vec<Miss> {
    if asked.kind != stored.kind {
        let (miss, present) = match asked.kind {
            0 => (Miss::Omitted(at), stored),
            _ => (Miss::Present(at), asked),
        };
        let zero = (number(&present.first), number(&present.second)) == (0, 0);
        return [miss]
            .into_iter()
            .chain(zero.then_some(Miss::Zero))
            .collect();
    }
    let (which, asked, stored) = match (asked.first == stored.first, asked.second == stored.second)
    {
        (false, true) => (Which::First, asked.first, stored.first),
        (true, false) => (Which::Second, asked.second, stored.second),
        _ => return Vec::new(),
    };
    let mut all = vec![Miss::Value(at, which)];
    if padded[which as usize] {
        let ways = ways(&asked, &stored).into_iter();
        all.extend(ways.map(|way| Miss::Digits(which, way)));
    }
    all
}

/// In what a value differs from another, both in shortest form.
fn ways(asked: &Value, stored: &Value) -> Vec<Way> {
    let (one, other) = (digits(asked), digits(stored));
    let mut all = Vec::new();
    if one.len() == other.len() && one.len() > 1 {
        let mut differing = (0..one.len()).filter(|&at| one[at] != other[at]);
        if let (Some(at), None) = (differing.next(), differing.next()) {
            all.push(match at {
                0 => Way::FirstDigit,
                _ if at + 1 == one.len() => Way::LastDigit,
                _ => Way::MiddleDigit,
            });
        }
    }
    let found = [
        (other.starts_with(one), Way::Start),
        (one.starts_with(other), Way::LongerEnd),
        (other.ends_with(one), Way::End),
        (one.ends_with(other), Way::LongerStart),
    ];
    all.extend(found.into_iter().filter(|(is, _)| *is).map(|(_, way)| way));
    let (one, other) = (number(asked), number(stored));
    if one as u64 == other as u64 {
        all.push(Way::LowWord);
    }
    if one >> 64 == other >> 64 && one >> 64 > 0 {
        all.push(Way::HighWord);
    }
    all
}

impl fmt::Display for Cell {
    fn fmt(&self, f: &mut fmt::Formatter<'_>) -> fmt::Result {
        match *self {
            Cell::Absent(asker, miss) => {
                write!(
                    f,
                    "{} of a padded key that is absent, one is stored that differs in {miss}",
                    ASKERS[asker]
                )
            }
            Cell::Behind(asker) => write!(
                f,
                "{} of a padded key that is found behind one that it nearly is",
                ASKERS[asker]
            ),
        }
    }
}

impl fmt::Display for Miss {
    fn fmt(&self, f: &mut fmt::Formatter<'_>) -> fmt::Result {
        let name = |wanted: Which| WHICH[wanted as usize].1;
        match *self {
            Miss::Table => write!(f, "its table"),
            Miss::Ends => write!(f, "where its values end, but in no digit"),
            Miss::Priority(at) => write!(f, "byte {} of its priority", 1 + at),
            Miss::Omitted(at) => write!(f, "slot {}, which is omitted", 1 + at),
            Miss::Present(at) => write!(f, "slot {}, which is present", 1 + at),
            Miss::Zero => write!(f, "a slot that is omitted or has no value but 0"),
            Miss::Value(at, which) => write!(f, "the {} value of slot {}", name(which), 1 + at),
            Miss::Digits(which, way) => {
                write!(f, "a {} value {}", name(which), WAYS[way as usize].1)
            }
        }
    }
}

#[cfg(test)]
mod tests {
    use super::*;
    use crate::lists::view::short_entry;

    const TABLE: u32 = 0x0200_0001;

    fn entry(priority: u32, slots: &[Slot]) -> Entry {
        Entry::new(TABLE, Key::new(priority, slots), 0x0100_0001, &[])
    }

    /// In what a READ of an absent key differs from the one that is stored.
    fn seen(asked: Entry, stored: Entry) -> Vec<Miss> {
        let mut counts = Counts::default();
        counts.count(READ, Some(false), &[stored], &asked, &short_entry(asked));
        let met = all_misses().into_iter();
        met.filter(|&miss| counts.of(Cell::Absent(READ, miss)) == 1)
            .collect()
    }

    fn padded(digits: &[u8]) -> Value {
        Value::string(&[&[0], digits].concat())
    }

    #[test]
    fn parts_of_a_key() {
        let one = |value: Slot| entry(9, &[Slot::exact(padded(&[7])), value]);
        let stored = short_entry(one(Slot::range(0, 0)));
        let asked = one(Slot::range(0, 0));
        let elsewhere = Entry {
            table: TABLE + 1,
            ..asked
        };
        assert_eq!(seen(elsewhere, stored), [Miss::Table]);
        let at_priority = |priority| entry(priority, &asked.key.slots);
        assert_eq!(seen(at_priority(8), stored), [Miss::Priority(3)]);
        assert_eq!(
            seen(at_priority(9 + (1 << 24)), stored),
            [Miss::Priority(0)]
        );
        assert!(seen(at_priority(8 + (1 << 24)), stored).is_empty());
        let omitted = one(Slot::OMITTED);
        assert_eq!(seen(omitted, stored), [Miss::Zero, Miss::Omitted(1)]);
        let stored = short_entry(omitted);
        assert_eq!(seen(asked, stored), [Miss::Zero, Miss::Present(1)]);
        assert_eq!(seen(one(Slot::range(0, 1)), stored), [Miss::Present(1)]);
        // Two parts, and a key without padding.
        assert!(seen(at_priority(8), stored).is_empty());
        assert!(seen(entry(8, &stored.key.slots), stored).is_empty());
    }

    #[test]
    fn where_values_end() {
        let of = |one: &[u8], two: &[u8]| entry(1, &[Slot::ternary(padded(one), padded(two))]);
        let stored = short_entry(of(&[1, 2], &[3]));
        assert_eq!(seen(of(&[1], &[2, 3]), stored), [Miss::Ends]);
        assert!(seen(of(&[1], &[3, 2]), stored).is_empty());
        let of = |one: &[u8], two: &[u8]| {
            let slots = [Slot::exact(padded(one)), Slot::exact(padded(two))];
            entry(1, &slots)
        };
        let stored = short_entry(of(&[1, 2], &[3]));
        assert_eq!(seen(of(&[1], &[2, 3]), stored), [Miss::Ends]);
    }

    #[test]
    fn digits_of_a_value() {
        use Way::*;
        let long = &[1, 2, 3, 4, 5, 6, 7, 8, 9][..];
        for (asked, stored, ways) in [
            (&[1, 2, 3][..], &[9, 2, 3][..], &[FirstDigit][..]),
            (&[1, 2, 3], &[1, 9, 3], &[MiddleDigit]),
            (&[1, 2, 3], &[1, 2, 9], &[LastDigit]),
            (&[1, 2, 3], &[1, 9, 9], &[]),
            (&[1], &[9], &[]),
            (&[0x0a], &[0x0a, 0], &[Start]),
            (&[0x0a, 0], &[0x0a], &[LongerEnd]),
            (&[0x0a], &[1, 0x0a], &[End]),
            (&[1, 0x0a], &[0x0a], &[LongerStart]),
            (long, &long[1..], &[LongerStart, LowWord]),
            (long, &[1, 9, 9, 9, 9, 9, 9, 9, 9], &[HighWord]),
        ] {
            let expected = |which, at| {
                let mut all = vec![Miss::Value(at, which)];
                all.extend(ways.iter().map(|&way| Miss::Digits(which, way)));
                all
            };
            let first = |value: Value| entry(1, &[Slot::exact(value)]);
            let stored = Value::string(stored);
            assert_eq!(
                seen(first(padded(asked)), first(stored)),
                expected(Which::First, 0)
            );
            let second = |value: Value| entry(1, &[Slot::exact(1), Slot::range(0, value)]);
            assert_eq!(
                seen(second(padded(asked)), second(stored)),
                expected(Which::Second, 1)
            );
        }
    }

    #[test]
    fn one_before_the_key() {
        let asked = entry(0, &[Slot::exact(padded(&[7]))]);
        let (short, other) = (short_entry(asked), entry(0, &[Slot::exact(8)]));
        let behind = |entries: &[Entry]| {
            let mut counts = Counts::default();
            counts.count(READ, Some(true), entries, &asked, &short);
            counts.of(Cell::Behind(READ))
        };
        assert_eq!(behind(&[other, short]), 1);
        assert_eq!(behind(&[short, other]), 0);
    }
}
