//! What follows the keys of updates, and what becomes of them.
//!
//! The 72 bytes after a key are an action and four values. A DELETE has to be
//! met with everything that can be wrong there under every reason that its
//! table and key can give it, and an INSERT and a MODIFY under the reason that
//! it is for them; each in plain and in atomic batches.

use std::fmt;

use reference::bytes::{Action, Entry, Update, Value};

use super::REASONS;
use crate::lists::digits::number;
use crate::lists::entries::{actions, ones, widths};
use crate::lists::view::View;

/// What the 72 bytes are, by the row of the table. Where more than one is
/// true, it is the first of them.
#[derive(Clone, Copy, Debug, PartialEq, Eq)]
enum After {
    Zeros,
    Ones,
    NoTable,
    OtherTables,
    Random,
    Unknown,
    Empty,
    TooLong,
    Padding,
    Unused,
    TooWide,
    InOrder,
}

use After::*;

const ALL: [(After, &str); 12] = [
    (Zeros, "72 zero bytes"),
    (Ones, "72 bytes FF"),
    (NoTable, "other bytes, unknown table"),
    (OtherTables, "another table's action"),
    (Random, "random bytes"),
    (Unknown, "an unknown action"),
    (Empty, "a parameter of length 0"),
    (TooLong, "a parameter of length over 16"),
    (Padding, "bytes after a parameter"),
    (Unused, "an unused parameter"),
    (TooWide, "a parameter too wide"),
    (InOrder, "in order"),
];

/// The types of updates, and the atomicities.
const TYPES: [(u8, &str); 3] = [(1, "INSERT"), (2, "MODIFY"), (3, "DELETE")];
const ATOMICITIES: usize = 2;

/// How often each was met, by type, atomicity, what follows the key, reason.
#[derive(Default)]
pub struct Counts([[[[u64; REASONS]; ALL.len()]; ATOMICITIES]; TYPES.len()]);

/// One thing to be met.
#[derive(Clone, Copy)]
pub struct Cell {
    kind: usize,
    atomicity: usize,
    after: usize,
    reason: u8,
}

impl Counts {
    /// Counts the updates of an accepted batch with their reasons; the view is
    /// from before it.
    pub fn count(&mut self, view: &View, atomicity: u8, updates: &[Update], reasons: &[u8]) {
        for (update, &reason) in updates.iter().zip(reasons) {
            let kind = TYPES.iter().position(|(kind, _)| *kind == update.kind);
            let after = after(view, &update.entry);
            let after = ALL.iter().position(|(other, _)| *other == after);
            if let (Some(kind), Some(after)) = (kind, after) {
                let counts = &mut self.0[kind][usize::from(atomicity)][after];
                super::add(counts, reason);
            }
        }
    }

    pub fn of(&self, cell: Cell) -> u64 {
        let Cell {
            kind,
            atomicity,
            after,
            reason,
        } = cell;
        self.0[kind][atomicity][after][usize::from(reason)]
    }
}

/// All that a run has to come by.
pub fn cells() -> impl Iterator<Item = Cell> {
    let places = (0..TYPES.len()).flat_map(|kind| {
        (0..ATOMICITIES)
            .flat_map(move |atomicity| (0..ALL.len()).map(move |at| (kind, atomicity, at)))
    });
    places.flat_map(|(kind, atomicity, after)| {
        wanted(TYPES[kind].0, atomicity, ALL[after].0)
            .into_iter()
            .map(move |reason| Cell {
                kind,
                atomicity,
                after,
                reason,
            })
    })
}

/// The reasons that a DELETE can get.
fn of_deletes(atomicity: usize) -> impl Iterator<Item = u8> {
    let of_atomic = (atomicity == 1).then_some(25);
    [0, 15, 16, 17, 18, 19, 21].into_iter().chain(of_atomic)
}

/// The reasons under which an update of the type has to be met.
fn wanted(kind: u8, atomicity: usize, after: After) -> Vec<u8> {
    match (kind, after) {
        (1 | 2, NoTable | InOrder) => Vec::new(),
        (1 | 2, TooWide) => vec![18],
        (1 | 2, _) => vec![17],
        (_, NoTable) => vec![15],
        // Of an unknown table only these are known to be what they are.
        (_, Zeros | Ones) => of_deletes(atomicity).collect(),
        _ => of_deletes(atomicity)
            .filter(|&reason| reason != 15)
            .collect(),
    }
}

impl fmt::Display for Cell {
    fn fmt(&self, f: &mut fmt::Formatter<'_>) -> fmt::Result {
        write!(
            f,
            "{} with {} after its key, atomicity {}, with {}",
            TYPES[self.kind].1, ALL[self.after].1, self.atomicity, self.reason
        )
    }
}

/// The table of the DELETEs.
impl fmt::Display for Counts {
    fn fmt(&self, f: &mut fmt::Formatter<'_>) -> fmt::Result {
        writeln!(f, "{:>72} {:>47}", "atomicity 0", "atomicity 1")?;
        write!(f, "{:30}", "after the key of a DELETE")?;
        for reason in (0..ATOMICITIES).flat_map(of_deletes) {
            write!(f, " {reason:>5}")?;
        }
        for (after, (_, name)) in ALL.iter().enumerate() {
            write!(f, "\n{name:30}")?;
            for (atomicity, counts) in self.0[2].iter().enumerate() {
                for reason in of_deletes(atomicity) {
                    match counts[after][usize::from(reason)] {
                        0 => write!(f, " {:>5}", ".")?,
                        count => write!(f, " {count:>5}")?,
                    }
                }
            }
        }
        Ok(())
    }
}

/// What follows the key of an entry.
fn after(view: &View, entry: &Entry) -> After {
    let rest = &entry.bytes()[148..];
    if rest.iter().all(|&byte| byte == 0) {
        return Zeros;
    }
    if rest.iter().all(|&byte| byte == 0xff) {
        return Ones;
    }
    let Some(row) = view.row(entry.table) else {
        return NoTable;
    };
    let fault = |action: &Action| fault(widths(action), &entry.params);
    let named = |action: &&Action| action.id == entry.action;
    let elsewhere = || view.rows.iter().flat_map(actions).filter(named);
    match actions(row).iter().find(named) {
        Some(action) => fault(action),
        None if elsewhere().any(|action| fault(action) == InOrder) => OtherTables,
        None if entry.params.iter().all(has_no_form) => Random,
        None => Unknown,
    }
}

/// What is wrong with the parameters of an action with these widths.
fn fault(widths: &[u8], params: &[Value; 4]) -> After {
    let (used, unused) = params.split_at(widths.len());
    let any = |is: fn(&Value) -> bool| used.iter().any(is);
    if any(|param| param.length == 0) {
        Empty
    } else if any(|param| param.length > 16) {
        TooLong
    } else if any(has_no_form) {
        Padding
    } else if unused.iter().any(|param| *param != Value::NONE) {
        Unused
    } else if used
        .iter()
        .zip(widths)
        .any(|(param, &width)| number(param) > ones(width))
    {
        TooWide
    } else {
        InOrder
    }
}

/// Is the length over 16, or a byte set after the number?
fn has_no_form(value: &Value) -> bool {
    let after = value.bytes.get(usize::from(value.length)..);
    after.is_none_or(|after| after.iter().any(|&byte| byte != 0))
}

#[cfg(test)]
mod tests {
    use super::*;
    use reference::bytes::{kind, Key, Row, Slot};

    const TABLE: u32 = 0x0200_0001;
    const OWN: u32 = 0x0100_0001;
    const OTHER: u32 = 0x0100_0002;

    /// The table has an action of one parameter of 9 bits, another table one of
    /// two parameters.
    fn view() -> View {
        let row = |table, actions: &[Action]| Row::new(table, 0, 3, &[(kind::EXACT, 16)], actions);
        let mut view = View::new(1);
        view.rows = vec![
            row(TABLE, &[Action::new(OWN, &[9])]),
            row(TABLE + 1, &[Action::new(OTHER, &[8, 8])]),
        ];
        view
    }

    fn entry(action: u32, params: &[Value]) -> Entry {
        Entry::new(TABLE, Key::new(0, &[Slot::exact(1)]), action, params)
    }

    fn of(length: u8, byte: u8) -> Value {
        let bytes = [byte; 16];
        Value { length, bytes }
    }

    #[test]
    fn what_follows_a_key() {
        let (one, none) = (Value::of(1), Value::NONE);
        for (entry, expected) in [
            (entry(0, &[]), Zeros),
            (entry(u32::MAX, &[of(255, 255); 4]), Ones),
            (entry(OTHER, &[one, one]), OtherTables),
            (
                entry(7, &[of(99, 1), of(3, 1), of(17, 0), of(0, 1)]),
                Random,
            ),
            (entry(7, &[one]), Unknown),
            (entry(0, &[one]), Unknown),
            (entry(OTHER, &[one]), Unknown),
            (entry(OWN, &[]), Empty),
            (entry(OWN, &[of(0, 1)]), Empty),
            (entry(OWN, &[of(17, 0)]), TooLong),
            (entry(OWN, &[of(15, 1)]), Padding),
            (entry(OWN, &[one, Value::of(0)]), Unused),
            (entry(OWN, &[one, none, none, of(0, 1)]), Unused),
            (entry(OWN, &[Value::of(0x200)]), TooWide),
            (entry(OWN, &[Value::padded(0x1ff, 16)]), InOrder),
        ] {
            assert_eq!(after(&view(), &entry), expected, "{entry:?}");
            let nowhere = Entry { table: 9, ..entry };
            let expected = match expected {
                Zeros | Ones => expected,
                _ => NoTable,
            };
            assert_eq!(after(&view(), &nowhere), expected);
        }
    }

    #[test]
    fn what_has_to_be_met() {
        let mut counts = Counts::default();
        let missing = |counts: &Counts| {
            let cells = cells().filter(|&cell| counts.of(cell) == 0);
            cells.map(|cell| cell.to_string()).collect::<Vec<_>>()
        };
        let before = missing(&counts);
        let updates = [
            Update::delete(entry(0, &[])),
            Update::modify(entry(OWN, &[Value::of(0x200)])),
            Update::modify(entry(OWN, &[Value::of(1)])),
        ];
        counts.count(&view(), 1, &updates, &[25, 18, 25]);
        let after = missing(&counts);
        let met = before.iter().filter(|cell| !after.contains(cell));
        assert!(met.eq([
            "MODIFY with a parameter too wide after its key, atomicity 1, with 18",
            "DELETE with 72 zero bytes after its key, atomicity 1, with 25",
        ]
        .iter()));
    }
}
