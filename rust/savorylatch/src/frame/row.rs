//! The rows of a configuration.

use crate::ffi;

/// A row of the configuration: a table, who owns it, and what its entries look like.
///
/// ```
/// use savorylatch::frame::{Action, Field, Kind, Row};
///
/// // Forwards by IPv4 prefix to a port of 9 bits.
/// let row = Row {
///     table: 0x0200_0001,
///     owner: 0,
///     size: 100,
///     fields: vec![Field { kind: Kind::Lpm, width: 32 }],
///     actions: vec![Action { id: 0x0100_0001, widths: vec![9] }],
/// };
/// ```
#[derive(Clone, Debug, PartialEq, Eq)]
pub struct Row {
    /// The table's id, with 02 in its top byte.
    pub table: u32,
    /// The role, 0 to 7, that owns the table; the primary of role 0 may write it in any case.
    pub owner: u8,
    /// How many entries the table may hold. All sizes add to 256 at most.
    pub size: u16,
    /// The match fields, 1 to 4.
    pub fields: Vec<Field>,
    /// The actions that an entry may name, 1 to 4.
    pub actions: Vec<Action>,
}

/// A match field.
#[derive(Clone, Copy, Debug, PartialEq, Eq)]
pub struct Field {
    /// How it is matched.
    pub kind: Kind,
    /// Its width in bits, 1 to 128.
    pub width: u8,
}

/// How a field is matched; the discriminant is the number in a frame.
#[derive(Clone, Copy, Debug, PartialEq, Eq, Hash)]
#[repr(u8)]
pub enum Kind {
    /// By a value, which every entry has.
    Exact = 1,
    /// By a prefix: longest prefix match.
    Lpm = 2,
    /// By a value under a mask.
    Ternary = 3,
    /// By a lowest and a highest value.
    Range = 4,
    /// By a value, or by none.
    Optional = 5,
}

/// An action of a row.
#[derive(Clone, Debug, PartialEq, Eq)]
pub struct Action {
    /// Its id, with 01 in its top byte.
    pub id: u32,
    /// The widths of its parameters in bits, up to four of 1 to 128.
    pub widths: Vec<u8>,
}

impl Row {
    /// A row of the record, as far as it can be read; one in force can be read as a whole.
    pub(crate) fn of_record(row: &ffi::Row) -> Row {
        let fields = row.fields.iter().take(usize::from(row.field_count));
        let actions = row.actions.iter().take(usize::from(row.action_count));
        Row {
            table: u32::from_be_bytes(row.table),
            owner: row.owner,
            size: u16::from_be_bytes(row.size),
            fields: fields.filter_map(Field::of_record).collect(),
            actions: actions.map(Action::of_record).collect(),
        }
    }
}

impl Field {
    fn of_record(field: &ffi::Field) -> Option<Field> {
        let kind = match field.kind {
            1 => Kind::Exact,
            2 => Kind::Lpm,
            3 => Kind::Ternary,
            4 => Kind::Range,
            5 => Kind::Optional,
            _ => return None,
        };
        Some(Field {
            kind,
            width: field.width,
        })
    }
}

impl Action {
    fn of_record(action: &ffi::Action) -> Action {
        let widths = action.widths.iter().take(usize::from(action.count));
        Action {
            id: u32::from_be_bytes(action.id),
            widths: widths.copied().collect(),
        }
    }
}
