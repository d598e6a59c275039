//! Configuration rows: what a CONFIGURE may say of its tables (reason 14).

use crate::frame::{is_zero, parts, ROW};
use crate::reason::Reason;
use crate::streams::is_role;

/// The sizes of all tables add to at most this, so no more entries are stored.
const MOST_ENTRIES: usize = 256;
/// A row has places for this many fields, actions, and widths of an action.
pub const PLACES: usize = 4;

/// The top byte of every table id.
const TABLE_PREFIX: u8 = 0x02;
/// The top byte of every action id.
const ACTION_PREFIX: u8 = 0x01;
/// Bytes of a field: kind, width.
const FIELD: usize = 2;
/// Bytes of an action: id 4, parameter count 1, four widths.
const ACTION: usize = 9;

/// How a field is matched. The discriminant is the kind's number in a frame.
#[derive(Clone, Copy, Debug, PartialEq, Eq, Hash)]
#[repr(u8)]
pub enum Kind {
    Exact = 1,
    Lpm = 2,
    Ternary = 3,
    Range = 4,
    Optional = 5,
}

impl Kind {
    fn read(number: u8) -> Option<Kind> {
        match number {
            1 => Some(Kind::Exact),
            2 => Some(Kind::Lpm),
            3 => Some(Kind::Ternary),
            4 => Some(Kind::Range),
            5 => Some(Kind::Optional),
            _ => None,
        }
    }

    /// Do the entries of a table with such a field need a priority?
    pub fn needs_priority(self) -> bool {
        matches!(self, Kind::Ternary | Kind::Range | Kind::Optional)
    }
}

/// A field that entries match on.
#[derive(Clone, Copy, Debug, PartialEq, Eq)]
pub struct Field {
    pub kind: Kind,
    /// In bits, 1 to 128.
    pub width: u8,
}

/// An action that entries of the row may name.
#[derive(Clone, Debug, PartialEq, Eq)]
pub struct Action {
    pub id: u32,
    /// The width of each parameter in bits, 1 to 128.
    pub widths: Vec<u8>,
}

/// A table as configured.
#[derive(Clone, Debug, PartialEq, Eq)]
pub struct Row {
    pub table: u32,
    pub owner: u8,
    pub size: usize,
    /// One to four fields.
    pub fields: Vec<Field>,
    /// One to four actions.
    pub actions: Vec<Action>,
    /// Does some field ask for a priority?
    pub prioritised: bool,
}

impl Row {
    /// May the primary of the role write this table?
    pub fn open_to(&self, role: u8) -> bool {
        role == 0 || self.owner == role
    }

    /// The row's action of that id.
    pub fn action(&self, id: u32) -> Option<&Action> {
        self.actions.iter().find(|action| action.id == id)
    }
}

/// Reads the rows of a CONFIGURE, or refuses them all with reason 14.
pub fn read_rows(bytes: &[u8]) -> Result<Vec<Row>, Reason> {
    let rows: Option<Vec<Row>> = parts(bytes).map(read_row).collect();
    rows.filter(|rows| tables_differ(rows) && sizes_fit(rows))
        .ok_or(Reason::BadRows)
}

fn tables_differ(rows: &[Row]) -> bool {
    all_differ(rows.iter().map(|row| row.table))
}

fn sizes_fit(rows: &[Row]) -> bool {
    rows.iter().map(|row| row.size).sum::<usize>() <= MOST_ENTRIES
}

/// One row; `None` for whatever is wrong with it.
fn read_row(bytes: &[u8; ROW]) -> Option<Row> {
    let table = read_id(&bytes[0..4], TABLE_PREFIX)?;
    let owner = Some(bytes[4]).filter(|&owner| is_role(owner))?;
    let size = usize::from(u16::from_be_bytes([bytes[5], bytes[6]]));
    if size == 0 {
        return None;
    }
    let fields = read_fields(bytes[7], &bytes[8..16])?;
    let actions = read_actions(bytes[16], &bytes[17..ROW])?;
    let prioritised = fields.iter().any(|field| field.kind.needs_priority());
    Some(Row {
        table,
        owner,
        size,
        fields,
        actions,
        prioritised,
    })
}

fn read_fields(count: u8, bytes: &[u8]) -> Option<Vec<Field>> {
    let (used, unused) = split_places(count, 1, bytes, FIELD)?;
    if !is_zero(unused) {
        return None;
    }
    parts::<FIELD>(used)
        .map(|&[kind, width]| {
            Some(Field {
                kind: Kind::read(kind)?,
                width: read_width(width)?,
            })
        })
        .collect()
}

fn read_actions(count: u8, bytes: &[u8]) -> Option<Vec<Action>> {
    let (used, unused) = split_places(count, 1, bytes, ACTION)?;
    if !is_zero(unused) {
        return None;
    }
    let actions: Vec<Action> = parts(used).map(read_action).collect::<Option<_>>()?;
    all_differ(actions.iter().map(|action| action.id)).then_some(actions)
}

fn read_action(bytes: &[u8; ACTION]) -> Option<Action> {
    let id = read_id(&bytes[0..4], ACTION_PREFIX)?;
    let (used, unused) = split_places(bytes[4], 0, &bytes[5..ACTION], 1)?;
    if !is_zero(unused) {
        return None;
    }
    let widths = used.iter().map(|&width| read_width(width));
    Some(Action {
        id,
        widths: widths.collect::<Option<_>>()?,
    })
}

/// An id counts only under the top byte of its sort; the rest of it is free.
fn read_id(bytes: &[u8], prefix: u8) -> Option<u32> {
    let bytes = *bytes.first_chunk()?;
    (bytes[0] == prefix).then(|| u32::from_be_bytes(bytes))
}

/// The same bounds hold for fields and for parameters.
fn read_width(width: u8) -> Option<u8> {
    Some(width).filter(|width| (1..=128).contains(width))
}

/// Splits four places of `each` bytes into those within the count and those
/// past it; `None` for a count below `least` or over four.
fn split_places(count: u8, least: usize, bytes: &[u8], each: usize) -> Option<(&[u8], &[u8])> {
    let count = usize::from(count);
    (least..=PLACES)
        .contains(&count)
        .then(|| bytes.split_at(count * each))
}

fn all_differ(ids: impl Iterator<Item = u32> + Clone) -> bool {
    ids.clone()
        .enumerate()
        .all(|(at, id)| ids.clone().skip(at + 1).all(|other| other != id))
}
