//! The states that cases start from, as calls on a fresh agent, and the WRITEs that change them.

use reference::bytes::{self, Entry, Head, Row, Update};

use super::keys::TABLE;
use super::{Frame, Keys, FULL};

/// The device of every agent here.
pub const DEVICE: u64 = 1;
/// Updates that a WRITE holds.
pub const BATCH: usize = 64;
/// The stream of role 0's primary, and its id.
pub const STREAM: u8 = 1;
pub const ID: u128 = 50;
/// An id that no stream holds, below the primary's.
pub const LOWER: u128 = 40;

/// The head with which role 0's primary speaks.
pub fn primary() -> Head {
    Head::set(DEVICE, 0, ID)
}

/// Role 0 has a primary.
pub fn with_primary() -> Vec<Frame> {
    vec![bytes::open(STREAM), bytes::arbitrate(STREAM, primary())]
}

/// Role 0 has a primary, and there is a table, of 256 entries at most, that holds the first `count`.
pub fn stored(keys: Keys, count: usize) -> Vec<Frame> {
    let updates: Vec<Update> = (0..count)
        .map(|number| Update::insert(keys.entry(number)))
        .collect();
    configured(&[keys.row(TABLE, FULL as u16)], &updates)
}

/// Eight tables of 32 entries each, owned by roles 0 to 7. The entries are inserted in turn, one of
/// each table, or one table after another.
pub fn eight_tables(in_turn: bool) -> Vec<Frame> {
    let rows: Vec<Row> = (0..8)
        .map(|table| Row {
            owner: table as u8,
            ..Keys::Late.row(TABLE + table, 32)
        })
        .collect();
    let place = |at: usize| {
        if in_turn {
            (at % 8, at / 8)
        } else {
            (at / 32, at % 32)
        }
    };
    let updates: Vec<Update> = (0..FULL)
        .map(place)
        .map(|(table, number)| Keys::Late.entry_in(TABLE + table as u32, number, 7))
        .map(Update::insert)
        .collect();
    configured(&rows, &updates)
}

/// Role 0 has a primary, which has sent the rows and the updates, as many in a WRITE as it holds.
fn configured(rows: &[Row], updates: &[Update]) -> Vec<Frame> {
    let mut frames = with_primary();
    frames.push(bytes::configure(primary(), rows));
    frames.extend(updates.chunks(BATCH).map(write));
    frames
}

/// A WRITE by role 0's primary.
pub fn write(updates: &[Update]) -> Frame {
    bytes::write(primary(), 0, updates)
}

/// A WRITE of one update for each number.
pub fn batch(
    keys: Keys,
    update: impl Fn(Entry) -> Update,
    numbers: impl Iterator<Item = usize>,
) -> Frame {
    let updates: Vec<Update> = numbers.map(|number| update(keys.entry(number))).collect();
    write(&updates)
}

/// A WRITE of one update.
pub fn single(keys: Keys, update: impl Fn(Entry) -> Update, number: usize) -> Frame {
    write(&[update(keys.entry(number))])
}

/// Two WRITEs that change an entry's parameters, to and fro.
pub fn modifies(keys: Keys, number: usize) -> Vec<Frame> {
    [7, 8]
        .map(|port| keys.entry_in(TABLE, number, port))
        .map(|entry| write(&[Update::modify(entry)]))
        .to_vec()
}
