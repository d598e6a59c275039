//! Ways to go wrong, one by one.
//!
//! Each way takes something that would be accepted and breaks one rule of it.
//! A run has to meet every one of them under its own reason.

mod entry;
mod frame;
mod rows;

pub use entry::{EntryWay, ENTRY_WAYS};
pub use frame::FRAME_WAYS;
pub use rows::ROWS_WAYS;

/// An update of a type that there is not (17).
pub const TYPE_WAY: &str = "a type not 1 to 3";

/// Types that there are not.
pub const TYPES: [u8; 8] = [0, 0, 4, 4, 5, 0x81, 0x82, 0xff];

/// All ways, each with its reason.
pub fn all() -> impl Iterator<Item = (u8, &'static str)> {
    let frames = FRAME_WAYS.iter().map(|way| (1, way.name));
    let rows = ROWS_WAYS.iter().map(|way| (14, way.name));
    let entries = ENTRY_WAYS.iter().map(|way| (way.reason, way.name));
    frames.chain(rows).chain(entries).chain([(17, TYPE_WAY)])
}
