//! Calls and updates that are refused.

use reference::bytes::{self, Entry, Head, Key, Slot, Update, Value};

use super::entries::by_key;
use super::keys::TABLE;
use super::state::{primary, stored, with_primary, write, BATCH, DEVICE, ID, LOWER, STREAM};
use super::streams::full_rows;
use super::{Case, Frame, Keys, FULL};

/// The keys of the entries here.
const KEYS: Keys = Keys::Late;

/// Refused as a whole.
pub fn calls() -> Vec<Case> {
    let updates: Vec<Update> = (0..BATCH)
        .map(|number| Update::insert(KEYS.entry(number)))
        .collect();
    let write = |head: Head, atomicity: u8| bytes::write(head, atomicity, &updates);
    let configure = |head: Head| bytes::configure(head, &full_rows(8));
    let read = |device: u64| bytes::read_all(device, 0, 0);
    let lower = Head::set(DEVICE, 0, LOWER);
    let other = Head::set(DEVICE + 1, 0, ID);

    let mut cut_off = write(primary(), 0);
    cut_off.pop();
    let mut with_key = read(DEVICE);
    *with_key.last_mut().expect("a READ has bytes") = 1;
    let mut bad_rows = full_rows(8);
    bad_rows[7].actions[3].widths[3] = 129;
    let bad_rows = bytes::configure(primary(), &bad_rows);

    vec![
        call(1, "no byte", Vec::new()),
        call(1, "command 07", vec![0x07]),
        call(1, "WRITE of 64, cut off", cut_off),
        call(1, "READ of all with a key", with_key),
        call(3, "OPEN of an open stream", bytes::open(STREAM)),
        call(4, "CLOSE of a closed stream", bytes::close(9)),
        call(5, "WRITE of 64, other device", write(other, 0)),
        call(5, "READ, other device", read(DEVICE + 1)),
        call(10, "WRITE of 64, not the mark", write(lower, 0)),
        call(10, "CONFIGURE of 8, not the mark", configure(lower)),
        call(12, "WRITE of 64, not configured", write(primary(), 0)),
        call(12, "READ, not configured", read(DEVICE)),
        call(13, "WRITE of 64, atomicity 2", write(primary(), 2)),
        call(14, "CONFIGURE of 8, last width 129", bad_rows),
    ]
}

/// Refused in the pair of a WRITE of one, with 256 entries in the store.
pub fn updates() -> Vec<Case> {
    // A key whose last byte is not zero.
    let absent = KEYS.entry(FULL + 1);
    let table = Entry {
        table: TABLE + 9,
        ..absent
    };
    let with_key = |key: Key| Entry { key, ..absent };
    let priority = with_key(Key {
        priority: 1,
        ..absent.key
    });
    let padding = with_key(Key::new(
        0,
        &[Slot::exact(Value {
            length: 15,
            ..absent.key.slots[0].first
        })],
    ));
    let kind_4 = Update {
        kind: 4,
        entry: absent,
    };
    let wide = KEYS.entry_in(TABLE, FULL + 1, 0x200);
    let last = KEYS.entry(FULL - 1);
    vec![
        pair(15, "unknown table", Update::insert(table)),
        pair(17, "type 4", kind_4),
        pair(17, "padding not zero", Update::insert(padding)),
        pair(17, "DELETE by key alone, padding not zero", by_key(padding)),
        pair(18, "parameter too wide", Update::insert(wide)),
        pair(19, "priority 1", Update::insert(priority)),
        pair(20, "INSERT of the last key", Update::insert(last)),
        pair(21, "MODIFY of an absent key", Update::modify(absent)),
        pair(21, "DELETE of an absent key", Update::delete(absent)),
        pair(21, "DELETE of an absent key, by key alone", by_key(absent)),
        pair(22, "INSERT of an absent key", Update::insert(absent)),
    ]
}

fn call(reason: u8, name: &str, frame: Frame) -> Case {
    let setup = match reason {
        12 => with_primary(),
        _ => stored(KEYS, FULL),
    };
    Case::new("refused", &format!("{reason}: {name}"), setup)
        .timed(vec![frame])
        .refused(reason)
}

fn pair(reason: u8, name: &str, update: Update) -> Case {
    let name = format!("{reason} in a pair: {name}");
    Case::new("refused", &name, stored(KEYS, FULL))
        .timed(vec![write(&[update])])
        .pairs(1, reason)
}
