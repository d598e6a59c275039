//! Calls as a script can say them, and as the frames that they are.
//!
//! Frames are put together and taken apart by [`savorylatch::wire`], which takes any numbers. Here it
//! is said what else is wrong with the form of a frame.

use savorylatch::frame::Head;
use savorylatch::wire::{self, Frame, Key, Malformed, Row, Update, ROWS, UPDATES};
use savorylatch::Command;

#[cfg(test)]
mod tests;

/// The kinds of fields and slots by their numbers.
pub const KINDS: [&str; 6] = ["omitted", "exact", "lpm", "ternary", "range", "optional"];
/// The types of updates by their numbers; 0 is none.
pub const TYPES: [&str; 4] = ["type 0", "insert", "modify", "delete"];
/// The type of an update whose action and parameters are not looked at.
pub const DELETE: u8 = 3;

/// What a frame asks for, as far as a script could say it too.
#[derive(Clone, Debug, PartialEq, Eq)]
pub enum Call {
    Open {
        stream: u8,
    },
    Close {
        stream: u8,
    },
    Arbitrate {
        stream: u8,
        head: Head,
    },
    Configure {
        head: Head,
        rows: Vec<Row>,
    },
    Write {
        head: Head,
        atomicity: u8,
        updates: Vec<Update>,
    },
    Read {
        device: u64,
        role: u8,
        wanted: Wanted,
    },
}

/// Which entries a READ asks for.
#[derive(Clone, Copy, Debug, PartialEq, Eq)]
pub enum Wanted {
    Everything,
    Table(u32),
    Key { table: u32, key: Key },
}

impl Call {
    /// The frame.
    pub fn encode(&self) -> Vec<u8> {
        let frame = match self.clone() {
            Call::Open { stream } => Frame::Open { stream },
            Call::Close { stream } => Frame::Close { stream },
            Call::Arbitrate { stream, head } => Frame::Arbitrate {
                stream,
                head: head.into(),
            },
            Call::Configure { head, rows } => Frame::Configure {
                head: head.into(),
                rows,
            },
            Call::Write {
                head,
                atomicity,
                updates,
            } => Frame::Write {
                head: head.into(),
                atomicity,
                updates,
            },
            Call::Read {
                device,
                role,
                wanted,
            } => read(device, role, wanted),
        };
        frame.encode()
    }

    /// Takes a frame apart; the mistake says what is wrong with its form. Such a frame no statement
    /// of a script can send, other than `raw`.
    pub fn decode(frame: &[u8]) -> Result<Call, String> {
        Ok(match Frame::decode(frame).map_err(malformed)? {
            Frame::Open { stream } => Call::Open { stream },
            Frame::Close { stream } => Call::Close { stream },
            Frame::Arbitrate { stream, head } => Call::Arbitrate {
                stream,
                head: typed(&head)?,
            },
            Frame::Configure { head, rows } => {
                at_most(rows.len(), &TOO_MANY_ROWS)?;
                let head = typed(&head)?;
                Call::Configure { head, rows }
            }
            Frame::Write {
                head,
                atomicity,
                updates,
            } => {
                at_most(updates.len(), &TOO_MANY_UPDATES)?;
                let head = typed(&head)?;
                if atomicity > 2 {
                    return Err(format!("atomicity {atomicity} is over 2"));
                }
                Call::Write {
                    head,
                    atomicity,
                    updates,
                }
            }
            Frame::Read {
                device,
                role,
                table,
                only,
                key,
            } => Call::Read {
                device,
                role,
                wanted: wanted(table, only, key)?,
            },
        })
    }

    /// Which command it is.
    pub fn command(&self) -> Command {
        match self {
            Call::Open { .. } => Command::Open,
            Call::Close { .. } => Command::Close,
            Call::Arbitrate { .. } => Command::Arbitrate,
            Call::Configure { .. } => Command::Configure,
            Call::Write { .. } => Command::Write,
            Call::Read { .. } => Command::Read,
        }
    }
}

/// The most parts of a frame, and what they are.
struct Most {
    parts: usize,
    text: &'static str,
}

const TOO_MANY_ROWS: Most = Most {
    parts: ROWS,
    text: "rows are given; there may be 1 to",
};
const TOO_MANY_UPDATES: Most = Most {
    parts: UPDATES,
    text: "updates are given; there may be 0 to",
};

fn at_most(count: usize, most: &Most) -> Result<(), String> {
    let Most { parts, text } = most;
    match count <= *parts {
        true => Ok(()),
        false => Err(format!("{count} {text} {parts}")),
    }
}

/// What is wrong with a command or a length. That there are too many parts comes first.
fn malformed(wrong: Malformed) -> String {
    let parts = match wrong {
        Malformed::Length { command, parts, .. } => parts.map(|parts| (command, parts)),
        _ => None,
    };
    let too_many = match parts {
        Some((Command::Configure, rows)) => at_most(rows.into(), &TOO_MANY_ROWS),
        Some((_, updates)) => at_most(updates.into(), &TOO_MANY_UPDATES),
        None => Ok(()),
    };
    too_many.err().unwrap_or_else(|| wrong.to_string())
}

fn typed(head: &wire::Head) -> Result<Head, String> {
    head.typed().ok_or_else(|| match (head.flag, head.id) {
        (0, id) => format!("the id flag is 0, for unset, but the id is {id}"),
        (flag, _) => format!("the id flag is {flag}; it may be 0 or 1"),
    })
}

fn wanted(table: u32, only: u8, key: Key) -> Result<Wanted, String> {
    match (only, table) {
        (0, _) if key != Key::default() => {
            Err("`only` is 0, but the key is not all zero".to_owned())
        }
        (0, 0) => Ok(Wanted::Everything),
        (0, table) => Ok(Wanted::Table(table)),
        (1, table) => Ok(Wanted::Key { table, key }),
        _ => Err(format!("`only` is {only}; it may be 0 or 1")),
    }
}

fn read(device: u64, role: u8, wanted: Wanted) -> Frame {
    let (table, only, key) = match wanted {
        Wanted::Everything => (0, 0, Key::default()),
        Wanted::Table(table) => (table, 0, Key::default()),
        Wanted::Key { table, key } => (table, 1, key),
    };
    Frame::Read {
        device,
        role,
        table,
        only,
        key,
    }
}
