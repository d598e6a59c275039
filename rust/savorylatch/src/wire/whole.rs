//! Whole frames: a command, and what it is about.

use std::error::Error;
use std::fmt;

use super::{byte, Key, Row, Update};
use crate::bytes::{count, take};
use crate::frame::{self, Command};

/// The lengths of a frame's parts.
const HEAD: usize = 26;
const ROW: usize = 53;
const UPDATE: usize = 221;
const KEY: usize = 144;

/// A frame with a known command, and the length that goes with it. All else may be anything.
#[derive(Clone, Debug, PartialEq, Eq)]
pub enum Frame {
    /// A stream is opened.
    Open {
        /// The stream; 0 to 31 are there.
        stream: u8,
    },
    /// A stream is closed.
    Close {
        /// The stream.
        stream: u8,
    },
    /// A controller makes its election id known.
    Arbitrate {
        /// The stream that it is on.
        stream: u8,
        /// Who speaks.
        head: Head,
    },
    /// The rows are replaced, and the store is emptied.
    Configure {
        /// Who speaks.
        head: Head,
        /// The rows; well formed are 1 to [`ROWS`](super::ROWS).
        rows: Vec<Row>,
    },
    /// Entries are inserted, modified and deleted.
    Write {
        /// Who speaks.
        head: Head,
        /// How the updates are treated as a whole: see [`frame::Atomicity`].
        atomicity: u8,
        /// The updates; well formed are up to [`UPDATES`](super::UPDATES).
        updates: Vec<Update>,
    },
    /// Entries are read.
    Read {
        /// The device id.
        device: u64,
        /// The role whose tables are read.
        role: u8,
        /// The table, or 0 for all.
        table: u32,
        /// 1 if the entry of the key alone is read, else 0.
        only: u8,
        /// The key, all zero where `only` is 0.
        key: Key,
    },
}

/// Who speaks: device, role, and election id.
#[derive(Clone, Copy, Debug, PartialEq, Eq)]
pub struct Head {
    /// The device id.
    pub device: u64,
    /// The role.
    pub role: u8,
    /// 1 if the election id is set, and 0, with an id of 0, if it is not.
    pub flag: u8,
    /// The election id.
    pub id: u128,
}

impl Head {
    /// In the type of [`frame`]; `None` if the flag does not go with the id.
    pub fn typed(&self) -> Option<frame::Head> {
        let id = match (self.flag, self.id) {
            (0, 0) => None,
            (1, id) => Some(id),
            _ => return None,
        };
        Some(frame::Head {
            device: self.device,
            role: self.role,
            id,
        })
    }

    fn put(&self, to: &mut Vec<u8>) {
        to.extend(self.device.to_be_bytes());
        to.extend([self.role, self.flag]);
        to.extend(self.id.to_be_bytes());
    }

    fn read(from: &mut &[u8]) -> Option<Head> {
        let device = u64::from_be_bytes(take(from)?);
        let [role, flag] = take(from)?;
        let id = u128::from_be_bytes(take(from)?);
        Some(Head {
            device,
            role,
            flag,
            id,
        })
    }
}

impl From<frame::Head> for Head {
    fn from(head: frame::Head) -> Head {
        Head {
            device: head.device,
            role: head.role,
            flag: u8::from(head.id.is_some()),
            id: head.id.unwrap_or(0),
        }
    }
}

impl Frame {
    /// Takes a frame apart; the error says why its command or its length is none.
    pub fn decode(frame: &[u8]) -> Result<Frame, Malformed> {
        let &first = frame.first().ok_or(Malformed::Empty)?;
        let command = Command::of(frame).ok_or(Malformed::Command(first))?;
        let parts = parts(command, frame);
        let due = length(command, parts.unwrap_or(0));
        let cut_off = Malformed::Length {
            command,
            parts,
            due,
            has: frame.len(),
        };
        if frame.len() != due {
            return Err(cut_off);
        }
        let from = &mut frame.get(1..).unwrap_or_default();
        read(command, usize::from(parts.unwrap_or(0)), from).ok_or(cut_off)
    }

    /// The frame's bytes. Of more than 255 rows or updates, whose number has no place in a frame, the
    /// count is 255, and the frame is of a wrong length.
    pub fn encode(&self) -> Vec<u8> {
        let mut to = vec![self.command() as u8];
        match self {
            Frame::Open { stream } | Frame::Close { stream } => to.push(*stream),
            Frame::Arbitrate { stream, head } => {
                to.push(*stream);
                head.put(&mut to);
            }
            Frame::Configure { head, rows } => {
                head.put(&mut to);
                to.push(count(rows.len()));
                rows.iter().for_each(|row| row.put(&mut to));
            }
            Frame::Write {
                head,
                atomicity,
                updates,
            } => {
                head.put(&mut to);
                to.extend([*atomicity, count(updates.len())]);
                updates.iter().for_each(|update| update.put(&mut to));
            }
            Frame::Read {
                device,
                role,
                table,
                only,
                key,
            } => {
                to.extend(device.to_be_bytes());
                to.push(*role);
                to.extend(table.to_be_bytes());
                to.push(*only);
                key.put(&mut to);
            }
        }
        to
    }

    /// Which command it is.
    pub fn command(&self) -> Command {
        match self {
            Frame::Open { .. } => Command::Open,
            Frame::Close { .. } => Command::Close,
            Frame::Arbitrate { .. } => Command::Arbitrate,
            Frame::Configure { .. } => Command::Configure,
            Frame::Write { .. } => Command::Write,
            Frame::Read { .. } => Command::Read,
        }
    }
}

/// How many rows or updates a frame says it has; `None` for a command that has none, and for a frame
/// that ends before their number.
fn parts(command: Command, frame: &[u8]) -> Option<u8> {
    let at = match command {
        Command::Configure => 1 + HEAD,
        Command::Write => 2 + HEAD,
        _ => return None,
    };
    frame.get(at).copied()
}

/// The length of a frame with so many rows or updates.
fn length(command: Command, parts: u8) -> usize {
    let parts = usize::from(parts);
    match command {
        Command::Open | Command::Close => 2,
        Command::Arbitrate => 2 + HEAD,
        Command::Configure => 2 + HEAD + ROW * parts,
        Command::Write => 3 + HEAD + UPDATE * parts,
        Command::Read => 15 + KEY,
    }
}

/// What follows the command; `None` if the bytes end before it does.
fn read(command: Command, parts: usize, from: &mut &[u8]) -> Option<Frame> {
    Some(match command {
        Command::Open => Frame::Open {
            stream: byte(from)?,
        },
        Command::Close => Frame::Close {
            stream: byte(from)?,
        },
        Command::Arbitrate => Frame::Arbitrate {
            stream: byte(from)?,
            head: Head::read(from)?,
        },
        Command::Configure => {
            let head = Head::read(from)?;
            byte(from)?;
            let rows: Option<Vec<Row>> = (0..parts).map(|_| Row::read(from)).collect();
            Frame::Configure { head, rows: rows? }
        }
        Command::Write => {
            let head = Head::read(from)?;
            let [atomicity, _] = take(from)?;
            let updates: Option<Vec<Update>> = (0..parts).map(|_| Update::read(from)).collect();
            Frame::Write {
                head,
                atomicity,
                updates: updates?,
            }
        }
        Command::Read => Frame::Read {
            device: u64::from_be_bytes(take(from)?),
            role: byte(from)?,
            table: u32::from_be_bytes(take(from)?),
            only: byte(from)?,
            key: Key::read(from)?,
        },
    })
}

/// Why bytes are no frame. The agent refuses them under [`BadFrame`](crate::Reason::BadFrame), and
/// many others too: it also judges what stands in a frame.
#[derive(Clone, Copy, Debug, PartialEq, Eq)]
pub enum Malformed {
    /// There are no bytes.
    Empty,
    /// The first byte is no command.
    Command(u8),
    /// The length is not the command's.
    Length {
        /// The command.
        command: Command,
        /// How many rows or updates the frame says it has; `None` if the command has none, or the
        /// frame ends before their number.
        parts: Option<u8>,
        /// The length that a frame of this command and so many parts has.
        due: usize,
        /// The length that this one has.
        has: usize,
    },
}

impl fmt::Display for Malformed {
    fn fmt(&self, f: &mut fmt::Formatter<'_>) -> fmt::Result {
        let (command, parts, due, has) = match *self {
            Malformed::Empty => return write!(f, "the frame is empty"),
            Malformed::Command(first) => {
                return write!(f, "command {first:02x} is unknown; there are 01 to 06")
            }
            Malformed::Length {
                command,
                parts,
                due,
                has,
            } => (command, parts, due, has),
        };
        match (command, parts) {
            (Command::Open | Command::Close, _) => write!(f, "OPEN and CLOSE have {due} bytes"),
            (Command::Arbitrate, _) => write!(f, "an ARBITRATE has {due} bytes"),
            (Command::Configure, None) => write!(f, "a CONFIGURE has {due} bytes and its rows"),
            (Command::Configure, Some(rows)) => {
                write!(f, "a CONFIGURE of {rows} rows has {due} bytes")
            }
            (Command::Write, None) => write!(f, "a WRITE has {due} bytes and its updates"),
            (Command::Write, Some(updates)) => {
                write!(f, "a WRITE of {updates} updates has {due} bytes")
            }
            (Command::Read, _) => write!(f, "a READ has {due} bytes"),
        }?;
        write!(f, ", and this frame has {has}")
    }
}

impl Error for Malformed {}
