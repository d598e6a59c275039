//! What a frame says: a command byte, then operands of fixed widths.
//!
//! Everything that makes a frame malformed (reason 1) is decided here, so a
//! [`Command`] can be carried out without looking at its form again. What the
//! operands mean (does the device match, does the table exist) is decided
//! later: rows, updates and keys are handed on as raw bytes.

use std::num::NonZeroU128;

use crate::reason::Reason;

/// Bytes of a row of a CONFIGURE.
pub const ROW: usize = 53;
/// Bytes of an update of a WRITE: a type and an entry.
pub const UPDATE: usize = 221;
/// Bytes of a key without its table: priority and four slots.
pub const KEY: usize = 144;

/// Streams are numbered below this.
pub const STREAMS: u8 = 32;
/// A CONFIGURE has at most this many rows.
const MOST_ROWS: u8 = 8;
/// A WRITE has at most this many updates.
const MOST_UPDATES: u8 = 64;

/// A set election id. The unset id is `None` of an `Option<ElectionId>`, which
/// orders below every set one.
pub type ElectionId = NonZeroU128;

/// Who speaks: device, role and election id.
#[derive(Clone, Copy, Debug, PartialEq, Eq)]
pub struct Head {
    pub device: u64,
    pub role: u8,
    pub id: Option<ElectionId>,
}

/// How a WRITE treats its updates as a whole.
#[derive(Clone, Copy, Debug, PartialEq, Eq)]
pub enum Atomicity {
    /// 0: each update succeeds or fails alone.
    Continue,
    /// 1: all or none.
    Rollback,
    /// 2: all or none, also for packets in flight.
    Dataplane,
}

/// What a READ asks for.
#[derive(Clone, Copy, Debug, PartialEq, Eq)]
pub enum Wanted<'a> {
    /// Table 0: all entries of every table the role may write.
    EveryTable,
    /// All entries of one table.
    Table(u32),
    /// The entry of one table that has the key.
    Entry(u32, &'a [u8; KEY]),
}

/// A well-formed frame.
#[derive(Clone, Copy, Debug, PartialEq, Eq)]
pub enum Command<'a> {
    Open {
        stream: u8,
    },
    Close {
        stream: u8,
    },
    Arbitrate {
        stream: u8,
        head: Head,
    },
    Configure {
        head: Head,
        /// One to eight rows of [`ROW`] bytes.
        rows: &'a [u8],
    },
    Write {
        head: Head,
        atomicity: Atomicity,
        /// Up to 64 updates of [`UPDATE`] bytes.
        updates: &'a [u8],
    },
    Read {
        device: u64,
        role: u8,
        wanted: Wanted<'a>,
    },
}

impl<'a> Command<'a> {
    /// Reads a frame; anything that is not a command in its exact length is
    /// [`Reason::Malformed`].
    pub fn read(frame: &'a [u8]) -> Result<Self, Reason> {
        read_command(frame).ok_or(Reason::Malformed)
    }
}

/// `None` stands for every way to be malformed: reason 1 has no order within.
fn read_command(frame: &[u8]) -> Option<Command<'_>> {
    let mut operands = Operands(frame);
    let command = match operands.byte()? {
        0x01 => Command::Open {
            stream: operands.stream()?,
        },
        0x02 => Command::Close {
            stream: operands.stream()?,
        },
        0x03 => Command::Arbitrate {
            stream: operands.stream()?,
            head: operands.head()?,
        },
        0x04 => Command::Configure {
            head: operands.head()?,
            rows: operands.rows()?,
        },
        0x05 => Command::Write {
            head: operands.head()?,
            atomicity: operands.atomicity()?,
            updates: operands.updates()?,
        },
        0x06 => Command::Read {
            device: operands.device()?,
            role: operands.byte()?,
            wanted: operands.wanted()?,
        },
        _ => return None,
    };
    operands.0.is_empty().then_some(command)
}

/// The bytes of a frame that are not read yet.
struct Operands<'a>(&'a [u8]);

impl<'a> Operands<'a> {
    fn take<const N: usize>(&mut self) -> Option<&'a [u8; N]> {
        let (taken, rest) = self.0.split_first_chunk()?;
        self.0 = rest;
        Some(taken)
    }

    fn slice(&mut self, length: usize) -> Option<&'a [u8]> {
        let taken = self.0.get(..length)?;
        self.0 = &self.0[length..];
        Some(taken)
    }

    fn byte(&mut self) -> Option<u8> {
        self.take::<1>().map(|bytes| bytes[0])
    }

    fn stream(&mut self) -> Option<u8> {
        self.byte().filter(|&stream| stream < STREAMS)
    }

    fn device(&mut self) -> Option<u64> {
        self.take().map(|bytes| u64::from_be_bytes(*bytes))
    }

    fn head(&mut self) -> Option<Head> {
        Some(Head {
            device: self.device()?,
            role: self.byte()?,
            id: self.id()?,
        })
    }

    /// The outer `None` is a malformed id, the inner one an unset id.
    fn id(&mut self) -> Option<Option<ElectionId>> {
        let flag = self.byte()?;
        let id = ElectionId::new(u128::from_be_bytes(*self.take()?));
        match (flag, id) {
            (0, None) | (1, Some(_)) => Some(id),
            _ => None,
        }
    }

    fn rows(&mut self) -> Option<&'a [u8]> {
        let count = self.byte().filter(|t| (1..=MOST_ROWS).contains(t))?;
        self.slice(usize::from(count) * ROW)
    }

    fn atomicity(&mut self) -> Option<Atomicity> {
        match self.byte()? {
            0 => Some(Atomicity::Continue),
            1 => Some(Atomicity::Rollback),
            2 => Some(Atomicity::Dataplane),
            _ => None,
        }
    }

    fn updates(&mut self) -> Option<&'a [u8]> {
        let count = self.byte().filter(|&n| n <= MOST_UPDATES)?;
        self.slice(usize::from(count) * UPDATE)
    }

    fn wanted(&mut self) -> Option<Wanted<'a>> {
        let table = u32::from_be_bytes(*self.take()?);
        let only = self.byte()?;
        let key = self.take::<KEY>()?;
        match (only, table) {
            (0, _) if !is_zero(key) => None,
            (0, 0) => Some(Wanted::EveryTable),
            (0, _) => Some(Wanted::Table(table)),
            (1, 0) => None,
            (1, _) => Some(Wanted::Entry(table, key)),
            _ => None,
        }
    }
}

/// Cuts `bytes` into parts of `N`; what is left over at the end is dropped.
pub fn parts<const N: usize>(bytes: &[u8]) -> impl Iterator<Item = &[u8; N]> {
    bytes.chunks_exact(N).filter_map(<[u8]>::first_chunk)
}

/// Are all bytes zero, as those of an unused part must be? Most are, so no
/// early end: this way many bytes are looked at in one step.
pub fn is_zero(bytes: &[u8]) -> bool {
    bytes.iter().fold(0, |any, byte| any | byte) == 0
}
