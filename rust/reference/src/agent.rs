//! The agent: one call at a time, refusals in the order document 01 gives.
//!
//! A handler answers `Ok` with the reason of an accepted call (0, or 23 for a
//! WRITE with failed updates) and `Err` with the reason of a refused one. An
//! early `?` therefore reads as the next refusal in line.

use crate::answer::Answer;
use crate::batch;
use crate::frame::{Atomicity, Command, Head, Wanted};
use crate::reason::Reason;
use crate::rows::read_rows;
use crate::streams::{is_role, Streams};
use crate::tables::Tables;

/// The least bytes an answer buffer must hold.
pub const ANSWER_ROOM: usize = 57_344;
/// The least bytes an entry store must hold.
pub const STORE_ROOM: usize = 56_320;

/// The only role that may configure.
const DEFAULT_ROLE: u8 = 0;

/// An agent for one device.
#[derive(Clone, Debug)]
pub struct Agent {
    device: u64,
    streams: Streams,
    /// `None` until the first accepted CONFIGURE.
    tables: Option<Tables>,
}

impl Agent {
    /// A fresh agent: all streams closed, no marks, no rows, no entries.
    pub fn new(device: u64) -> Agent {
        Agent {
            device,
            streams: Streams::default(),
            tables: None,
        }
    }

    /// One call. Writes the answer into the first bytes of `answer`, leaves the
    /// rest of it alone, and gives back the reason written. Where a buffer is
    /// too short nothing is written and 2 is given back.
    ///
    /// Entries are kept by the agent itself; of the store only the length
    /// counts here. [`Agent::store_image`] says what it would hold.
    pub fn call(&mut self, frame: &[u8], store_len: usize, answer: &mut [u8]) -> u8 {
        if answer.len() < ANSWER_ROOM || store_len < STORE_ROOM {
            return Reason::NoRoom.number();
        }
        let mut answer = Answer::new(answer);
        let outcome = Command::read(frame).and_then(|command| self.obey(command, &mut answer));
        let (Ok(reason) | Err(reason)) = outcome;
        answer.finish(reason)
    }

    /// What the store must hold from its first byte on: the entries in order
    /// of insertion, 220 bytes each, in shortest form.
    pub fn store_image(&self) -> Vec<u8> {
        self.tables.as_ref().map_or_else(Vec::new, Tables::image)
    }

    fn obey(&mut self, command: Command<'_>, answer: &mut Answer<'_>) -> Result<Reason, Reason> {
        match command {
            Command::Open { stream } => self.open(stream),
            Command::Close { stream } => self.close(stream, answer),
            Command::Arbitrate { stream, head } => self.arbitrate(stream, &head, answer),
            Command::Configure { head, rows } => self.configure(&head, rows),
            Command::Write {
                head,
                atomicity,
                updates,
            } => self.write(&head, atomicity, updates, answer),
            Command::Read {
                device,
                role,
                wanted,
            } => self.read(device, role, wanted, answer),
        }
    }

    fn open(&mut self, stream: u8) -> Result<Reason, Reason> {
        self.streams.open(stream)?;
        Ok(Reason::Done)
    }

    fn close(&mut self, stream: u8, answer: &mut Answer<'_>) -> Result<Reason, Reason> {
        let told = self.streams.close(stream)?;
        self.streams.notify(told, answer);
        Ok(Reason::Done)
    }

    /// Also a refused ARBITRATE may have notifications: those of the closing.
    fn arbitrate(
        &mut self,
        stream: u8,
        head: &Head,
        answer: &mut Answer<'_>,
    ) -> Result<Reason, Reason> {
        let (admitted, told) = self.streams.arbitrate(self.device, stream, head);
        self.streams.notify(told, answer);
        admitted?;
        Ok(Reason::Done)
    }

    /// 5, 6, 11, 10, 14.
    fn configure(&mut self, head: &Head, rows: &[u8]) -> Result<Reason, Reason> {
        self.check_caller(head.device, head.role)?;
        if head.role != DEFAULT_ROLE {
            return Err(Reason::NotDefaultRole);
        }
        self.streams.speaks_as_primary(head.role, head.id)?;
        self.tables = Some(Tables::new(read_rows(rows)?));
        Ok(Reason::Done)
    }

    /// 5, 6, 10, 12, 13; then the updates, as the atomicity has it.
    fn write(
        &mut self,
        head: &Head,
        atomicity: Atomicity,
        updates: &[u8],
        answer: &mut Answer<'_>,
    ) -> Result<Reason, Reason> {
        self.check_caller(head.device, head.role)?;
        self.streams.speaks_as_primary(head.role, head.id)?;
        let tables = self.tables.as_mut().ok_or(Reason::NotConfigured)?;
        let reasons = match atomicity {
            Atomicity::Continue => batch::each_alone(tables, head.role, updates),
            Atomicity::Rollback => batch::all_or_none(tables, head.role, updates),
            Atomicity::Dataplane => return Err(Reason::NotSupported),
        };
        let mut overall = Reason::Done;
        for reason in reasons {
            answer.record(&[reason.number(), reason.code()]);
            if reason != Reason::Done {
                overall = Reason::SomeFailed;
            }
        }
        Ok(overall)
    }

    /// 5, 6, 12; for a named table 15, 16; for one of its keys 17, 18, 19.
    fn read(
        &self,
        device: u64,
        role: u8,
        wanted: Wanted<'_>,
        answer: &mut Answer<'_>,
    ) -> Result<Reason, Reason> {
        self.check_caller(device, role)?;
        let tables = self.tables.as_ref().ok_or(Reason::NotConfigured)?;
        match wanted {
            Wanted::EveryTable => tables.read_every_table(role, answer),
            Wanted::Table(table) => tables.read_table(role, table, answer)?,
            Wanted::Entry(table, key) => tables.read_entry(role, table, key, answer)?,
        }
        Ok(Reason::Done)
    }

    /// 5, then 6, as every caller but an arbitrating one meets them.
    fn check_caller(&self, device: u64, role: u8) -> Result<(), Reason> {
        if device != self.device {
            return Err(Reason::OtherDevice);
        }
        if !is_role(role) {
            return Err(Reason::UnknownRole);
        }
        Ok(())
    }
}
