//! Answers: what comes back from the agent, read into types.
//!
//! An answer does not say which command it answers, and its records go by that. So a [`View`] is
//! made of the answer and the command.

use std::error::Error;
use std::fmt;

use crate::bytes::{take, zeros};
use crate::ffi;
use crate::frame::{Command, Entry};
use crate::reason::{Code, Reason};
use crate::wire;

/// The buffer that a call writes its answer to: [`Answer::LENGTH`] bytes, on the heap.
///
/// One buffer serves any number of calls, each of which writes its answer over the one before.
#[derive(Clone)]
pub struct Answer {
    pub(crate) bytes: Box<[u8; Answer::LENGTH]>,
}

impl Answer {
    /// The bytes that a call asks for, whatever it writes.
    pub const LENGTH: usize = ffi::ANSWER;

    /// An empty buffer.
    pub fn new() -> Answer {
        Answer { bytes: zeros() }
    }

    /// All bytes of the buffer, with what earlier calls left behind the answer.
    pub fn as_bytes(&self) -> &[u8] {
        &self.bytes[..]
    }

    /// The answer to the command that was called last. After [`Agent::call`](crate::Agent::call)
    /// with that command, and with the agent's own store, this is always `Ok`.
    ///
    /// ```
    /// use savorylatch::{frame, Agent, Answer, Command, Store};
    ///
    /// let mut answer = Answer::new();
    /// Agent::new(1).call(&frame::open(3), &mut Store::new(), &mut answer);
    /// assert_eq!(answer.view(Command::Open)?.count(), 0);
    /// # Ok::<(), savorylatch::answer::Unreadable>(())
    /// ```
    pub fn view(&self, command: impl Into<Option<Command>>) -> Result<View<'_>, Unreadable> {
        View::new(self.as_bytes(), command)
    }
}

impl Default for Answer {
    fn default() -> Answer {
        Answer::new()
    }
}

impl fmt::Debug for Answer {
    fn fmt(&self, f: &mut fmt::Formatter<'_>) -> fmt::Result {
        let [reason, code, high, low, ..] = *self.bytes;
        f.debug_struct("Answer")
            .field("reason", &reason)
            .field("code", &code)
            .field("count", &u16::from_be_bytes([high, low]))
            .finish_non_exhaustive()
    }
}

/// An answer that was read: its reason, code and count, and records of the command's type.
#[derive(Clone, Copy, Debug)]
pub struct View<'a> {
    reason: Reason,
    count: u16,
    form: Option<Form>,
    records: &'a [u8],
}

/// What records can be.
#[derive(Clone, Copy, Debug, PartialEq, Eq)]
enum Form {
    Notifications,
    Pairs,
    Entries,
}

impl Form {
    fn of(command: Command) -> Option<Form> {
        match command {
            Command::Open | Command::Close | Command::Arbitrate => Some(Form::Notifications),
            Command::Configure => None,
            Command::Write => Some(Form::Pairs),
            Command::Read => Some(Form::Entries),
        }
    }

    fn length(self) -> usize {
        match self {
            Form::Notifications => 20,
            Form::Pairs => 2,
            Form::Entries => 220,
        }
    }

    fn can_read(self, record: &[u8]) -> bool {
        match self {
            Form::Notifications => Notification::read(record).is_some(),
            Form::Pairs => read_pair(record).is_some(),
            Form::Entries => read_entry(record).is_some(),
        }
    }
}

impl<'a> View<'a> {
    /// Reads an answer to a command. The bytes may go on behind the answer.
    ///
    /// For a frame that may be anything the command is [`Command::of`], which is `None` for an
    /// unknown one; such an answer has no records.
    pub fn new(
        answer: &'a [u8],
        command: impl Into<Option<Command>>,
    ) -> Result<View<'a>, Unreadable> {
        let (&[reason, code, high, low], rest) =
            answer.split_first_chunk().ok_or(Unreadable::CutOff)?;
        let (reason, _) = read_pair(&[reason, code]).ok_or(Unreadable::Head { reason, code })?;
        let count = u16::from_be_bytes([high, low]);
        let form = command.into().and_then(Form::of);
        let length = usize::from(count) * form.map_or(0, Form::length);
        let view = View {
            reason,
            count,
            form,
            records: rest.get(..length).ok_or(Unreadable::CutOff)?,
        };
        match form {
            None if count > 0 => Err(Unreadable::Record(0)),
            None => Ok(view),
            // Looked at now, so that the iterators have no failure to hand on.
            Some(form) => match view.records().position(|record| !form.can_read(record)) {
                Some(at) => Err(Unreadable::Record(at)),
                None => Ok(view),
            },
        }
    }

    /// The reason: what the call returned.
    pub fn reason(&self) -> Reason {
        self.reason
    }

    /// The status code of the reason.
    pub fn code(&self) -> Code {
        self.reason.code()
    }

    /// The number of records.
    pub fn count(&self) -> usize {
        usize::from(self.count)
    }

    /// The records' bytes.
    pub fn records(&self) -> impl Iterator<Item = &'a [u8]> + 'a {
        // Without a form there are no bytes to cut, and a length of 0 would panic.
        self.records.chunks_exact(self.form.map_or(1, Form::length))
    }

    /// Who is told what, after OPEN, CLOSE or ARBITRATE; by rising stream. A refused ARBITRATE that
    /// closes a primary's stream has notifications too.
    pub fn notifications(&self) -> impl Iterator<Item = Notification> + 'a {
        self.only(Form::Notifications)
            .filter_map(Notification::read)
    }

    /// How each update of a WRITE ended, in their order.
    ///
    /// An entry that is inserted twice is taken once:
    ///
    /// ```
    /// use savorylatch::answer::View;
    /// use savorylatch::{Code, Command, Reason};
    ///
    /// let view = View::new(&[23, 2, 0, 2, 0, 0, 20, 6], Command::Write)?;
    /// assert_eq!(view.reason(), Reason::SomeFailed);
    /// let pairs: Vec<_> = view.pairs().collect();
    /// assert_eq!(pairs, [(Reason::Done, Code::Ok), (Reason::Stored, Code::AlreadyExists)]);
    /// # Ok::<(), savorylatch::answer::Unreadable>(())
    /// ```
    pub fn pairs(&self) -> impl Iterator<Item = (Reason, Code)> + 'a {
        self.only(Form::Pairs).filter_map(read_pair)
    }

    /// The same as [`pairs`](View::pairs), told apart by what became of the update.
    ///
    /// ```
    /// use savorylatch::answer::{Outcome, View};
    /// use savorylatch::{Command, Reason};
    ///
    /// // An atomic batch of three, of which the second found its key stored.
    /// let view = View::new(&[23, 2, 0, 3, 25, 10, 20, 6, 25, 10], Command::Write)?;
    /// let failed = Outcome::Failed(Reason::Stored);
    /// assert!(view.outcomes().eq([Outcome::RolledBack, failed, Outcome::RolledBack]));
    /// # Ok::<(), savorylatch::answer::Unreadable>(())
    /// ```
    pub fn outcomes(&self) -> impl Iterator<Item = Outcome> + 'a {
        self.pairs().map(|(reason, _)| Outcome::of(reason))
    }

    /// The update for which a batch was rolled back: it failed, and nothing of the batch took
    /// effect. `None` if the batch was not rolled back.
    ///
    /// The answer does not say which atomicity the WRITE had. A batch of one update that failed is
    /// answered alike with both, and counts as rolled back: nothing of it took effect.
    ///
    /// ```
    /// use savorylatch::answer::{Failure, View};
    /// use savorylatch::{Command, Reason};
    ///
    /// let rolled_back = |answer: &[u8]| Ok(View::new(answer, Command::Write)?.rolled_back());
    ///
    /// // Atomic: the second of three failed.
    /// let cause = Failure { update: 1, reason: Reason::Stored };
    /// assert_eq!(rolled_back(&[23, 2, 0, 3, 25, 10, 20, 6, 25, 10])?, Some(cause));
    /// // Each alone: the second failed, and the first took effect.
    /// assert_eq!(rolled_back(&[23, 2, 0, 2, 0, 0, 20, 6])?, None);
    /// // All took effect.
    /// assert_eq!(rolled_back(&[0, 0, 0, 2, 0, 0, 0, 0])?, None);
    /// # Ok::<(), savorylatch::answer::Unreadable>(())
    /// ```
    pub fn rolled_back(&self) -> Option<Failure> {
        let mut others = self
            .outcomes()
            .enumerate()
            .filter(|(_, outcome)| *outcome != Outcome::RolledBack);
        match (others.next(), others.next()) {
            (Some((update, Outcome::Failed(reason))), None) => Some(Failure { update, reason }),
            _ => None,
        }
    }

    /// The entries that a READ asked for: by row of the configuration, then in order of insertion.
    pub fn entries(&self) -> impl Iterator<Item = Entry> + 'a {
        self.only(Form::Entries).filter_map(read_entry)
    }

    /// The answer as the program `play` prints it: the call's ordinal, the reason, its code, the
    /// number of records, and each record in hex.
    ///
    /// ```
    /// use savorylatch::answer::View;
    /// use savorylatch::Command;
    ///
    /// let view = View::new(&[23, 2, 0, 2, 0, 0, 20, 6], Command::Write)?;
    /// assert_eq!(view.printed(4), "4 23 2 2 0000 1406");
    /// # Ok::<(), savorylatch::answer::Unreadable>(())
    /// ```
    pub fn printed(&self, ordinal: usize) -> String {
        let (reason, code, count) = (self.reason.number(), self.code().number(), self.count);
        let mut line = format!("{ordinal} {reason} {code} {count}");
        for record in self.records() {
            line.push(' ');
            line.extend(record.iter().map(|byte| format!("{byte:02x}")));
        }
        line
    }

    /// The records, if they are of this form.
    fn only(&self, form: Form) -> impl Iterator<Item = &'a [u8]> + 'a {
        let is = self.form == Some(form);
        self.records().filter(move |_| is)
    }
}

/// What became of an update.
#[derive(Clone, Copy, Debug, PartialEq, Eq)]
pub enum Outcome {
    /// It took effect.
    TookEffect,
    /// It failed, for this reason.
    Failed(Reason),
    /// Another update of its atomic batch failed. It was undone, or never tried: either way it did
    /// not take effect, and nothing is wrong with it that is known.
    RolledBack,
}

impl Outcome {
    /// By the reason in the update's pair.
    pub const fn of(reason: Reason) -> Outcome {
        match reason {
            Reason::Done => Outcome::TookEffect,
            Reason::RolledBack => Outcome::RolledBack,
            reason => Outcome::Failed(reason),
        }
    }
}

/// The update that an atomic batch failed with.
#[derive(Clone, Copy, Debug, PartialEq, Eq)]
pub struct Failure {
    /// Its place in the batch, from 0.
    pub update: usize,
    /// Why it failed.
    pub reason: Reason,
}

/// What a stream is told about its role.
#[derive(Clone, Copy, Debug, PartialEq, Eq)]
pub struct Notification {
    /// The stream that is told.
    pub stream: u8,
    /// The role it is bound to.
    pub role: u8,
    /// Who is primary.
    pub status: Status,
    /// The mark of the role: the highest id that was ever accepted for it.
    pub mark: Option<u128>,
}

/// What a notification says of the primary; the discriminant is the number in the record.
#[derive(Clone, Copy, Debug, PartialEq, Eq, Hash)]
#[repr(u8)]
pub enum Status {
    /// The stream that is told is primary.
    Primary = 0,
    /// The role has no primary.
    NoPrimary = 5,
    /// Another stream is primary.
    OtherPrimary = 6,
}

impl Status {
    /// The number as the status code that it is in the gRPC list.
    pub const fn code(self) -> Code {
        match self {
            Status::Primary => Code::Ok,
            Status::NoPrimary => Code::NotFound,
            Status::OtherPrimary => Code::AlreadyExists,
        }
    }
}

impl Notification {
    fn read(mut record: &[u8]) -> Option<Notification> {
        let from = &mut record;
        let [stream, role, status, flag] = take(from)?;
        let mark = u128::from_be_bytes(take(from)?);
        Some(Notification {
            stream,
            role,
            status: match status {
                0 => Status::Primary,
                5 => Status::NoPrimary,
                6 => Status::OtherPrimary,
                _ => return None,
            },
            mark: match (flag, mark) {
                (0, 0) => None,
                (1, 1..) => Some(mark),
                _ => return None,
            },
        })
    }
}

fn read_pair(record: &[u8]) -> Option<(Reason, Code)> {
    let &[reason, code] = record else { return None };
    let reason = Reason::try_from(reason).ok()?;
    (reason.code().number() == code).then_some((reason, reason.code()))
}

fn read_entry(record: &[u8]) -> Option<Entry> {
    wire::Entry::decode(record)?.typed()
}

/// Why bytes are not an answer to the command.
#[derive(Clone, Copy, Debug, PartialEq, Eq)]
pub enum Unreadable {
    /// They end before the answer does.
    CutOff,
    /// The reason is none, or the code is not the reason's.
    Head {
        /// The number in the reason's place.
        reason: u8,
        /// The number in the code's place.
        code: u8,
    },
    /// This record, counted from 0, is none of the command's.
    Record(usize),
}

impl fmt::Display for Unreadable {
    fn fmt(&self, f: &mut fmt::Formatter<'_>) -> fmt::Result {
        match self {
            Unreadable::CutOff => write!(f, "the answer is cut off"),
            Unreadable::Head { reason, code } => {
                write!(f, "no answer has reason {reason} with code {code}")
            }
            Unreadable::Record(at) => write!(f, "record {at} is not of the command's type"),
        }
    }
}

impl Error for Unreadable {}

#[cfg(test)]
mod tests {
    use super::*;
    use crate::bytes::unhex;

    fn notification(stream: u8, role: u8, status: u8, mark: Option<u128>) -> Vec<u8> {
        let head = [stream, role, status, u8::from(mark.is_some())];
        [&head[..], &mark.unwrap_or(0).to_be_bytes()].concat()
    }

    #[test]
    fn notifications_are_read() {
        let mut answer = unhex("0000 0003");
        answer.extend(notification(3, 0, 0, Some(u128::MAX)));
        answer.extend(notification(4, 7, 5, None));
        answer.extend(notification(31, 7, 6, Some(1 << 64)));
        answer.push(0xaa);
        for command in [Command::Open, Command::Close, Command::Arbitrate] {
            let view = View::new(&answer, command).unwrap();
            assert_eq!((view.reason(), view.code()), (Reason::Done, Code::Ok));
            assert_eq!(view.count(), 3);
            let read: Vec<_> = view.notifications().collect();
            let told = |stream, role, status, mark| Notification {
                stream,
                role,
                status,
                mark,
            };
            assert_eq!(
                read,
                [
                    told(3, 0, Status::Primary, Some(u128::MAX)),
                    told(4, 7, Status::NoPrimary, None),
                    told(31, 7, Status::OtherPrimary, Some(1 << 64)),
                ]
            );
            assert_eq!(view.pairs().count() + view.entries().count(), 0);
            assert_eq!(view.records().map(<[u8]>::len).collect::<Vec<_>>(), [20; 3]);
        }
    }

    #[test]
    fn statuses_are_codes() {
        for status in [Status::Primary, Status::NoPrimary, Status::OtherPrimary] {
            assert_eq!(status as u8, status.code().number());
        }
    }

    #[test]
    fn what_is_cut_off_is_not_read() {
        let whole = unhex("1702 0002 0000 1406");
        assert!(View::new(&whole, Command::Write).is_ok());
        for length in 0..whole.len() {
            let read = View::new(&whole[..length], Command::Write);
            assert_eq!(read.err(), Some(Unreadable::CutOff), "{length}");
        }
        let most = unhex("0000 ffff");
        for command in [Command::Open, Command::Write, Command::Read] {
            assert!(View::new(&most, command).is_err());
        }
    }

    #[test]
    fn what_is_no_answer_is_not_read() {
        let error = |bytes: &[u8], command| View::new(bytes, command).err();
        // Heads.
        let head = |reason, code| Some(Unreadable::Head { reason, code });
        assert_eq!(error(&[26, 0, 0, 0], Command::Open), head(26, 0));
        assert_eq!(error(&[24, 8, 0, 0], Command::Write), head(24, 8));
        assert_eq!(error(&[10, 5, 0, 0], Command::Write), head(10, 5));
        // Pairs.
        let third = Some(Unreadable::Record(2));
        for (reason, code) in [(26, 0), (25, 0), (24, 8), (10, 5)] {
            let answer = [0, 0, 0, 3, 0, 0, 0, 0, reason, code];
            assert_eq!(error(&answer, Command::Write), third);
        }
        // Records where the command has none.
        let first = Some(Unreadable::Record(0));
        assert_eq!(error(&[0, 0, 0, 1], Command::Configure), first);
        assert_eq!(View::new(&[1, 3, 0, 1], None).err(), first);
        // Notifications: another status, and a flag that does not go with the id.
        let mut other = notification(0, 0, 0, Some(1));
        other[2] = 1;
        for record in [
            other,
            notification(0, 0, 0, Some(0)),
            [&[0, 0, 0, 0][..], &[1; 16]].concat(),
            [&[0, 0, 0, 2][..], &[1; 16]].concat(),
        ] {
            let answer = [unhex("0000 0001"), record].concat();
            assert_eq!(error(&answer, Command::Close), first);
        }
        // Entries: 220 bytes of anything.
        let answer = [unhex("0000 0001"), vec![0xff; 220]].concat();
        assert_eq!(error(&answer, Command::Read), first);
    }

    #[test]
    fn a_batch_is_rolled_back_by_one_update() {
        // Count and pairs; the update that is the cause, and its reason.
        let stored = |update| Some((update, Reason::Stored));
        for (records, cause) in [
            ("0003 190a 1406 190a", stored(1)),
            ("0003 1406 190a 190a", stored(0)),
            ("0003 190a 190a 1608", Some((2, Reason::TableFull))),
            // One update: nothing took effect, with whichever atomicity.
            ("0001 1406", stored(0)),
            ("0001 0000", None),
            // Each alone.
            ("0002 1406 1406", None),
            ("0002 0000 1406", None),
            ("0002 1406 0000", None),
            ("0000", None),
            // No answer of the agent.
            ("0002 190a 190a", None),
            ("0002 0000 190a", None),
            ("0003 0000 1406 190a", None),
        ] {
            let answer = unhex(&format!("1702 {records}"));
            let read = View::new(&answer, Command::Write).ok();
            let found = read.and_then(|view| view.rolled_back());
            let found = found.map(|failure| (failure.update, failure.reason));
            assert_eq!(found, cause, "{records}");
        }
        // Other commands have no updates.
        let answer = [unhex("0000 0001"), notification(1, 0, 0, Some(5))].concat();
        let view = View::new(&answer, Command::Arbitrate).unwrap();
        assert_eq!(view.rolled_back(), None);
        assert_eq!(view.outcomes().count(), 0);
    }

    #[test]
    fn an_unknown_command_has_no_records() {
        let view = View::new(&[1, 3, 0, 0], None).unwrap();
        assert_eq!(view.reason(), Reason::BadFrame);
        assert_eq!(view.records().count(), 0);
        assert_eq!(view.notifications().count(), 0);
    }
}
