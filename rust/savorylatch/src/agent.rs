//! The agent: its calls, and what can be seen of it.

use std::fmt;

use crate::answer::Answer;
use crate::ffi;
use crate::frame::Row;
use crate::reason::Reason;
use crate::store::Store;

/// The agent of one device: who may write, and the configuration. Its entries stand in a [`Store`].
///
/// An agent is plain data: it can be moved to another thread or, together with its store, cloned to
/// go back to later. [`Debug`](fmt::Debug) shows what a support engineer asks for first.
///
/// ```
/// use savorylatch::frame::{self, Head};
/// use savorylatch::{Agent, Answer, Reason, Store, StreamState};
///
/// let (mut agent, mut store, mut answer) = (Agent::new(1), Store::new(), Answer::new());
/// let head = Head { device: 1, role: 2, id: Some(5) };
/// agent.call(&frame::open(3), &mut store, &mut answer);
/// agent.call(&frame::arbitrate(3, &head), &mut store, &mut answer);
///
/// assert_eq!(agent.primary(2), Some(3));
/// assert_eq!(agent.mark(2), Some(5));
/// assert_eq!(agent.stream(3), StreamState::Bound { role: 2, id: Some(5) });
///
/// // The stream breaks off: there is no primary, and the mark stays.
/// agent.call(&frame::close(3), &mut store, &mut answer);
/// assert_eq!(agent.primary(2), None);
/// assert_eq!(agent.mark(2), Some(5));
/// ```
#[derive(Clone)]
pub struct Agent {
    record: ffi::Agent,
}

/// What a stream is.
#[derive(Clone, Copy, Debug, PartialEq, Eq)]
pub enum StreamState {
    /// Closed.
    Closed,
    /// Open, and not bound to a role yet.
    Open,
    /// Open, and bound to a role.
    Bound {
        /// The role.
        role: u8,
        /// The id of the stream's latest accepted ARBITRATE, or `None` if that was unset.
        id: Option<u128>,
    },
}

impl Agent {
    /// A fresh agent for a device: all streams closed, no marks, rows or entries.
    pub fn new(device: u64) -> Agent {
        Agent {
            record: ffi::fresh(device),
        }
    }

    /// Hands the agent a frame and returns the reason; [`Answer::view`] has the records.
    ///
    /// The store must be the one that this agent's earlier calls were lent, and its content as they
    /// left it. With another one the call ends as well, but what it answers is open.
    ///
    /// A call does not allocate or block, and needs at most 10 KB of stack.
    ///
    /// # Panics
    ///
    /// If the archive returns a number that is no [`Reason`]: it is of another version than this
    /// crate.
    pub fn call(&mut self, frame: &[u8], store: &mut Store, answer: &mut Answer) -> Reason {
        self.call_in(frame, &mut store.bytes[..], &mut answer.bytes[..])
    }

    /// As [`call`](Agent::call), in any memory: for a host with buffers of its own.
    ///
    /// A store shorter than [`Store::LENGTH`] or an answer buffer shorter than [`Answer::LENGTH`] is
    /// [`Reason::TooShort`]: nothing has changed, and there is no answer. Bytes behind these lengths
    /// are not looked at.
    ///
    /// ```
    /// use savorylatch::answer::View;
    /// use savorylatch::{frame, Agent, Answer, Command, Reason, Store};
    ///
    /// let mut agent = Agent::new(1);
    /// let mut store = [0; Store::LENGTH];
    /// let mut answer = [0; Answer::LENGTH];
    /// let open = frame::open(3);
    /// assert_eq!(agent.call_in(&open, &mut store, &mut answer[1..]), Reason::TooShort);
    /// assert_eq!(agent.call_in(&open, &mut store, &mut answer), Reason::Done);
    /// assert_eq!(View::new(&answer, Command::Open)?.count(), 0);
    /// # Ok::<(), savorylatch::answer::Unreadable>(())
    /// ```
    ///
    /// # Panics
    ///
    /// As [`call`](Agent::call).
    pub fn call_in(&mut self, frame: &[u8], store: &mut [u8], answer: &mut [u8]) -> Reason {
        let number = ffi::call(&mut self.record, frame, store, answer);
        match Reason::try_from(number) {
            Ok(reason) => reason,
            Err(_) => panic!("libsavorylatch.a is of another version: it returned {number}"),
        }
    }

    /// The device id.
    pub fn device(&self) -> u64 {
        self.record.device
    }

    /// The stream that is primary of the role, if there is one.
    pub fn primary(&self, role: u8) -> Option<u8> {
        let mark = self.mark(role)?;
        let primary = StreamState::Bound {
            role,
            id: Some(mark),
        };
        self.streams()
            .find(|&(_, state)| state == primary)
            .map(|(stream, _)| stream)
    }

    /// The mark of the role, if it has one: the highest id that was ever accepted for it.
    pub fn mark(&self, role: u8) -> Option<u128> {
        self.record
            .streams
            .marks
            .get(usize::from(role))
            .and_then(id)
    }

    /// What a stream is; one over 31 is closed.
    pub fn stream(&self, number: u8) -> StreamState {
        let streams = &self.record.streams.streams;
        match streams.get(usize::from(number)) {
            Some(stream) => state(stream),
            None => StreamState::Closed,
        }
    }

    /// The streams that are not closed, by rising number.
    pub fn streams(&self) -> impl Iterator<Item = (u8, StreamState)> + '_ {
        let streams = (0..).zip(self.record.streams.streams.iter().map(state));
        streams.filter(|&(_, state)| state != StreamState::Closed)
    }

    /// The number of entries in the store. A READ shows them.
    pub fn entries(&self) -> usize {
        self.record.count
    }

    /// The rows of the configuration in force, none before the first CONFIGURE.
    pub fn rows(&self) -> Vec<Row> {
        let rows = &self.record.rows;
        let in_force = rows.rows.iter().take(usize::from(rows.count));
        in_force.map(Row::of_record).collect()
    }
}

impl fmt::Debug for Agent {
    fn fmt(&self, f: &mut fmt::Formatter<'_>) -> fmt::Result {
        /// What is there, each with its number.
        struct Numbered<T>(Vec<(u8, T)>);
        impl<T: fmt::Debug> fmt::Debug for Numbered<T> {
            fn fmt(&self, f: &mut fmt::Formatter<'_>) -> fmt::Result {
                let pairs = self.0.iter().map(|(number, what)| (number, what));
                f.debug_map().entries(pairs).finish()
            }
        }
        let marks = (0..8).filter_map(|role| Some((role, self.mark(role)?)));
        let primaries = (0..8).filter_map(|role| Some((role, self.primary(role)?)));
        f.debug_struct("Agent")
            .field("device", &self.device())
            .field("streams", &Numbered(self.streams().collect()))
            .field("marks", &Numbered(marks.collect()))
            .field("primaries", &Numbered(primaries.collect()))
            .field("rows", &self.rows())
            .field("entries", &self.entries())
            .finish()
    }
}

fn id(id: &ffi::ElectionId) -> Option<u128> {
    let number = u128::from(id.high) << 64 | u128::from(id.low);
    (number != 0).then_some(number)
}

fn state(stream: &ffi::Stream) -> StreamState {
    match stream.phase {
        ffi::PHASE_OPEN => StreamState::Open,
        ffi::PHASE_BOUND => StreamState::Bound {
            role: stream.role,
            id: id(&stream.id),
        },
        _ => StreamState::Closed,
    }
}
