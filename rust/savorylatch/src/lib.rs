//! The agent of a hall switch: safe calls, typed frames and answers.
//!
//! Several controllers connect to a switch; for each role one of them is primary, and only the
//! primary writes the forwarding tables. The agent decides who is primary, checks and stores what
//! it writes, and answers what is read. It is a proved library with a C interface; this crate lends
//! it memory in the way it asks for, and gives types to what goes in and comes out.
//!
//! A host holds an [`Agent`], a [`Store`] and an [`Answer`], and lends all three to each call. A
//! call takes a frame, which a controller sent or [`frame`] builds, and returns a [`Reason`]; the
//! records that go with it are read by [`Answer::view`]. What a frame asks for is read by
//! [`wire::Frame::decode`].
//!
//! ```
//! use savorylatch::answer::{Notification, Status};
//! use savorylatch::frame::{self, Head};
//! use savorylatch::{Agent, Answer, Command, Reason, Store};
//!
//! let mut agent = Agent::new(1);
//! let mut store = Store::new();
//! let mut answer = Answer::new();
//!
//! // Stream 3 opens, and arbitrates for role 0 with election id 5.
//! let head = Head { device: 1, role: 0, id: Some(5) };
//! assert_eq!(agent.call(&frame::open(3), &mut store, &mut answer), Reason::Done);
//! assert_eq!(agent.call(&frame::arbitrate(3, &head), &mut store, &mut answer), Reason::Done);
//!
//! // It is told that it is primary.
//! let told: Vec<_> = answer.view(Command::Arbitrate)?.notifications().collect();
//! assert_eq!(told, [Notification { stream: 3, role: 0, status: Status::Primary, mark: Some(5) }]);
//! assert_eq!(agent.primary(0), Some(3));
//! # Ok::<(), savorylatch::answer::Unreadable>(())
//! ```
//!
//! # The five events
//!
//! A deposed primary's resent batch is refused, even where its id is the highest of all open
//! streams: the id that counts is the mark, the highest that was ever accepted for the role.
//!
//! ```
//! use savorylatch::frame::{self, Action, Entry, Field, Kind, Query, Row, Slot, Value, Wanted};
//! use savorylatch::frame::{Atomicity::ContinueOnError, Head, Update};
//! use savorylatch::{Agent, Answer, Command, Reason, Store};
//!
//! const TENANTS: u32 = 0x0200_0001;
//! const FORWARD: u32 = 0x0100_0001;
//! let rows = [Row {
//!     table: TENANTS,
//!     owner: 0,
//!     size: 4,
//!     fields: vec![Field { kind: Kind::Exact, width: 32 }],
//!     actions: vec![Action { id: FORWARD, widths: vec![9] }],
//! }];
//! // The tenant 10.0.0.1 is forwarded to a port.
//! let to_port = |port| {
//!     Entry::new(TENANTS, 0, [Slot::exact(0x0a00_0001)], FORWARD, [Value::new(port)])
//! };
//! let with = |id| Head { device: 1, role: 0, id: Some(id) };
//!
//! let (mut agent, mut store, mut answer) = (Agent::new(1), Store::new(), Answer::new());
//! let mut call = |frame: Vec<u8>| agent.call(&frame, &mut store, &mut answer);
//!
//! // The old controller, stream 1, is primary with id 5, and the tenant is on port 7.
//! let batch = [Update::insert(to_port(7))];
//! assert_eq!(call(frame::open(1)), Reason::Done);
//! assert_eq!(call(frame::arbitrate(1, &with(5))), Reason::Done);
//! assert_eq!(call(frame::configure(&with(5), &rows)), Reason::Done);
//! assert_eq!(call(frame::write(&with(5), ContinueOnError, &batch)), Reason::Done);
//!
//! // 1. A new controller, stream 2, arbitrates with id 6.
//! assert_eq!(call(frame::open(2)), Reason::Done);
//! assert_eq!(call(frame::arbitrate(2, &with(6))), Reason::Done);
//! // 2. It moves the tenant to port 8.
//! let batch = [Update::modify(to_port(8))];
//! assert_eq!(call(frame::write(&with(6), ContinueOnError, &batch)), Reason::Done);
//! // 3. It lowers its id to 4.
//! assert_eq!(call(frame::arbitrate(2, &with(4))), Reason::Done);
//! // 4. It disconnects.
//! assert_eq!(call(frame::close(2)), Reason::Done);
//! // 5. The old controller, alone now, resends its batch. 5 is not the mark: refused under 10.
//! let batch = [Update::modify(to_port(7))];
//! assert_eq!(call(frame::write(&with(5), ContinueOnError, &batch)), Reason::NotPrimary);
//! assert_eq!(Reason::NotPrimary as u8, 10);
//!
//! // The tenant is where the new controller put it.
//! let everything = Query { device: 1, role: 0, wanted: Wanted::Everything };
//! assert_eq!(call(frame::read(&everything)), Reason::Done);
//! let read: Vec<_> = answer.view(Command::Read)?.entries().collect();
//! assert_eq!(read, [to_port(8)]);
//! assert_eq!((agent.primary(0), agent.mark(0)), (None, Some(6)));
//! # Ok::<(), savorylatch::answer::Unreadable>(())
//! ```
//!
//! # All or none
//!
//! A WRITE with [`RollbackOnError`](frame::Atomicity::RollbackOnError) takes effect as a whole or not
//! at all: if an update fails, the entries are those before the call.
//! [`View::rolled_back`](answer::View::rolled_back) says which update was the cause, and
//! [`View::outcomes`](answer::View::outcomes) what became of each. [`frame::write`] has an example:
//! a tenant is moved, and the table that it is moved to is full.
//!
//! # Cleaning up by key
//!
//! A DELETE needs a table and a key, and no action: [`Update::delete`](frame::Update::delete) takes a
//! [`Key`](frame::Key), which [`Entry::key`](frame::Entry::key) has of an entry that was read.
//!
//! # What is left to the host
//!
//! What is proved of a call holds for an agent and *its* store. All else that the library asks of a
//! host is seen to here; that each agent is lent its own store is not. A call with another agent's
//! store is safe, but what it answers is open.
//!
//! # Building
//!
//! The crate links `libsavorylatch.a` from the folder that the environment variable
//! `SAVORYLATCH_LIB` names by its full path, or else from `target/staticlib` in the repository's
//! root, where `./build library` puts it. The archive is for x86-64.

#![warn(missing_docs)]
#![deny(unsafe_code)]

mod agent;
pub mod answer;
mod bytes;
// The one place where the library is called, and all duties to it are argued.
#[allow(unsafe_code)]
mod ffi;
pub mod frame;
mod reason;
mod store;
pub mod wire;

pub use agent::{Agent, StreamState};
pub use answer::Answer;
pub use frame::Command;
pub use reason::{Code, Reason, UnknownNumber};
pub use store::Store;
