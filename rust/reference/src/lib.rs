//! The hall switch agent, a second time.
//!
//! A second implementation of document 01 and of requests One, Two and Five of
//! document 02, for comparison with the proved one.
//! It shares nothing with that: types, layout and control flow are its own.
//!
//! Two evaluations of the same rules live side by side here:
//!
//! * [`Agent`] keeps streams, marks and tables and answers each call from them,
//!   the way a program would;
//! * [`lookback::Past`] keeps a log of what happened and derives the answer of
//!   each call from that log, the way document 01's "Looking back" words it.
//!
//! They share no code either. [`bytes`] builds frames, well formed or not, and
//! the pieces of answers, for tests and for a comparison's generator.
//!
//! Reading order: [`reason`] (numbers and status codes), [`frame`] (what a
//! frame says), [`streams`] (who is primary), [`rows`] (configuration),
//! [`entry`] (what an entry must look like), [`tables`] (what is stored),
//! [`batch`] (the updates of a WRITE), [`agent`] (the order of refusals).

#![forbid(unsafe_code)]

pub mod agent;
pub mod answer;
pub mod batch;
pub mod bytes;
pub mod entry;
pub mod frame;
pub mod lookback;
pub mod reason;
pub mod rows;
pub mod streams;
pub mod tables;

pub use agent::{Agent, ANSWER_ROOM, STORE_ROOM};
pub use frame::Command;
pub use lookback::{Expected, Past};
pub use reason::Reason;
