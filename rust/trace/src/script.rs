//! A script as it was read: its calls as frames, and what is expected of each.

use std::rc::Rc;

use savorylatch::wire::Entry;
use savorylatch::Reason;

use crate::names::Names;
use crate::notation::Notations;

/// A script that was read whole.
#[derive(Clone, Debug)]
pub struct Script {
    /// The agent's device id.
    pub device: u64,
    pub calls: Vec<Call>,
    pub notations: Notations,
}

/// A call of a script.
#[derive(Clone, Debug)]
pub struct Call {
    /// The line it begins in.
    pub line: usize,
    pub frame: Vec<u8>,
    /// The names that hold for its line.
    pub names: Rc<Names>,
    pub expectations: Vec<Expectation>,
}

/// An `expect` line, or a line `>` or `<`.
#[derive(Clone, Debug)]
pub struct Expectation {
    pub line: usize,
    /// The line's words.
    pub text: String,
    pub what: Expected,
}

/// What such a line asks for.
#[derive(Clone, Debug, PartialEq, Eq)]
pub enum Expected {
    /// `>`: the call's frame.
    Frame(Vec<u8>),
    /// `<`: the line that `play` prints of the call.
    Printed(String),
    Reason(Reason),
    Told {
        stream: u8,
        status: u8,
        /// `None`: it is not compared.
        mark: Option<Option<u128>>,
    },
    ToldCount(usize),
    Pairs(Vec<Reason>),
    Primary {
        role: u8,
        stream: Option<u8>,
    },
    Mark {
        role: u8,
        id: Option<u128>,
    },
    Entries(usize),
    Entry {
        entry: Entry,
        /// Is the action compared too?
        action: bool,
    },
    Stream {
        stream: u8,
        state: ExpectedState,
    },
}

/// What a stream is expected to be.
#[derive(Clone, Copy, Debug, PartialEq, Eq)]
pub enum ExpectedState {
    Closed,
    Open,
    Bound {
        role: u8,
        /// `None`: it is not compared.
        id: Option<Option<u128>>,
    },
}
