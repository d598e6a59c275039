//! Why a call was answered as it was.
//!
//! The reason is always the agent's. What is found here only stands beside it, and only where it
//! agrees with it.

mod done;
mod entry;
mod refused;
mod rows;
#[cfg(test)]
mod tests;
mod updates;

use savorylatch::Reason;

use crate::play::Outcome;
use crate::words::Words;

pub use updates::updates;

/// A reason that was looked for, and what it was found to lie in.
pub struct Finding {
    pub reason: Reason,
    pub text: String,
}

impl Finding {
    fn new(reason: Reason, text: impl Into<String>) -> Finding {
        Finding {
            reason,
            text: text.into(),
        }
    }
}

/// One sentence about a call's answer, without a full stop.
pub fn answer(outcome: &Outcome, words: &Words) -> String {
    let known = match outcome.reason {
        Reason::Done | Reason::SomeFailed => done::sentence(outcome, words),
        reason => refused::sentence(outcome, words)
            .filter(|finding| finding.reason == reason)
            .map(|finding| finding.text),
    };
    known.unwrap_or_else(|| general(outcome.reason).to_owned())
}

/// What a reason says of any call, where nothing more is known.
pub fn general(reason: Reason) -> &'static str {
    match reason {
        Reason::Done => "the call was accepted",
        Reason::BadFrame => "the bytes are not a frame of the agent",
        Reason::TooShort => "the host's answer buffer or store is too short",
        Reason::AlreadyOpen => "the stream is open already",
        Reason::NotOpen => "the stream is not open",
        Reason::OtherDevice => "the call names another device than the agent's",
        Reason::NoSuchRole => "the role is over 7",
        Reason::Rebound => "the stream is bound to another device or role",
        Reason::IdInUse => "another open stream of the role holds the id",
        Reason::RoleFull => "eight streams are bound to the role already",
        Reason::NotPrimary => "the id is unset, or the role has no primary, or it is not the mark",
        Reason::NotRole0 => "only the primary of role 0 may configure",
        Reason::NotConfigured => "there is no configuration yet",
        Reason::Atomicity => "only atomicity 0 and 1 are offered",
        Reason::RowsNotAllowed => "the rows are not allowed; those before stay in force",
        Reason::NoSuchTable => "no row of the configuration has the table",
        Reason::NotTheRoles => "the table is owned by another role",
        Reason::BadForm => "the type, a slot, a value or the action is not well formed",
        Reason::TooWide => "a value does not fit its width",
        Reason::RuleBroken => "a rule of the match kinds or of the priority is broken",
        Reason::Stored => "an entry with this key is stored already",
        Reason::NotStored => "no entry with this key is stored",
        Reason::TableFull => "the table holds as many entries as its size allows",
        Reason::SomeFailed => "an update failed; the pairs say which, and which took effect",
        Reason::RolledBack => "another update of this batch failed: undone, or not tried",
        _ => "a reason that this program does not know",
    }
}
