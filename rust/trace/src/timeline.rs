//! A picture of a script: streams as lanes over time, ids, marks, who is primary, what was refused.

mod draw;
mod lanes;
mod text;

use savorylatch::frame::Head;
use savorylatch::{Agent, Reason, StreamState};

use crate::call::Call;
use crate::explain;
use crate::play::Outcome;
use crate::words::Words;

pub use draw::svg;

/// A call as the picture shows it.
#[derive(Clone, Debug)]
pub struct Moment {
    /// The command with its stream, the role, and the id.
    pub title: [String; 3],
    pub reason: Reason,
    /// The sentence of a refused call or of one with failed updates.
    pub why: Option<String>,
    /// Streams and the status that each is told.
    pub told: Vec<(u8, u8)>,
    pub after: Agent,
}

/// A call, short.
pub fn moment(outcome: &Outcome, words: &Words) -> Moment {
    let failed = outcome.reason != Reason::Done;
    let told = outcome.told.iter();
    Moment {
        title: title(outcome, words),
        reason: outcome.reason,
        why: failed.then(|| explain::answer(outcome, words)),
        told: told.map(|told| (told.stream, told.status as u8)).collect(),
        after: outcome.after.clone(),
    }
}

fn title(outcome: &Outcome, words: &Words) -> [String; 3] {
    let named = |verb: &str, head: &Head| {
        let id = head.id.map(|id| format!("id {}", words.id(id)));
        let id = id.unwrap_or("no id".to_owned());
        [verb.to_owned(), format!("role {}", head.role), id]
    };
    let alone = |verb: String| [verb, String::new(), String::new()];
    match &outcome.call {
        Ok(Call::Open { stream }) => alone(format!("open {stream}")),
        Ok(Call::Close { stream }) => alone(format!("close {stream}")),
        Ok(Call::Arbitrate { stream, head }) => named(&format!("arbitrate {stream}"), head),
        Ok(Call::Configure { head, .. }) => named("configure", head),
        Ok(Call::Write {
            head, atomicity: 1, ..
        }) => named("write atomic", head),
        Ok(Call::Write { head, .. }) => named("write", head),
        Ok(Call::Read { role, .. }) => ["read".to_owned(), format!("role {role}"), String::new()],
        Err(_) => alone("raw".to_owned()),
    }
}

/// What a lane shows over some calls.
#[derive(Clone, Debug, PartialEq, Eq)]
pub enum State {
    Closed,
    Open,
    Backup { role: u8, id: Option<u128> },
    Primary { role: u8, id: u128 },
}

/// What a stream is after a call.
pub fn state(agent: &Agent, stream: u8) -> State {
    match agent.stream(stream) {
        StreamState::Closed => State::Closed,
        StreamState::Open => State::Open,
        StreamState::Bound { role, id } => match id {
            Some(id) if agent.primary(role) == Some(stream) => State::Primary { role, id },
            id => State::Backup { role, id },
        },
    }
}
