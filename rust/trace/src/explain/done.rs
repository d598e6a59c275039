//! What an accepted call did.

use savorylatch::frame::Head;
use savorylatch::{Agent, Reason, StreamState};

use crate::call::Call;
use crate::explain::updates;
use crate::play::Outcome;
use crate::words::{some, Words};

pub fn sentence(outcome: &Outcome, words: &Words) -> Option<String> {
    let before = &outcome.before;
    Some(match outcome.call.as_ref().ok()? {
        Call::Open { stream } => format!("stream {stream} is open, and not bound to a role yet"),
        Call::Close { stream } => closed(*stream, before, words),
        Call::Arbitrate { stream, head } => arbitrated(*stream, head, before, words),
        Call::Configure { rows, .. } => configured(rows.len(), before.entries()),
        Call::Write { atomicity: 1, .. } => written_atomic(&outcome.pairs),
        Call::Write { .. } => written(&outcome.pairs),
        Call::Read { .. } => some(outcome.entries.len(), "entry", "entries"),
    })
}

fn closed(stream: u8, before: &Agent, words: &Words) -> String {
    let StreamState::Bound { role, .. } = before.stream(stream) else {
        return format!("stream {stream} was not bound to a role, so nobody is told");
    };
    if before.primary(role) != Some(stream) {
        return format!("stream {stream} was not primary of role {role}, so nobody is told");
    }
    let mark = before
        .mark(role)
        .map_or(String::new(), |mark| words.id(mark));
    format!("stream {stream} was primary of role {role}, which has none now; the mark stays {mark}")
}

fn arbitrated(stream: u8, head: &Head, before: &Agent, words: &Words) -> String {
    let role = head.role;
    let was = before.primary(role) == Some(stream);
    let (is, is_not) = match was {
        true => ("it stays primary", "it is primary no longer, and nobody is"),
        false => ("it is primary", "it is not primary"),
    };
    let place = match (head.id.map(|id| (id, words.id(id))), before.mark(role)) {
        (None, _) => format!("no id: {is_not}"),
        (Some((number, id)), Some(mark)) if number < mark => {
            format!("id {id}, below the mark {}: {is_not}", words.id(mark))
        }
        (Some((number, id)), Some(mark)) if number == mark => {
            format!("id {id}, which is the mark: {is}")
        }
        (Some((_, id)), _) => format!("id {id}, the new mark: {is}"),
    };
    match before.stream(stream) {
        StreamState::Bound { id, .. } if id == head.id => {
            format!("stream {stream} of role {role} still has {place}")
        }
        StreamState::Bound { id: Some(id), .. } => {
            let id = words.id(id);
            format!("stream {stream} of role {role}, until now with id {id}, now has {place}")
        }
        StreamState::Bound { id: None, .. } => {
            format!("stream {stream} of role {role}, until now without an id, now has {place}")
        }
        _ => format!("stream {stream} is bound to role {role} with {place}"),
    }
}

fn configured(rows: usize, entries: usize) -> String {
    let tables = some(rows, "table is", "tables are");
    let gone = match entries {
        0 => "no entries are stored".to_owned(),
        1 => "the 1 entry stored before is gone".to_owned(),
        _ => format!("the {entries} entries stored before are gone"),
    };
    format!("{tables} configured; {gone}")
}

/// Of an atomic batch, that it took effect, or which update it was rolled back for.
fn written_atomic(pairs: &[Reason]) -> String {
    match (updates::cause(pairs), pairs.len()) {
        (None, _) => written(pairs),
        (Some(_), 1) => "its update failed: the entries are as before".to_owned(),
        (Some(at), all) => format!(
            "update {} of {all} failed, so nothing of the batch took effect: the entries are as before",
            at + 1
        ),
    }
}

fn written(pairs: &[Reason]) -> String {
    let failed = pairs.iter().filter(|&&pair| pair != Reason::Done).count();
    let took = pairs.len() - failed;
    match (failed, took) {
        (0, 0) => "there are no updates".to_owned(),
        (0, _) => format!("{} took effect", some(took, "update", "updates")),
        (1, 0) => "its update failed".to_owned(),
        (_, 0) => format!("all {failed} updates failed, each alone"),
        _ => {
            let all = pairs.len();
            format!("{failed} of {all} updates failed, each alone; {took} took effect")
        }
    }
}
