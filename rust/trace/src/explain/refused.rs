//! Why a call was refused.
//!
//! The tests run in the order of document 01; the first that fails is the finding. Where the agent
//! says another reason, nothing of this is shown.

use savorylatch::frame::Head;
use savorylatch::{Agent, Reason, StreamState};

use crate::call::{Call, Wanted};
use crate::explain::{entry, rows, Finding};
use crate::play::Outcome;
use crate::words::Words;

pub fn sentence(outcome: &Outcome, words: &Words) -> Option<Finding> {
    let call = match &outcome.call {
        Ok(call) => call,
        Err(form) => return Some(Finding::new(Reason::BadFrame, form.clone())),
    };
    let agent = &outcome.before;
    form(call)
        .map(|text| Finding::new(Reason::BadFrame, text))
        .or_else(|| match call {
            Call::Open { stream } => opened(*stream, agent, words),
            Call::Close { stream } => not_open(*stream, agent),
            Call::Arbitrate { stream, head } => arbitrated(*stream, head, agent, words),
            Call::Configure { head, rows } => {
                let named = who(head.device, head.role, agent);
                named
                    .or_else(|| not_role_0(head.role))
                    .or_else(|| not_primary(head, agent, words))
                    .or_else(|| rows::finding(rows, words))
            }
            Call::Write {
                head, atomicity, ..
            } => who(head.device, head.role, agent)
                .or_else(|| not_primary(head, agent, words))
                .or_else(|| not_configured(agent))
                .or_else(|| atomic(*atomicity)),
            Call::Read {
                device,
                role,
                wanted,
            } => who(*device, *role, agent)
                .or_else(|| not_configured(agent))
                .or_else(|| wanted_table(*role, wanted, agent, words)),
        })
}

/// What is wrong with the form of a frame that a statement can send.
fn form(call: &Call) -> Option<String> {
    match call {
        Call::Open { stream } | Call::Close { stream } | Call::Arbitrate { stream, .. }
            if *stream > 31 =>
        {
            Some(format!("stream {stream} is over 31"))
        }
        Call::Arbitrate { head, .. } | Call::Configure { head, .. } | Call::Write { head, .. }
            if head.id == Some(0) =>
        {
            Some("a set id is at least 1; the unset id has flag 0".to_owned())
        }
        Call::Configure { rows, .. } if rows.is_empty() => {
            Some("a configuration has 1 to 8 rows, and there is none".to_owned())
        }
        Call::Read {
            wanted: Wanted::Key { table: 0, .. },
            ..
        } => Some("one key is asked for, but table 0 stands for every table".to_owned()),
        _ => None,
    }
}

fn opened(stream: u8, agent: &Agent, words: &Words) -> Option<Finding> {
    let bound = match agent.stream(stream) {
        StreamState::Closed => return None,
        StreamState::Open => ", and not bound to a role".to_owned(),
        StreamState::Bound { role, id: None } => format!(", bound to role {role} without an id"),
        StreamState::Bound { role, id: Some(id) } => {
            format!(", bound to role {role} with id {}", words.id(id))
        }
    };
    let text = format!("stream {stream} is open already{bound}");
    Some(Finding::new(Reason::AlreadyOpen, text))
}

fn not_open(stream: u8, agent: &Agent) -> Option<Finding> {
    let closed = agent.stream(stream) == StreamState::Closed;
    let text = || format!("stream {stream} is not open");
    closed.then(|| Finding::new(Reason::NotOpen, text()))
}

fn arbitrated(stream: u8, head: &Head, agent: &Agent, words: &Words) -> Option<Finding> {
    let unbound = match agent.stream(stream) {
        StreamState::Closed => return not_open(stream, agent),
        StreamState::Open => true,
        StreamState::Bound { .. } => false,
    };
    let mut finding = match unbound {
        true => who(head.device, head.role, agent),
        false => rebound(stream, head, agent),
    };
    finding = finding
        .or_else(|| in_use(stream, head, agent, words))
        .or_else(|| unbound.then(|| full(head.role, agent)).flatten());
    finding.map(|mut finding| {
        finding.text += &format!("; stream {stream} is closed for it");
        finding
    })
}

fn rebound(stream: u8, head: &Head, agent: &Agent) -> Option<Finding> {
    let StreamState::Bound { role, .. } = agent.stream(stream) else {
        return None;
    };
    let (device, own) = (head.device, agent.device());
    let text = match (role == head.role, device == own) {
        (true, true) => return None,
        (false, _) => format!(
            "stream {stream} is bound to role {role} and cannot go over to role {}",
            head.role
        ),
        (true, false) => {
            format!("stream {stream} is bound on device {own}, and the call names device {device}")
        }
    };
    Some(Finding::new(Reason::Rebound, text))
}

fn in_use(stream: u8, head: &Head, agent: &Agent, words: &Words) -> Option<Finding> {
    let id = head.id?;
    let held = StreamState::Bound {
        role: head.role,
        id: Some(id),
    };
    let mut others = agent.streams().filter(|&(other, _)| other != stream);
    let (holder, _) = others.find(|&(_, state)| state == held)?;
    let id = words.id(id);
    let text = format!(
        "id {id} is held by stream {holder}, open and bound to role {}",
        head.role
    );
    Some(Finding::new(Reason::IdInUse, text))
}

fn full(role: u8, agent: &Agent) -> Option<Finding> {
    let is_bound = |state| matches!(state, StreamState::Bound { role: r, .. } if r == role);
    let bound = agent.streams().filter(|&(_, state)| is_bound(state));
    let bound: Vec<String> = bound.map(|(stream, _)| stream.to_string()).collect();
    let text = || {
        let streams = bound.join(", ");
        format!("eight streams are bound to role {role} already: {streams}")
    };
    (bound.len() >= 8).then(|| Finding::new(Reason::RoleFull, text()))
}

/// Device and role, as every call but OPEN and CLOSE names them.
fn who(device: u64, role: u8, agent: &Agent) -> Option<Finding> {
    let own = agent.device();
    if device != own {
        let text = format!("the call names device {device}, and the agent's is {own}");
        return Some(Finding::new(Reason::OtherDevice, text));
    }
    let text = || format!("role {role} is over 7");
    (role > 7).then(|| Finding::new(Reason::NoSuchRole, text()))
}

fn not_primary(head: &Head, agent: &Agent, words: &Words) -> Option<Finding> {
    let role = head.role;
    let primary = agent.primary(role);
    let text = match (head.id.map(|id| (id, words.id(id))), agent.mark(role)) {
        (None, _) => {
            let who = match primary {
                Some(stream) => format!("stream {stream} is primary of role {role}"),
                None => format!("role {role} has no primary"),
            };
            format!("the id is unset, and so never the primary's; {who}")
        }
        (Some((_, id)), None) => {
            format!(
                "id {id} is not the mark of role {role}, which has none: nobody was primary yet"
            )
        }
        (Some((number, id)), Some(mark)) if number == mark => match primary {
            Some(_) => return None,
            None => format!(
                "id {id} is the mark of role {role}, but no open stream holds it, \
                 so role {role} has no primary"
            ),
        },
        (Some((_, id)), Some(mark)) => {
            let mark = words.id(mark);
            let holder = match primary {
                Some(stream) => format!("stream {stream} holds the mark and is primary"),
                None => format!("nobody holds the mark, so role {role} has no primary"),
            };
            format!("id {id} is not the mark of role {role}, which is {mark}; {holder}")
        }
    };
    Some(Finding::new(Reason::NotPrimary, text))
}

fn not_role_0(role: u8) -> Option<Finding> {
    let text =
        || format!("only the primary of role 0 may configure, and the call names role {role}");
    (role != 0).then(|| Finding::new(Reason::NotRole0, text()))
}

fn not_configured(agent: &Agent) -> Option<Finding> {
    let text = "no configuration was accepted yet";
    let none = agent.rows().is_empty();
    none.then(|| Finding::new(Reason::NotConfigured, text))
}

fn atomic(atomicity: u8) -> Option<Finding> {
    let text = "atomicity 2, dataplane atomic, is not offered; \
                with 0 each update succeeds or fails alone, with 1 all take effect or none";
    (atomicity > 1).then(|| Finding::new(Reason::Atomicity, text))
}

fn wanted_table(role: u8, wanted: &Wanted, agent: &Agent, words: &Words) -> Option<Finding> {
    let (table, key) = match wanted {
        Wanted::Everything => return None,
        Wanted::Table(table) => (*table, None),
        Wanted::Key { table, key } => (*table, Some(key)),
    };
    let rows = agent.rows();
    match entry::row(table, role, &rows, words) {
        Err(finding) => Some(finding),
        Ok(row) => entry::key(row, key?, words),
    }
}
