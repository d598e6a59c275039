//! What a WRITE makes of its updates: a reason for each of them, in order.
//!
//! One function for each atomicity that is offered. Neither judges an update:
//! [`Tables::update`] carries it out or says why not.

use crate::frame::{parts, UPDATE};
use crate::reason::Reason;
use crate::tables::Tables;

/// Atomicity 0: each update succeeds or fails alone.
pub fn each_alone(tables: &mut Tables, role: u8, updates: &[u8]) -> Vec<Reason> {
    let mut reasons = Vec::new();
    for update in parts(updates) {
        let reason = match tables.update(role, update) {
            Ok(()) => Reason::Done,
            Err(reason) => reason,
        };
        reasons.push(reason);
    }
    reasons
}

/// Atomicity 1 (document 02, request Two): all updates or none.
///
/// They are carried out on a copy of the tables, so each is judged as though
/// those before it had taken effect. Where none fails the copy takes the place
/// of the tables. The first one that fails ends the batch: the copy is dropped,
/// that update keeps its reason, and all others, done on the copy or not looked
/// at, are 25.
pub fn all_or_none(tables: &mut Tables, role: u8, updates: &[u8]) -> Vec<Reason> {
    let updates: Vec<&[u8; UPDATE]> = parts(updates).collect();
    let mut copy = tables.clone();
    for (at, update) in updates.iter().enumerate() {
        if let Err(reason) = copy.update(role, update) {
            let mut reasons = vec![Reason::BatchFailed; updates.len()];
            reasons[at] = reason;
            return reasons;
        }
    }
    *tables = copy;
    vec![Reason::Done; updates.len()]
}
