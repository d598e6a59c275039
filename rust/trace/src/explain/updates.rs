//! Why each update of a WRITE ended as it did.

use savorylatch::frame::{Head, Row};
use savorylatch::wire::{Entry, Update};
use savorylatch::Reason;

use crate::call::Call;
use crate::explain::{entry, general, Finding};
use crate::play::{Outcome, Player};
use crate::words::{some, Words};

/// For each update of a WRITE that was not refused, a sentence if it did not take effect.
pub fn updates(outcome: &Outcome, words: &Words) -> Vec<Option<String>> {
    let cause = cause(&outcome.pairs);
    each(outcome, |at, update, reason, past| {
        let known = match reason {
            Reason::Done => return None,
            Reason::RolledBack => cause.map(|cause| rolled_back(at, cause)),
            _ => past.finding(update, words),
        };
        let known = known.filter(|finding| finding.reason == reason);
        Some(known.map_or(general(reason).to_owned(), |finding| finding.text))
    })
}

/// The place of the update that an atomic batch was rolled back for: the one that failed of itself.
pub(super) fn cause(pairs: &[Reason]) -> Option<usize> {
    let own = |reason: &Reason| !matches!(reason, Reason::Done | Reason::RolledBack);
    pairs.iter().position(own)
}

/// What became of an update for the sake of another of its batch.
fn rolled_back(at: usize, cause: usize) -> Finding {
    let number = cause + 1;
    let text = match at < cause {
        true => format!("undone, because update {number} failed"),
        false => format!("not tried, because update {number} failed before it"),
    };
    Finding::new(Reason::RolledBack, text)
}

/// What an update comes upon.
pub(super) struct Past {
    role: u8,
    rows: Vec<Row>,
    player: Player,
}

/// Looks at each update of a WRITE that was not refused. They are done again one by one, as what is
/// stored changes from each to the next; so it does within an atomic batch, up to the one that fails.
pub(super) fn each<T>(
    outcome: &Outcome,
    look: impl Fn(usize, &Update, Reason, &Past) -> T,
) -> Vec<T> {
    let Ok(Call::Write { head, updates, .. }) = &outcome.call else {
        return Vec::new();
    };
    let mut past = Past {
        role: head.role,
        rows: outcome.before.rows(),
        player: Player::resume(&outcome.before, &outcome.store),
    };
    let mut looks = Vec::new();
    for (at, (update, &reason)) in updates.iter().zip(&outcome.pairs).enumerate() {
        looks.push(look(at, update, reason, &past));
        alone(head, update, &mut past.player);
    }
    looks
}

/// Does one update as a WRITE of its own. What it answers is known already.
fn alone(head: &Head, update: &Update, player: &mut Player) {
    let write = Call::Write {
        head: *head,
        atomicity: 0,
        updates: vec![*update],
    };
    let _ = player.call(&write.encode());
}

impl Past {
    /// What is wrong with an update.
    pub(super) fn finding(&self, update: &Update, words: &Words) -> Option<Finding> {
        let by_form = entry::update(update, self.role, &self.rows, words);
        by_form.or_else(|| self.by_store(update, words))
    }

    /// What is wrong by what is stored: reasons 20 to 22.
    fn by_store(&self, update: &Update, words: &Words) -> Option<Finding> {
        let entries = self.player.stored();
        let entry = &update.entry;
        let table = words.table(entry.table);
        let same = entries.iter().find(|other| other.same_key(entry));
        match (update.kind, same) {
            (1, Some(same)) => {
                let does = words.does(same);
                let text = format!("{table} holds an entry with this key already: {does}");
                Some(Finding::new(Reason::Stored, text))
            }
            (1, None) => self.full(entry.table, &entries, words),
            (_, None) => {
                let other = other_priority(entry, &entries);
                let text = format!("{table} holds no entry with this key{other}");
                Some(Finding::new(Reason::NotStored, text))
            }
            (_, Some(_)) => None,
        }
    }

    fn full(&self, table: u32, entries: &[Entry], words: &Words) -> Option<Finding> {
        let row = self.rows.iter().find(|row| row.table == table)?;
        let held = entries.iter().filter(|entry| entry.table == table).count();
        let text = || {
            let held = some(held, "entry", "entries");
            format!("{} is full: it holds {held}, its size", words.table(table))
        };
        (held >= usize::from(row.size)).then(|| Finding::new(Reason::TableFull, text()))
    }
}

/// A hint, as the priority is easily forgotten to be part of the key.
fn other_priority(entry: &Entry, entries: &[Entry]) -> String {
    let same = |other: &&Entry| other.table == entry.table && other.key.same_slots(&entry.key);
    match entries.iter().find(same) {
        Some(other) => format!(
            "; one has the same fields, but priority {}",
            other.key.priority
        ),
        None => String::new(),
    }
}
