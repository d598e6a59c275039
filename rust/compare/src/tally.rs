//! What a run has met, and whether that is all that can be met.

mod after_key;
mod atomic;
mod full;
mod nearly;
mod padded;

use std::collections::BTreeMap;
use std::fmt;

use reference::bytes::{Entry, Update};
use savorylatch::answer::{self, Status};
use savorylatch::wire::Frame;
use savorylatch::Command;

use crate::bench::Seen;
use crate::describe::COMMANDS;
use crate::lists::maker::{Aim, Draft};
use crate::lists::view::View;
use crate::lists::ways;
use crate::parts;

const REASONS: usize = 26;

/// The number that is free: no call and no update is given it (document 02,
/// request Five).
const FREE: u8 = 24;

/// The reasons that a frame of each command can get, by command byte. Byte 0
/// stands for frames that are empty or of an unknown command.
const OF_CALLS: [&[u8]; 7] = [
    &[1, 2],
    &[0, 1, 2, 3],
    &[0, 1, 2, 4],
    &[0, 1, 2, 4, 5, 6, 7, 8, 9],
    &[0, 1, 2, 5, 6, 10, 11, 14],
    &[0, 1, 2, 5, 6, 10, 12, 13, 23],
    &[0, 1, 2, 5, 6, 12, 15, 16, 17, 18, 19],
];

/// The reasons that an update can get, by type. Type 0 stands for those that
/// there are not.
const OF_UPDATES: [&[u8]; 4] = [
    &[17, 25],
    &[0, 15, 16, 17, 18, 19, 20, 22, 25],
    &[0, 15, 16, 17, 18, 19, 21, 25],
    &[0, 15, 16, 17, 18, 19, 21, 25],
];

/// The reasons that can end a batch with atomicity 1.
const OF_BATCHES: &[u8] = &[15, 16, 17, 18, 19, 20, 21, 22];

const TYPES: [&str; 4] = ["other", "INSERT", "MODIFY", "DELETE"];

/// Situations that a run has to come by, beside those of [`atomic::SIGHTS`],
/// [`full::SIGHTS`], [`after_key::cells`], [`padded::cells`] and
/// [`nearly::cells`].
const SIGHTS: [&str; 25] = [
    "status 0",
    "status 5",
    "status 6",
    "status 5 without a mark",
    "eight streams notified",
    "a closing primary that tells",
    "a closing backup that tells nobody",
    "7 with notifications",
    "8 with notifications",
    "8 without notifications",
    "a mark above 2^64",
    "the mark 2^128 - 1",
    "eight rows",
    "no update",
    "64 updates",
    "13 without updates",
    "a store of 256 entries",
    "a READ of 256 entries",
    "a CONFIGURE that empties the store",
    "a READ of a key that is absent",
    "free bytes overwritten",
    "a READ of entries before and after a rollback",
    "a DELETE done twice, with other bytes after its key",
    "a DELETE failed twice, with other bytes after its key",
    "a DELETE rolled back or not tried twice, with other bytes after its key",
];

/// Counts of all that was met.
#[derive(Default)]
pub struct Tally {
    pub calls: u64,
    pub lists: u64,
    of_calls: [[u64; REASONS]; 7],
    of_updates: [[u64; REASONS]; 4],
    of_batches: [u64; REASONS],
    /// The calls and the updates that were given [`FREE`].
    free: [u64; 2],
    after_keys: after_key::Counts,
    full: full::Watch,
    padded: padded::Counts,
    ways: BTreeMap<(u8, &'static str), u64>,
    sights: BTreeMap<&'static str, u64>,
}

impl Tally {
    /// Counts a call; the view is from before it.
    pub fn count(&mut self, view: &View, draft: &Draft, seen: &Seen<'_>) {
        self.calls += 1;
        let frame = &draft.call.frame;
        let command = Command::of(frame);
        add(
            &mut self.of_calls[command.map_or(0, |c| c as usize)],
            seen.reason,
        );
        let reasons = pair_reasons(command, seen.answer);
        self.free[0] += u64::from(seen.reason == FREE);
        self.free[1] += reasons.iter().filter(|&&reason| reason == FREE).count() as u64;
        for aim in &draft.aims {
            let met = match aim.update {
                None => Some(seen.reason),
                Some(at) => reasons.get(at).copied(),
            };
            if met == Some(aim.reason) && (aim.update.is_none() || is_done(seen.reason)) {
                *self.ways.entry((aim.reason, aim.name)).or_default() += 1;
            }
        }
        if draft.call.poison.is_some() {
            self.see("free bytes overwritten");
        }
        if let Ok(frame) = Frame::decode(frame) {
            // Under reason 2 there is no answer.
            if let Ok(answer) = answer::View::new(seen.answer, command) {
                self.look(view, &frame, seen, &answer);
            }
            self.look_at_batch(view, &frame, seen, &reasons, &draft.aims);
        }
    }

    /// A batch that was accepted.
    fn look_at_batch(
        &mut self,
        view: &View,
        frame: &Frame,
        seen: &Seen<'_>,
        reasons: &[u8],
        aims: &[Aim],
    ) {
        let Frame::Write {
            atomicity, updates, ..
        } = frame
        else {
            return;
        };
        if !is_done(seen.reason) {
            return;
        }
        let updates: Vec<Update> = updates.iter().map(parts::update).collect();
        for (update, &reason) in updates.iter().zip(reasons) {
            let kind = usize::from(update.kind);
            let kind = if kind < TYPES.len() { kind } else { 0 };
            add(&mut self.of_updates[kind], reason);
            if seen.twice && update.kind == 3 {
                self.see(played_twice(reason));
            }
        }
        self.after_keys.count(view, *atomicity, &updates, reasons);
        self.padded.count(view, *atomicity, &updates, reasons);
        for sight in self.full.sights(view, *atomicity, &updates, reasons) {
            self.see(sight);
        }
        if *atomicity == 1 {
            if let Some(reason) = atomic::ended_by(reasons) {
                add(&mut self.of_batches, reason);
            }
            for sight in atomic::sights(view, &updates, reasons, aims) {
                self.see(sight);
            }
        }
    }

    fn look(&mut self, view: &View, frame: &Frame, seen: &Seen<'_>, answer: &answer::View<'_>) {
        let count = answer.count();
        match frame {
            Frame::Open { .. } => {}
            Frame::Close { stream } if seen.reason == 0 => {
                let was_backup = view.id_of(*stream).is_some();
                match count {
                    0 if was_backup => self.see("a closing backup that tells nobody"),
                    0 => {}
                    _ => self.see("a closing primary that tells"),
                }
                self.notices(answer);
            }
            Frame::Arbitrate { .. } => {
                match (seen.reason, count) {
                    (7, 1..) => self.see("7 with notifications"),
                    (8, 1..) => self.see("8 with notifications"),
                    (8, 0) => self.see("8 without notifications"),
                    (0, 8) => self.see("eight streams notified"),
                    _ => {}
                }
                self.notices(answer);
            }
            Frame::Configure { rows, .. } if seen.reason == 0 => {
                if rows.len() == 8 {
                    self.see("eight rows");
                }
                if !view.entries.is_empty() {
                    self.see("a CONFIGURE that empties the store");
                }
            }
            Frame::Write { updates, .. } if seen.reason == 13 && updates.is_empty() => {
                self.see("13 without updates");
            }
            Frame::Write { updates, .. } if is_done(seen.reason) => match updates.len() {
                0 => self.see("no update"),
                64 => self.see("64 updates"),
                _ => {}
            },
            Frame::Read {
                table, only, key, ..
            } if seen.reason == 0 => {
                let (table, key) = (*table, parts::key(key));
                let entry = Entry {
                    table,
                    key,
                    ..Entry::default()
                };
                self.look_at_read(view, (*only == 1).then_some(entry), seen, count);
            }
            _ => {}
        }
    }

    /// A READ that was accepted, of a key or not; the entry has its table.
    fn look_at_read(&mut self, view: &View, key: Option<Entry>, seen: &Seen<'_>, count: usize) {
        if view.entries.len() == 256 {
            self.see("a store of 256 entries");
        }
        if count == 256 {
            self.see("a READ of 256 entries");
        }
        if let Some(entry) = key {
            if count == 0 {
                self.see("a READ of a key that is absent");
            }
            self.padded.count_read(view, &entry, count > 0);
        }
        if seen.after_rollback && count > 0 {
            self.see("a READ of entries before and after a rollback");
        }
    }

    fn notices(&mut self, answer: &answer::View<'_>) {
        for notice in answer.notifications() {
            self.see(match (notice.status, notice.mark) {
                (Status::Primary, _) => "status 0",
                (Status::NoPrimary, None) => "status 5 without a mark",
                (Status::NoPrimary, Some(_)) => "status 5",
                (Status::OtherPrimary, _) => "status 6",
            });
            match notice.mark.unwrap_or(0) {
                u128::MAX => self.see("the mark 2^128 - 1"),
                mark if mark >> 64 > 0 => self.see("a mark above 2^64"),
                _ => {}
            }
        }
    }

    fn see(&mut self, sight: &'static str) {
        *self.sights.entry(sight).or_default() += 1;
    }

    /// All that a run fails for: what can be met and was not, and [`FREE`] where
    /// it was given.
    pub fn wrong(&self) -> Vec<String> {
        let missing = self.missing().into_iter();
        let missing = missing.map(|item| format!("NOT MET: {item}"));
        missing.chain(self.free().err()).collect()
    }

    /// That [`FREE`] was not given, in words; the error is that it was.
    pub fn free(&self) -> Result<String, String> {
        match self.free {
            [0, 0] => Ok(format!("{FREE}, given by no call and to no update")),
            [calls, updates] => Err(format!(
                "GIVEN: {FREE}, which is free, by {calls} calls and to {updates} updates"
            )),
        }
    }

    /// The situations that are told apart by what an update or a key has, each
    /// with how often it was met.
    fn cells(&self) -> Vec<(String, u64)> {
        let after = after_key::cells().map(|cell| (cell.to_string(), self.after_keys.of(cell)));
        let padded = padded::cells().map(|cell| (cell.to_string(), self.padded.of(cell)));
        let nearly = nearly::cells().map(|cell| (cell.to_string(), self.padded.nearly.of(cell)));
        after.chain(padded).chain(nearly).collect()
    }

    /// What can be met and was not.
    fn missing(&self) -> Vec<String> {
        let mut missing = Vec::new();
        for (command, reasons) in OF_CALLS.iter().enumerate() {
            for &reason in *reasons {
                if self.of_calls[command][usize::from(reason)] == 0 {
                    missing.push(format!("{} with reason {reason}", COMMANDS[command]));
                }
            }
        }
        for (kind, reasons) in OF_UPDATES.iter().enumerate() {
            for &reason in *reasons {
                if self.of_updates[kind][usize::from(reason)] == 0 {
                    missing.push(format!("an update, {}, with {reason}", TYPES[kind]));
                }
            }
        }
        for &reason in OF_BATCHES {
            if self.of_batches[usize::from(reason)] == 0 {
                missing.push(format!("a batch with atomicity 1 ended by {reason}"));
            }
        }
        for way in ways::all() {
            if !self.ways.contains_key(&way) {
                missing.push(format!("reason {} by: {}", way.0, way.1));
            }
        }
        for sight in all_sights() {
            if !self.sights.contains_key(sight) {
                missing.push(sight.to_owned());
            }
        }
        let unmet = self.cells().into_iter().filter(|(_, count)| *count == 0);
        missing.extend(unmet.map(|(cell, _)| cell));
        missing
    }
}

/// The situation of a DELETE that is played twice.
fn played_twice(reason: u8) -> &'static str {
    match reason {
        0 => "a DELETE done twice, with other bytes after its key",
        25 => "a DELETE rolled back or not tried twice, with other bytes after its key",
        _ => "a DELETE failed twice, with other bytes after its key",
    }
}

fn all_sights() -> impl Iterator<Item = &'static str> {
    let all = SIGHTS.iter().chain(atomic::SIGHTS);
    all.chain(full::SIGHTS).copied()
}

/// The reasons in the pairs of a WRITE, whatever numbers stand there.
fn pair_reasons(command: Option<Command>, answer: &[u8]) -> Vec<u8> {
    match (command, answer.get(4..)) {
        (Some(Command::Write), Some(pairs)) => pairs.iter().step_by(2).copied().collect(),
        _ => Vec::new(),
    }
}

fn add(counts: &mut [u64; REASONS], reason: u8) {
    if let Some(count) = counts.get_mut(usize::from(reason)) {
        *count += 1;
    }
}

/// Is there an effect, or an update that failed alone?
fn is_done(reason: u8) -> bool {
    reason == 0 || reason == 23
}

impl fmt::Display for Tally {
    fn fmt(&self, f: &mut fmt::Formatter<'_>) -> fmt::Result {
        writeln!(f, "{:>16} {:>70} {:>37}", "calls", "updates", "batches")?;
        write!(f, "reason")?;
        for name in COMMANDS.iter().chain(&TYPES).chain(&["ended by"]) {
            write!(f, " {name:>9}")?;
        }
        writeln!(f)?;
        for reason in (0..REASONS).filter(|&reason| reason != usize::from(FREE)) {
            write!(f, "{reason:>6}")?;
            for counts in self
                .of_calls
                .iter()
                .chain(&self.of_updates)
                .chain([&self.of_batches])
            {
                match counts[reason] {
                    0 => write!(f, " {:>9}", ".")?,
                    count => write!(f, " {count:>9}")?,
                }
            }
            writeln!(f)?;
        }
        writeln!(f, "\n{}\n\n{}\n", self.after_keys, self.padded)?;
        let met = |count: Option<&u64>| count.copied().unwrap_or(0);
        let ways: Vec<u64> = ways::all().map(|way| met(self.ways.get(&way))).collect();
        let sights = all_sights().map(|sight| met(self.sights.get(sight)));
        let cells = self.cells().into_iter().map(|(_, count)| count);
        let situations: Vec<u64> = sights.chain(cells).collect();
        let rarest = |counts: &[u64]| counts.iter().min().copied().unwrap_or(0);
        write!(
            f,
            "{} ways to go wrong, each met {} times or more; {} situations, each {} times or more",
            ways.len(),
            rarest(&ways),
            situations.len(),
            rarest(&situations),
        )
    }
}
