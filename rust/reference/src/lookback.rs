//! Looking back: what every call must answer, told from the calls before it.
//!
//! [`Past`] judges a list of calls the way document 01's "Looking back" words
//! it, request One of document 02 for what is looked at of a DELETE, request
//! Two for batches that roll back, and request Five, by which no test is made
//! for a full store. It keeps two logs, both oldest first:
//!
//! * what happened to streams: opened, closed, an ARBITRATE accepted;
//! * what happened to entries: inserted, modified, deleted, all cleared.
//!
//! Which entries are present, with which action and in which order, is derived
//! from the second log each time it is needed; no entry is kept anywhere else.
//! Streams, marks and rows are kept by the rules, as the text has it, but the
//! authority of every effect is checked once more from the first log alone
//! ([`Past::shows_authority`]).
//!
//! Nothing of the [`Agent`](crate::Agent) is used. Frames are read by position,
//! rows and entries stay bytes, numbers are sixteen bytes compared from the
//! left, and keys are compared after shortening in place. Where both agree,
//! they agree by two different ways.

use std::collections::HashMap;

/// A number as sixteen bytes, most significant first. Arrays compare from the
/// left, hence as numbers.
type Number = [u8; 16];
/// A row of a CONFIGURE as it came.
type Row = [u8; 53];
/// Table and key of an entry in shortest form: what makes it that entry.
type Name = [u8; 148];
/// Action and parameters of an entry in shortest form.
type Deed = [u8; 72];

/// What the next call of a list must do.
#[derive(Clone, Debug, PartialEq, Eq)]
pub struct Expected {
    /// The reason that is returned.
    pub reason: u8,
    /// All bytes that must be written, from the answer's first byte on. Empty
    /// where nothing is written, which is under reason 2 only.
    pub answer: Vec<u8>,
    /// Is the call accepted?
    pub accepted: bool,
    /// For each update of an accepted WRITE: did it take effect? Empty for all
    /// other calls.
    pub effects: Vec<bool>,
    /// False where an update took effect, or a CONFIGURE was accepted, though
    /// the log of streams does not show that the id given was the highest of
    /// its role and held by exactly one open stream. The rules leave no such
    /// call, so this is true of every list.
    pub authorised: bool,
}

impl Expected {
    fn new(reason: u8, records: &[Vec<u8>]) -> Expected {
        let count = records.len() as u16;
        let mut answer = vec![reason, status_code(reason)];
        answer.extend(count.to_be_bytes());
        answer.extend(records.concat());
        Expected {
            reason,
            answer,
            accepted: reason == 0 || reason == 23,
            effects: Vec::new(),
            authorised: true,
        }
    }

    fn refused(reason: u8) -> Expected {
        Expected::new(reason, &[])
    }

    fn unwritten() -> Expected {
        Expected {
            reason: 2,
            answer: Vec::new(),
            accepted: false,
            effects: Vec::new(),
            authorised: true,
        }
    }
}

/// The status code of a reason.
fn status_code(reason: u8) -> u8 {
    match reason {
        0 => 0,
        23 => 2,
        1 | 8 | 14 | 17 | 19 => 3,
        4 | 5 | 6 | 15 | 21 => 5,
        20 => 6,
        10 | 11 | 16 => 7,
        2 | 9 | 22 => 8,
        3 | 7 | 12 => 9,
        25 => 10,
        18 => 11,
        13 => 12,
        _ => unreachable!("reason {reason} is not listed"),
    }
}

/// Something that happened to a stream.
#[derive(Clone, Debug)]
enum Happening {
    Opened(usize),
    Closed(usize),
    Arbitrated {
        stream: usize,
        role: u8,
        id: Option<Number>,
    },
}

/// Something that happened to the entries. Names stand here by their number.
#[derive(Clone, Debug)]
enum Effect {
    Inserted { name: usize, deed: Deed },
    Modified { name: usize, deed: Deed },
    Deleted { name: usize },
    Cleared,
}

/// A stream by the rules.
#[derive(Clone, Copy, Debug, Default)]
struct Stream {
    open: bool,
    role: Option<u8>,
    id: Option<Number>,
}

/// A list of calls, seen from its end.
#[derive(Clone, Debug)]
pub struct Past {
    device: u64,
    streams: [Stream; 32],
    marks: [Option<Number>; 8],
    rows: Vec<Row>,
    happenings: Vec<Happening>,
    effects: Vec<Effect>,
    names: Names,
}

impl Past {
    /// The empty list, before the first call of a fresh agent.
    pub fn new(device: u64) -> Past {
        Past {
            device,
            streams: [Stream::default(); 32],
            marks: [None; 8],
            rows: Vec::new(),
            happenings: Vec::new(),
            effects: Vec::new(),
            names: Names::default(),
        }
    }

    /// Judges the next call and adds it to the list: `roomy` says whether
    /// answer buffer and store were long enough. One call of this method for
    /// each call of the list, in order; there is nothing else to be told.
    pub fn expect(&mut self, frame: &[u8], roomy: bool) -> Expected {
        if !roomy {
            return Expected::unwritten();
        }
        if is_malformed(frame) {
            return Expected::refused(1);
        }
        match frame[0] {
            1 => self.open(usize::from(frame[1])),
            2 => self.close(usize::from(frame[1])),
            3 => self.arbitrate(usize::from(frame[1]), &frame[2..28]),
            4 => self.configure(&frame[1..27], &frame[28..]),
            5 => self.write(&frame[1..27], frame[27], &frame[29..]),
            _ => self.read(&frame[1..9], frame[9], &frame[10..14], &frame[14..]),
        }
    }

    /// The bytes of the entries present now, in the order of their latest
    /// INSERTs over all tables: what a store must hold from its first byte on.
    pub fn store_image(&self) -> Vec<u8> {
        self.present(&[]).concat()
    }

    /// Looking back over the streams: is the id the highest one in any accepted
    /// ARBITRATE for the role, and does exactly one open stream hold it there?
    pub fn shows_authority(&self, role: u8, id: [u8; 16]) -> bool {
        let highest = self
            .happenings
            .iter()
            .filter_map(|happening| match happening {
                Happening::Arbitrated { role: r, id, .. } if *r == role => *id,
                _ => None,
            })
            .max();
        let holders = (0..32)
            .filter(|&stream| self.held_by(stream) == Some((role, Some(id))))
            .count();
        highest == Some(id) && holders == 1
    }

    /// Role and id of the stream's latest accepted ARBITRATE since it was last
    /// opened, while it stays open.
    fn held_by(&self, wanted: usize) -> Option<(u8, Option<Number>)> {
        for happening in self.happenings.iter().rev() {
            match *happening {
                Happening::Opened(stream) | Happening::Closed(stream) if stream == wanted => {
                    return None;
                }
                Happening::Arbitrated { stream, role, id } if stream == wanted => {
                    return Some((role, id));
                }
                _ => {}
            }
        }
        None
    }
}

// Streams.
impl Past {
    fn open(&mut self, stream: usize) -> Expected {
        if self.streams[stream].open {
            return Expected::refused(3);
        }
        self.happenings.push(Happening::Opened(stream));
        self.streams[stream] = Stream {
            open: true,
            role: None,
            id: None,
        };
        Expected::new(0, &[])
    }

    fn close(&mut self, stream: usize) -> Expected {
        if !self.streams[stream].open {
            return Expected::refused(4);
        }
        let notices = self.hang_up(stream);
        Expected::new(0, &notices)
    }

    fn arbitrate(&mut self, stream: usize, head: &[u8]) -> Expected {
        if !self.streams[stream].open {
            return Expected::refused(4);
        }
        let role = head[8];
        let id = given_id(&head[9..26]);
        let own = self.is_own(&head[..8]);
        let refusal = match self.streams[stream].role {
            Some(bound) if !own || role != bound => 7,
            None if !own => 5,
            None if role > 7 => 6,
            _ if self.clashes(stream, role, id) => 8,
            None if self.members(role).len() >= 8 => 9,
            _ => 0,
        };
        if refusal != 0 {
            let notices = self.hang_up(stream);
            return Expected::new(refusal, &notices);
        }

        let at = usize::from(role);
        let before = (self.primary(role), self.marks[at]);
        self.happenings
            .push(Happening::Arbitrated { stream, role, id });
        self.streams[stream].role = Some(role);
        self.streams[stream].id = id;
        if id > self.marks[at] {
            self.marks[at] = id;
        }
        let told = if (self.primary(role), self.marks[at]) != before {
            self.members(role)
        } else {
            vec![stream]
        };
        Expected::new(0, &self.notices(role, &told))
    }

    /// Closes an open stream; gives the notifications that come of it.
    fn hang_up(&mut self, stream: usize) -> Vec<Vec<u8>> {
        let left = self.streams[stream].role;
        let was_primary = left.is_some_and(|role| self.primary(role) == Some(stream));
        self.happenings.push(Happening::Closed(stream));
        self.streams[stream] = Stream::default();
        match left {
            Some(role) if was_primary => self.notices(role, &self.members(role)),
            _ => Vec::new(),
        }
    }

    /// Is the id set and held by another open stream of the role?
    fn clashes(&self, stream: usize, role: u8, id: Option<Number>) -> bool {
        id.is_some()
            && self
                .members(role)
                .iter()
                .any(|&other| other != stream && self.streams[other].id == id)
    }

    /// The streams bound to a role, rising.
    fn members(&self, role: u8) -> Vec<usize> {
        (0..32)
            .filter(|&stream| self.streams[stream].role == Some(role))
            .collect()
    }

    fn primary(&self, role: u8) -> Option<usize> {
        let mark = self.marks[usize::from(role)]?;
        self.members(role)
            .into_iter()
            .find(|&stream| self.streams[stream].id == Some(mark))
    }

    fn notices(&self, role: u8, told: &[usize]) -> Vec<Vec<u8>> {
        let primary = self.primary(role);
        let mark = self.marks[usize::from(role)];
        told.iter()
            .map(|&stream| {
                let status = if primary.is_none() {
                    5
                } else if primary == Some(stream) {
                    0
                } else {
                    6
                };
                let mut notice = vec![stream as u8, role, status, mark.is_some() as u8];
                notice.extend(mark.unwrap_or_default());
                notice
            })
            .collect()
    }

    fn is_own(&self, device: &[u8]) -> bool {
        device == self.device.to_be_bytes()
    }

    /// 10 turned round: may whoever gives this id speak for the role?
    fn has_authority(&self, role: u8, id: Option<Number>) -> bool {
        id.is_some() && self.primary(role).is_some() && id == self.marks[usize::from(role)]
    }
}

// Configuration, writing, reading.
impl Past {
    fn configure(&mut self, head: &[u8], rows: &[u8]) -> Expected {
        let role = head[8];
        let id = given_id(&head[9..26]);
        if !self.is_own(&head[..8]) {
            return Expected::refused(5);
        }
        if role > 7 {
            return Expected::refused(6);
        }
        if role != 0 {
            return Expected::refused(11);
        }
        if !self.has_authority(role, id) {
            return Expected::refused(10);
        }
        let rows: Vec<Row> = rows
            .chunks(53)
            .map(|row| row.try_into().expect("53 bytes"))
            .collect();
        if rows_are_wrong(&rows) {
            return Expected::refused(14);
        }
        let authorised = id.is_some_and(|id| self.shows_authority(role, id));
        self.rows = rows;
        self.effects.push(Effect::Cleared);
        Expected {
            authorised,
            ..Expected::new(0, &[])
        }
    }

    fn write(&mut self, head: &[u8], atomicity: u8, updates: &[u8]) -> Expected {
        let role = head[8];
        let id = given_id(&head[9..26]);
        if !self.is_own(&head[..8]) {
            return Expected::refused(5);
        }
        if role > 7 {
            return Expected::refused(6);
        }
        if !self.has_authority(role, id) {
            return Expected::refused(10);
        }
        if self.rows.is_empty() {
            return Expected::refused(12);
        }
        if atomicity == 2 {
            return Expected::refused(13);
        }
        let updates: Vec<&[u8]> = updates.chunks(221).collect();
        let reasons = if atomicity == 0 {
            self.alone(role, &updates)
        } else {
            self.together(role, &updates)
        };
        let pairs: Vec<Vec<u8>> = reasons
            .iter()
            .map(|&reason| vec![reason, status_code(reason)])
            .collect();
        let effects: Vec<bool> = reasons.iter().map(|&reason| reason == 0).collect();
        let took_effect = effects.contains(&true);
        let authorised = !took_effect || id.is_some_and(|id| self.shows_authority(role, id));
        let reason = if effects.contains(&false) { 23 } else { 0 };
        Expected {
            effects,
            authorised,
            ..Expected::new(reason, &pairs)
        }
    }

    /// Atomicity 0: the reasons of the updates, each of which takes effect where
    /// it does not fail.
    fn alone(&mut self, role: u8, updates: &[&[u8]]) -> Vec<u8> {
        let mut reasons = Vec::new();
        for update in updates {
            match self.judge(&[], role, update) {
                Ok(effect) => {
                    self.effects.push(effect);
                    reasons.push(0);
                }
                Err(reason) => reasons.push(reason),
            }
        }
        reasons
    }

    /// Atomicity 1: an update takes effect exactly when no update of the batch
    /// fails, each judged as though those before it had taken effect. Until the
    /// last one has passed, what they would do is only supposed.
    fn together(&mut self, role: u8, updates: &[&[u8]]) -> Vec<u8> {
        let mut supposed = Vec::new();
        for (failed, update) in updates.iter().enumerate() {
            match self.judge(&supposed, role, update) {
                Ok(effect) => supposed.push(effect),
                Err(reason) => {
                    let own = |at| if at == failed { reason } else { 25 };
                    return (0..updates.len()).map(own).collect();
                }
            }
        }
        self.effects.extend(supposed);
        vec![0; updates.len()]
    }

    /// What one update does to the entries, or its reason if it fails. The log
    /// is looked at as though the supposed effects were its last.
    fn judge(&mut self, supposed: &[Effect], role: u8, update: &[u8]) -> Result<Effect, u8> {
        let (kind, entry) = (update[0], &update[1..]);
        if !(1..=3).contains(&kind) {
            return Err(17);
        }
        let (table, key) = (&entry[..4], &entry[4..148]);
        let row = self.row_for(role, table)?;
        // Request One: the bytes after the key of a DELETE are not looked at.
        let deed = (kind != 3).then_some(&entry[148..220]);
        if key_has_wrong_form(&row, key) || deed.is_some_and(|deed| deed_has_wrong_form(&row, deed))
        {
            return Err(17);
        }
        if key_is_too_wide(&row, key) || deed.is_some_and(|deed| deed_is_too_wide(&row, deed)) {
            return Err(18);
        }
        if key_breaks_rule(&row, key) {
            return Err(19);
        }
        let full_name = shortened_name(table, key);
        let present = self.is_present(supposed, &full_name);
        match kind {
            1 if present => return Err(20),
            1 if self.present_in(supposed, table).len() >= size(&row) => return Err(22),
            2 | 3 if !present => return Err(21),
            _ => {}
        }
        let name = self.names.number(full_name);
        Ok(match deed.map(shortened_deed) {
            None => Effect::Deleted { name },
            Some(deed) if kind == 1 => Effect::Inserted { name, deed },
            Some(deed) => Effect::Modified { name, deed },
        })
    }

    /// `wanted` is the byte `only` and the key after it.
    fn read(&self, device: &[u8], role: u8, table: &[u8], wanted: &[u8]) -> Expected {
        if !self.is_own(device) {
            return Expected::refused(5);
        }
        if role > 7 {
            return Expected::refused(6);
        }
        if self.rows.is_empty() {
            return Expected::refused(12);
        }
        if table == [0; 4] {
            let asked: Vec<Vec<u8>> = self
                .rows
                .iter()
                .filter(|row| may_write(role, row))
                .flat_map(|row| self.present_in(&[], &row[..4]))
                .collect();
            return Expected::new(0, &asked);
        }
        let row = match self.row_for(role, table) {
            Ok(row) => row,
            Err(reason) => return Expected::refused(reason),
        };
        let mut asked = self.present_in(&[], table);
        if wanted[0] == 1 {
            let key = &wanted[1..];
            if key_has_wrong_form(&row, key) {
                return Expected::refused(17);
            }
            if key_is_too_wide(&row, key) {
                return Expected::refused(18);
            }
            if key_breaks_rule(&row, key) {
                return Expected::refused(19);
            }
            let name = shortened_name(table, key);
            asked.retain(|entry| entry[..148] == name);
        }
        Expected::new(0, &asked)
    }

    /// The row of a table that the role may write; otherwise 15 or 16.
    fn row_for(&self, role: u8, table: &[u8]) -> Result<Row, u8> {
        match self.rows.iter().find(|row| row[..4] == *table) {
            None => Err(15),
            Some(row) if !may_write(role, row) => Err(16),
            Some(row) => Ok(*row),
        }
    }

    /// The log from its end, with supposed effects after its last.
    fn back<'a>(&'a self, supposed: &'a [Effect]) -> impl Iterator<Item = &'a Effect> {
        supposed.iter().rev().chain(self.effects.iter().rev())
    }

    /// Looking back from the end: an INSERT of the name comes before any DELETE
    /// of it and before any clearing.
    fn is_present(&self, supposed: &[Effect], wanted: &Name) -> bool {
        let Some(wanted) = self.names.known(wanted) else {
            return false;
        };
        for effect in self.back(supposed) {
            match *effect {
                Effect::Cleared => return false,
                Effect::Deleted { name } if name == wanted => return false,
                Effect::Inserted { name, .. } if name == wanted => return true,
                _ => {}
            }
        }
        false
    }

    /// All entries present, in the order of their latest INSERTs. On the way
    /// back the first INSERT or MODIFY met gives action and parameters, the
    /// first INSERT or DELETE met decides on presence.
    fn present(&self, supposed: &[Effect]) -> Vec<Vec<u8>> {
        let mut decided = vec![false; self.names.count()];
        let mut latest: Vec<Option<&Deed>> = vec![None; self.names.count()];
        let mut found = Vec::new();
        for effect in self.back(supposed) {
            match effect {
                Effect::Cleared => break,
                Effect::Deleted { name } => decided[*name] = true,
                Effect::Modified { name, deed } => {
                    latest[*name].get_or_insert(deed);
                }
                Effect::Inserted { name, deed } => {
                    if !decided[*name] {
                        decided[*name] = true;
                        let deed = latest[*name].unwrap_or(deed);
                        found.push([self.names.get(*name), &deed[..]].concat());
                    }
                }
            }
        }
        found.reverse();
        found
    }

    /// The present entries of one table.
    fn present_in(&self, supposed: &[Effect], table: &[u8]) -> Vec<Vec<u8>> {
        let mut present = self.present(supposed);
        present.retain(|entry| entry[..4] == *table);
        present
    }
}

/// The names of all updates that passed, numbered in order of appearance. A
/// number stands for the bytes of a name and for nothing else: whether the
/// update took effect is for the log to say.
#[derive(Clone, Debug, Default)]
struct Names {
    by_number: Vec<Name>,
    by_name: HashMap<Name, usize>,
}

impl Names {
    fn number(&mut self, name: Name) -> usize {
        let next = self.by_number.len();
        let number = *self.by_name.entry(name).or_insert(next);
        if number == next {
            self.by_number.push(name);
        }
        number
    }

    fn known(&self, name: &Name) -> Option<usize> {
        self.by_name.get(name).copied()
    }

    fn get(&self, number: usize) -> &[u8] {
        &self.by_number[number]
    }

    fn count(&self) -> usize {
        self.by_number.len()
    }
}

// Frames.

/// Reason 1, read off the frame by position.
fn is_malformed(frame: &[u8]) -> bool {
    let due = match frame.first() {
        Some(1 | 2) => 2,
        Some(3) => 28,
        Some(4) => match frame.get(27) {
            Some(&t) if (1..=8).contains(&t) => 28 + 53 * usize::from(t),
            _ => return true,
        },
        Some(5) => match frame.get(28) {
            Some(&n) if n <= 64 => 29 + 221 * usize::from(n),
            _ => return true,
        },
        Some(6) => 159,
        _ => return true,
    };
    if frame.len() != due {
        return true;
    }
    match frame[0] {
        1 | 2 => frame[1] > 31,
        3 => frame[1] > 31 || id_is_malformed(&frame[11..28]),
        4 => id_is_malformed(&frame[10..27]),
        5 => id_is_malformed(&frame[10..27]) || frame[27] > 2,
        _ => {
            let (no_table, only, no_key) = (zero(&frame[10..14]), frame[14], zero(&frame[15..]));
            only > 1 || (only == 0 && !no_key) || (only == 1 && no_table)
        }
    }
}

/// Flag and id disagree, or the flag is none.
fn id_is_malformed(flag_and_id: &[u8]) -> bool {
    flag_and_id[0] > 1 || (flag_and_id[0] == 1) == zero(&flag_and_id[1..])
}

fn given_id(flag_and_id: &[u8]) -> Option<Number> {
    (flag_and_id[0] == 1).then(|| flag_and_id[1..].try_into().expect("16 bytes"))
}

fn zero(bytes: &[u8]) -> bool {
    bytes.iter().all(|&byte| byte == 0)
}

// Rows: table 4, owner 1, size 2, field count 1, four fields of 2, action count
// 1, four actions of 9.

fn size(row: &Row) -> usize {
    usize::from(row[5]) * 256 + usize::from(row[6])
}

fn field_count(row: &Row) -> usize {
    usize::from(row[7])
}

/// Kind and width of a field.
fn field(row: &Row, at: usize) -> (u8, u8) {
    (row[8 + 2 * at], row[9 + 2 * at])
}

fn action_count(row: &Row) -> usize {
    usize::from(row[16])
}

/// Id 4, parameter count 1, four widths.
fn action(row: &Row, at: usize) -> &[u8] {
    &row[17 + 9 * at..26 + 9 * at]
}

fn may_write(role: u8, row: &Row) -> bool {
    role == 0 || role == row[4]
}

/// Reason 14.
fn rows_are_wrong(rows: &[Row]) -> bool {
    let sum: usize = rows.iter().map(size).sum();
    let repeated = (1..rows.len()).any(|at| rows[..at].iter().any(|row| row[..4] == rows[at][..4]));
    sum > 256 || repeated || rows.iter().any(row_is_wrong)
}

fn row_is_wrong(row: &Row) -> bool {
    if row[0] != 2 || row[4] > 7 || size(row) == 0 {
        return true;
    }
    if !(1..=4).contains(&field_count(row)) || !(1..=4).contains(&action_count(row)) {
        return true;
    }
    let fields_wrong = (0..4).any(|at| {
        let (kind, width) = field(row, at);
        if at < field_count(row) {
            !(1..=5).contains(&kind) || width_is_wrong(width)
        } else {
            kind != 0 || width != 0
        }
    });
    let actions_wrong = (0..4).any(|at| {
        let this = action(row, at);
        if at < action_count(row) {
            let repeated = (0..at).any(|before| action(row, before)[..4] == this[..4]);
            let count = usize::from(this[4]);
            this[0] != 1
                || repeated
                || count > 4
                || this[5..5 + count]
                    .iter()
                    .any(|&width| width_is_wrong(width))
                || !zero(&this[5 + count..])
        } else {
            !zero(this)
        }
    });
    fields_wrong || actions_wrong
}

fn width_is_wrong(width: u8) -> bool {
    width == 0 || width > 128
}

// Keys (priority 4, four slots of 35) and deeds (action 4, four values of 17).

fn slot(key: &[u8], at: usize) -> &[u8] {
    &key[4 + 35 * at..39 + 35 * at]
}

fn first(slot: &[u8]) -> &[u8] {
    &slot[1..18]
}

fn second(slot: &[u8]) -> &[u8] {
    &slot[18..35]
}

fn param(deed: &[u8], at: usize) -> &[u8] {
    &deed[4 + 17 * at..21 + 17 * at]
}

/// The slots that are present, each with its kind and its field's width.
fn present_slots<'a>(row: &'a Row, key: &'a [u8]) -> impl Iterator<Item = (u8, u8, &'a [u8])> {
    (0..field_count(row))
        .map(move |at| (slot(key, at)[0], field(row, at).1, slot(key, at)))
        .filter(|&(kind, ..)| kind != 0)
}

/// 17 on the key.
fn key_has_wrong_form(row: &Row, key: &[u8]) -> bool {
    (0..4).any(|at| {
        let this = slot(key, at);
        if at >= field_count(row) {
            return !zero(this);
        }
        let (kind, _) = field(row, at);
        if this[0] == 0 {
            return kind == 1 || !zero(this);
        }
        let second_wrong = match kind {
            1 | 5 => !zero(second(this)),
            _ => value_has_wrong_form(second(this)),
        };
        this[0] != kind || value_has_wrong_form(first(this)) || second_wrong
    })
}

/// 17 on action and parameters.
fn deed_has_wrong_form(row: &Row, deed: &[u8]) -> bool {
    let Some(widths) = param_widths(row, deed) else {
        return true;
    };
    (0..4).any(|at| {
        if at < widths.len() {
            value_has_wrong_form(param(deed, at))
        } else {
            !zero(param(deed, at))
        }
    })
}

/// The widths of the deed's action, if it is one of the row's.
fn param_widths<'a>(row: &'a Row, deed: &[u8]) -> Option<&'a [u8]> {
    (0..action_count(row))
        .map(|at| action(row, at))
        .find(|action| action[..4] == deed[..4])
        .map(|action| &action[5..5 + usize::from(action[4])])
}

/// A value that is due has length 1 to 16 and zeros after its number.
fn value_has_wrong_form(value: &[u8]) -> bool {
    let length = usize::from(value[0]);
    length == 0 || length > 16 || !zero(&value[1 + length..])
}

/// 18 on the key.
fn key_is_too_wide(row: &Row, key: &[u8]) -> bool {
    present_slots(row, key).any(|(kind, width, slot)| {
        is_too_wide(first(slot), width)
            || (matches!(kind, 3 | 4) && is_too_wide(second(slot), width))
    })
}

/// 18 on the parameters.
fn deed_is_too_wide(row: &Row, deed: &[u8]) -> bool {
    param_widths(row, deed).is_some_and(|widths| {
        widths
            .iter()
            .enumerate()
            .any(|(at, &width)| is_too_wide(param(deed, at), width))
    })
}

/// Is some bit at or above the width set?
fn is_too_wide(value: &[u8], width: u8) -> bool {
    let number = number(value);
    (width..128).any(|at| bit(&number, at))
}

/// 19: the rules of the kinds, and the priority.
fn key_breaks_rule(row: &Row, key: &[u8]) -> bool {
    let kinds_broken = present_slots(row, key).any(|(kind, width, slot)| {
        let (one, two) = (number(first(slot)), number(second(slot)));
        match kind {
            2 => {
                let prefix = two[15];
                !zero(&two[..15])
                    || prefix == 0
                    || prefix > width
                    || (0..width - prefix).any(|at| bit(&one, at))
            }
            3 => zero(&two) || (0..128).any(|at| bit(&one, at) && !bit(&two, at)),
            4 => one > two || (zero(&one) && (0..width).all(|at| bit(&two, at))),
            _ => false,
        }
    });
    let prioritised = (0..field_count(row)).any(|at| field(row, at).0 >= 3);
    // The top bit of the priority is that of 2,147,483,648.
    let priority_broken = if prioritised {
        zero(&key[..4]) || key[0] >= 0x80
    } else {
        !zero(&key[..4])
    };
    kinds_broken || priority_broken
}

/// A value of good form, moved to the right.
fn number(value: &[u8]) -> Number {
    let length = usize::from(value[0]);
    let mut number = [0; 16];
    number[16 - length..].copy_from_slice(&value[1..1 + length]);
    number
}

/// Bit 0 is the lowest.
fn bit(number: &Number, at: u8) -> bool {
    number[15 - usize::from(at / 8)] >> (at % 8) & 1 == 1
}

fn shortened_name(table: &[u8], key: &[u8]) -> Name {
    let mut name: Name = [table, key].concat().try_into().expect("148 bytes");
    for slot in name[8..].chunks_mut(35) {
        shorten(&mut slot[1..18]);
        shorten(&mut slot[18..35]);
    }
    name
}

fn shortened_deed(deed: &[u8]) -> Deed {
    let mut deed: Deed = deed.try_into().expect("72 bytes");
    deed[4..].chunks_mut(17).for_each(shorten);
    deed
}

/// Takes leading zero bytes off a value in place, down to one byte. A value of
/// no length stays as it is.
fn shorten(value: &mut [u8]) {
    while value[0] > 1 && value[1] == 0 {
        value[0] -= 1;
        value[1..].rotate_left(1);
    }
}
