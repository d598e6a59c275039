//! Lists of calls drawn at random, played to both evaluations.
//!
//! Numbers are drawn from small pools so that calls meet: the same streams,
//! ids, tables and keys come up again and again, mostly in good form.

use std::collections::BTreeSet;

use crate::support::*;
use reference::bytes::*;

#[test]
fn agent_and_past_agree_on_random_lists() {
    let mut seen = BTreeSet::new();
    for seed in 1..=150 {
        let mut player = Player::new(seed);
        let mut bench = Bench::fresh();
        for frame in player.opening() {
            seen.insert(bench.call(&frame).reason);
        }
        for _ in 0..60 {
            let frame = player.frame();
            let (answer_len, store_len) = player.lengths();
            let outcome = bench.call_with(&frame, answer_len, store_len);
            seen.insert(outcome.reason);
            if !outcome.effects.is_empty() {
                seen.extend(outcome.answer[4..].iter().step_by(2));
            }
        }
    }
    // All reasons. 24 is none: document 02, request Five.
    assert_eq!(seen, (0..=23).chain([25]).collect());
}

/// Document 02, request One: a list and the same list with other bytes after
/// the keys of its DELETEs are answered alike.
#[test]
fn bytes_after_the_key_of_a_delete_change_no_answer() {
    let mut deleted = 0;
    for seed in 1..=150 {
        let mut player = Player::new(seed);
        let (mut bench, mut again) = (Bench::fresh(), Bench::fresh());
        let mut frames = player.opening();
        frames.extend((0..60).map(|at| match at % 4 {
            0 => player.read(),
            _ => player.write(),
        }));
        for frame in frames {
            let outcome = bench.call(&frame);
            let (other, deletes) = player.with_other_bytes(&frame);
            assert_eq!(again.call(&other), outcome);
            let effects = deletes.iter().filter_map(|&at| outcome.effects.get(at));
            deleted += effects.filter(|&&took_effect| took_effect).count();
        }
    }
    assert!(deleted >= 100, "{deleted} DELETEs took effect");
}

/// A xorshift generator; the seed must not be 0.
pub struct Dice(pub u64);

impl Dice {
    fn next(&mut self) -> u64 {
        self.0 ^= self.0 << 13;
        self.0 ^= self.0 >> 7;
        self.0 ^= self.0 << 17;
        self.0.wrapping_mul(0x2545_f491_4f6c_dd1d) >> 16
    }

    pub fn below(&mut self, bound: usize) -> usize {
        (self.next() % bound as u64) as usize
    }

    /// True once in `bound` times.
    pub fn once_in(&mut self, bound: usize) -> bool {
        self.below(bound) == 0
    }

    fn pick<T: Copy>(&mut self, from: &[T]) -> T {
        from[self.below(from.len())]
    }
}

/// Where the updates are in a WRITE, and in an update its action.
const UPDATES_AT: usize = 29;
const REST_AT: usize = 149;

/// Makes frames, remembering what it sent so that later ones refer to it.
struct Player {
    dice: Dice,
    rows: Vec<Row>,
    entries: Vec<Entry>,
    /// The highest id sent for each role.
    highest: [u128; 8],
}

impl Player {
    fn new(seed: u64) -> Player {
        Player {
            dice: Dice(seed.wrapping_mul(0x9e37_79b9_7f4a_7c15)),
            rows: Vec::new(),
            entries: Vec::new(),
            highest: [0; 8],
        }
    }

    /// Most lists start with a primary and a configuration, some with a role
    /// that has no place left, some with nothing.
    fn opening(&mut self) -> Vec<Vec<u8>> {
        match self.dice.below(8) {
            0 => Vec::new(),
            1 => (0..10)
                .flat_map(|stream| [open(stream), arbitrate(stream, Head::unset(DEVICE, 0))])
                .collect(),
            _ => {
                self.highest[0] = 3;
                let head = Head::set(DEVICE, 0, 3);
                vec![open(0), arbitrate(0, head), self.configure(head)]
            }
        }
    }

    /// Short buffers now and then.
    fn lengths(&mut self) -> (usize, usize) {
        match self.dice.below(60) {
            0 => (57_343, 56_320),
            1 => (57_344, 56_319),
            _ => (57_344, 56_320),
        }
    }

    fn frame(&mut self) -> Vec<u8> {
        let mut frame = match self.dice.below(100) {
            0..=17 => open(self.stream()),
            18..=19 => close(self.stream()),
            20..=44 => self.arbitrate(),
            45..=47 => {
                let head = self.head();
                self.configure(head)
            }
            48..=79 => self.write(),
            80..=97 => self.read(),
            _ => self.noise(),
        };
        if self.dice.once_in(15) {
            self.spoil(&mut frame);
        }
        frame
    }

    fn stream(&mut self) -> u8 {
        self.dice.below(12) as u8
    }

    fn device(&mut self) -> u64 {
        if self.dice.once_in(40) {
            2
        } else {
            DEVICE
        }
    }

    fn role(&mut self) -> u8 {
        self.dice.pick(&[0, 0, 0, 0, 0, 0, 1, 1, 1, 2, 7, 8])
    }

    fn arbitrate(&mut self) -> Vec<u8> {
        let role = self.dice.pick(&[0, 0, 0, 0, 0, 0, 0, 0, 0, 1, 8]);
        let device = self.device();
        let head = match self.dice.below(8) {
            0 => Head::unset(device, role),
            1 => Head::set(device, role, self.highest[usize::from(role % 8)].max(1)),
            2 => Head::set(device, role, (1 << 64) + self.dice.below(4) as u128),
            _ => Head::set(device, role, 1 + self.dice.below(40) as u128),
        };
        if let Some(highest) = self.highest.get_mut(usize::from(role)) {
            *highest = (*highest).max(head.id);
        }
        arbitrate(self.stream(), head)
    }

    /// Mostly the head of whoever may be primary.
    fn head(&mut self) -> Head {
        let (device, role) = (self.device(), self.role());
        match self.highest.get(usize::from(role)) {
            Some(&id) if id > 0 && !self.dice.once_in(10) => Head::set(device, role, id),
            _ if self.dice.once_in(2) => Head::unset(device, role),
            _ => Head::set(device, role, 3),
        }
    }

    fn configure(&mut self, head: Head) -> Vec<u8> {
        let count = 1 + self.dice.below(3);
        self.rows = (0..count).map(|at| self.row(at)).collect();
        self.entries.clear();
        let mut rows: Vec<u8> = self.rows.iter().flat_map(Row::bytes).collect();
        if self.dice.once_in(4) {
            self.spoil_byte(&mut rows);
        }
        configure_raw(head, count as u8, &rows)
    }

    fn row(&mut self, at: usize) -> Row {
        // Falling ids, so that order by row is not order by id; now and then the
        // same one again.
        let at = if self.dice.once_in(20) { 0 } else { at };
        let table = 0x0200_0009 - at as u32;
        let owner = self.dice.pick(&[0, 1, 2]);
        let size = 1 + self.dice.below(6) as u16;
        let fields: Vec<(u8, u8)> = (0..1 + self.dice.below(4))
            .map(|_| (1 + self.dice.below(5) as u8, self.width()))
            .collect();
        let actions: Vec<Action> = (0..1 + self.dice.below(4))
            .map(|at| {
                let widths: Vec<u8> = (0..self.dice.below(5)).map(|_| self.width()).collect();
                let at = if self.dice.once_in(30) { 0 } else { at };
                Action::new(0x0100_0000 + at as u32, &widths)
            })
            .collect();
        Row::new(table, owner, size, &fields, &actions)
    }

    fn width(&mut self) -> u8 {
        self.dice.pick(&[1, 7, 8, 9, 32, 64, 127, 128])
    }

    fn write(&mut self) -> Vec<u8> {
        let head = self.head();
        let atomicity = match self.dice.below(20) {
            0 => 2,
            1..=6 => 1,
            _ => 0,
        };
        let count = self.dice.below(7);
        let updates: Vec<u8> = (0..count).flat_map(|_| self.update()).collect();
        write_raw(head, atomicity, count as u8, &updates)
    }

    fn update(&mut self) -> [u8; 221] {
        let known = !self.entries.is_empty() && !self.dice.once_in(3);
        let mut entry = if known {
            self.dice.pick(&self.entries)
        } else {
            self.entry()
        };
        self.entries.push(entry);
        if known && self.dice.once_in(2) {
            let deed = self.deed(entry.table);
            (entry.action, entry.params) = deed;
        }
        self.pad(&mut entry);
        let kind = self.dice.pick(&[1, 1, 1, 1, 2, 2, 3, 3]);
        let mut bytes = Update { kind, entry }.bytes();
        if kind == 3 && self.dice.once_in(2) {
            self.litter(&mut bytes[REST_AT..]);
        }
        if self.dice.once_in(12) {
            self.spoil_byte(&mut bytes);
        }
        bytes
    }

    /// Fills the bytes after a key with anything.
    fn litter(&mut self, rest: &mut [u8]) {
        match self.dice.below(3) {
            0 => rest.fill(0),
            1 => rest.fill(0xff),
            _ => rest.fill_with(|| self.dice.next() as u8),
        }
    }

    /// The frame with other bytes after the keys of its DELETEs, and which of
    /// its updates these are.
    fn with_other_bytes(&mut self, frame: &[u8]) -> (Vec<u8>, Vec<usize>) {
        let mut frame = frame.to_vec();
        let mut deletes = Vec::new();
        if frame.len() > UPDATES_AT && frame[0] == 5 {
            let updates = frame[UPDATES_AT..].chunks_exact_mut(221).enumerate();
            for (at, update) in updates.filter(|(_, update)| update[0] == 3) {
                self.litter(&mut update[REST_AT..]);
                deletes.push(at);
            }
        }
        (frame, deletes)
    }

    fn read(&mut self) -> Vec<u8> {
        let (device, role) = (self.device(), self.role());
        match self.dice.below(4) {
            0 => read_all(device, role, 0),
            1 => {
                let table = 0x0200_0009 - self.dice.below(4) as u32;
                read_all(device, role, table)
            }
            _ => {
                let mut entry = if self.entries.is_empty() || self.dice.once_in(4) {
                    self.entry()
                } else {
                    self.dice.pick(&self.entries)
                };
                self.pad(&mut entry);
                read_one(device, role, entry.table, entry.key)
            }
        }
    }

    /// An entry of one of the rows sent last.
    fn entry(&mut self) -> Entry {
        let Some(row) = self
            .rows
            .get(self.dice.below(self.rows.len().max(1)))
            .copied()
        else {
            return plain(TABLE, 1, 1);
        };
        let used = usize::from(row.field_count);
        let slots: Vec<Slot> = row.fields[..used]
            .iter()
            .map(|&(kind, width)| self.slot(kind, width))
            .collect();
        let prioritised = row.fields[..used]
            .iter()
            .any(|&(kind, _)| kind >= kind::TERNARY);
        let priority = match (prioritised, self.dice.below(20)) {
            (_, 0) => self.dice.pick(&[0, 1, 0x7fff_ffff, 0x8000_0000]),
            (true, _) => 1 + self.dice.below(2) as u32,
            (false, _) => 0,
        };
        let (action, params) = self.deed(row.table);
        Entry {
            table: row.table,
            key: Key::new(priority, &slots),
            action,
            params,
        }
    }

    fn slot(&mut self, kind: u8, width: u8) -> Slot {
        let value = self.number(width);
        match kind {
            kind::EXACT => Slot::exact(value),
            _ if self.dice.once_in(5) => Slot::OMITTED,
            kind::LPM => {
                let prefix = self.dice.pick(&[
                    0,
                    1,
                    1,
                    width.div_ceil(2),
                    width.div_ceil(2),
                    width,
                    width,
                    width + 1,
                ]);
                let below = u32::from(width.saturating_sub(prefix));
                let cleared = if self.dice.once_in(8) {
                    value
                } else {
                    let high = value.checked_shr(below).unwrap_or(0);
                    high.checked_shl(below).unwrap_or(0)
                };
                Slot::lpm(cleared, u128::from(prefix))
            }
            kind::TERNARY => {
                let mask = self.number(width);
                let within = if self.dice.once_in(8) {
                    value
                } else {
                    value & mask
                };
                Slot::ternary(within, mask)
            }
            kind::RANGE => {
                let other = self.number(width);
                if self.dice.once_in(8) {
                    Slot::range(value, other)
                } else {
                    Slot::range(value.min(other), value.max(other))
                }
            }
            _ => Slot::optional(value),
        }
    }

    fn deed(&mut self, table: u32) -> (u32, [Value; 4]) {
        let Some(row) = self.rows.iter().find(|row| row.table == table).copied() else {
            return (ACTION, [Value::NONE; 4]);
        };
        let action = self
            .dice
            .pick(&row.actions[..usize::from(row.action_count)]);
        let mut params = [Value::NONE; 4];
        for (at, param) in params[..usize::from(action.count)].iter_mut().enumerate() {
            *param = Value::of(self.number(action.widths[at]));
        }
        (action.id, params)
    }

    /// Few numbers around the ends of the width, sometimes one too many.
    fn number(&mut self, width: u8) -> u128 {
        let top = u128::MAX >> (128 - width);
        match self.dice.below(40) {
            0 => top.wrapping_add(1),
            1..=10 => 0,
            11..=20 => 1,
            21..=30 => top,
            _ => top ^ (top >> 1),
        }
    }

    /// Gives values leading zeros, where they have room for them.
    fn pad(&mut self, entry: &mut Entry) {
        let slots = entry.key.slots.iter_mut();
        let in_key = slots.flat_map(|slot| [&mut slot.first, &mut slot.second]);
        for value in in_key.chain(&mut entry.params) {
            if (1..16).contains(&value.length) && self.dice.once_in(3) {
                let more = 1 + self.dice.below(16 - usize::from(value.length));
                value.bytes.rotate_right(more);
                value.length += more as u8;
            }
        }
    }

    /// Another length, or another byte somewhere.
    fn spoil(&mut self, frame: &mut Vec<u8>) {
        match self.dice.below(5) {
            0 => {
                frame.pop();
            }
            1 => frame.push(0),
            _ => self.spoil_byte(frame),
        }
    }

    fn spoil_byte(&mut self, bytes: &mut [u8]) {
        if !bytes.is_empty() {
            let at = self.dice.below(bytes.len());
            bytes[at] = self.dice.pick(&[0, 1, 2, 3, 4, 5, 8, 16, 17, 32, 128, 255]);
        }
    }

    fn noise(&mut self) -> Vec<u8> {
        let length = self.dice.pick(&[0, 1, 2, 28, 29, 81, 159, 250]);
        let mut noise: Vec<u8> = (0..length).map(|_| self.dice.next() as u8).collect();
        if let Some(command) = noise.first_mut() {
            *command %= 8;
        }
        noise
    }
}
