//! Opening, closing, arbitrating; and what gets a stuck agent going again.

use reference::bytes::{arbitrate, close, configure, open, Head};

use super::{Maker, Mood};
use crate::lists::entries;
use crate::lists::view::{Stream, View};

impl Maker {
    /// Something that gives role 0, or another role of the list, a primary
    /// again, or the agent its rows.
    pub(super) fn remedy(&mut self, view: &View) -> Option<Vec<u8>> {
        if self.made < self.bare {
            return None;
        }
        let eager = if self.mood == Mood::Court { 8 } else { 45 };
        if view.primary(0).is_none() && self.dice.percent(eager) {
            return Some(self.promote(view, 0));
        }
        if view.rows.is_empty() && view.primary(0).is_some() && self.dice.percent(eager) {
            let rows = entries::rows(&mut self.dice, self.sizes, &self.roles);
            return Some(configure(self.primary_head(view, 0), &rows));
        }
        let role = self.dice.pick(&self.roles);
        if view.primary(role).is_none() && self.dice.percent(eager / 3) {
            return Some(self.promote(view, role));
        }
        None
    }

    /// A step towards a primary for the role.
    fn promote(&mut self, view: &View, role: u8) -> Vec<u8> {
        let mark = view.mark(role).unwrap_or(0);
        let higher = self.higher(mark);
        let id = if mark > 0 && self.dice.percent(50) {
            mark
        } else {
            higher
        };
        let head = Head::set(view.device, role, id);
        let bound = view.bound(role);
        if let Some(&stream) = self.dice.choose(&bound) {
            return arbitrate(stream, head);
        }
        if let Some(&stream) = self.dice.choose(&view.unbound()) {
            return arbitrate(stream, head);
        }
        match self.dice.choose(&view.closed()) {
            Some(&stream) => open(stream),
            None => close(self.dice.below(32) as u8),
        }
    }

    /// The head of a role's primary, or what would be if there were one.
    pub(super) fn primary_head(&self, view: &View, role: u8) -> Head {
        Head::set(view.device, role, view.mark(role).unwrap_or(1))
    }

    /// An id above the mark, if there is one; never far up without need.
    pub(super) fn higher(&mut self, mark: u128) -> u128 {
        let step = match self.dice.below(12) {
            0 => 1 << 64,
            1 => (1 << 64) - 1,
            2 => u128::MAX - mark,
            3 => 40,
            _ => 1,
        };
        // The highest id of all ends every race; few lists get there.
        if step == u128::MAX - mark && !self.dice.percent(4) {
            return mark.saturating_add(1);
        }
        mark.saturating_add(step)
    }

    /// Mostly a stream that is closed.
    pub(super) fn open(&mut self, view: &View) -> Vec<u8> {
        let closed = view.closed();
        match self.dice.choose(&closed) {
            Some(&stream) if self.dice.percent(80) => open(stream),
            _ => open(self.dice.below(32) as u8),
        }
    }

    /// Mostly a stream that is open, often a primary.
    pub(super) fn close(&mut self, view: &View) -> Vec<u8> {
        let role = self.dice.pick(&self.roles);
        match view.primary(role) {
            Some(stream) if self.dice.percent(35) => close(stream),
            _ if self.dice.percent(70) => {
                let bound = view.bound(role);
                let anyone = self.dice.below(32) as u8;
                close(self.dice.choose(&bound).copied().unwrap_or(anyone))
            }
            _ => close(self.dice.below(32) as u8),
        }
    }

    pub(super) fn arbitrate(&mut self, view: &View) -> Vec<u8> {
        let stream = self.arbitrating_stream(view);
        let role = match view.streams[usize::from(stream)] {
            Stream::Bound { role, .. } if self.dice.percent(90) => role,
            _ => self.any_role(),
        };
        let id = self.id(view, role, stream);
        let head = Head {
            device: self.device(view, role),
            role,
            flag: u8::from(id.is_some()),
            id: id.unwrap_or(0),
        };
        arbitrate(stream, head)
    }

    /// Mostly a stream that is open.
    fn arbitrating_stream(&mut self, view: &View) -> u8 {
        let role = self.dice.pick(&self.roles);
        let (unbound, bound) = (view.unbound(), view.bound(role));
        let from = match self.dice.below(20) {
            0 => Vec::new(),
            1..=9 => unbound,
            _ => bound,
        };
        let anyone = self.dice.below(32) as u8;
        self.dice.choose(&from).copied().unwrap_or(anyone)
    }

    /// Seldom another device than the agent's; more often with a role that
    /// there is not, so that both are wrong.
    pub(super) fn device(&mut self, view: &View, role: u8) -> u64 {
        let own = view.device;
        let share = if role > 7 { 25 } else { 2 };
        if self.dice.percent(share) {
            let others = [0, 1, 2, own ^ 1, own ^ 1 << 63, own.swap_bytes(), !own];
            return self.dice.pick(&others);
        }
        own
    }

    /// Mostly a role of the list's, sometimes another, or none at all.
    pub(super) fn any_role(&mut self) -> u8 {
        match self.dice.below(30) {
            0 => self.dice.pick(&[8, 9, 15, 16, 64, 128, 255]),
            1..=3 => self.dice.below(8) as u8,
            _ => self.dice.pick(&self.roles),
        }
    }

    /// An id for a stream of the role, or none.
    fn id(&mut self, view: &View, role: u8, stream: u8) -> Option<u128> {
        let mark = view.mark(role).unwrap_or(0);
        let low = mark & u128::from(u64::MAX);
        let others: Vec<u128> = view
            .bound(role)
            .into_iter()
            .filter(|&other| other != stream)
            .filter_map(|other| view.id_of(other))
            .collect();
        let id = match self.dice.below(100) {
            0..=11 => return None,
            12..=33 => self.higher(mark),
            34..=47 => mark,
            48..=59 => mark.saturating_sub(1 + self.dice.below(4) as u128),
            60..=71 => self.dice.choose(&others).copied().unwrap_or(mark),
            72..=79 => view.id_of(stream).unwrap_or(mark),
            // Ids that differ from the mark in one of their words only.
            80..=83 => low,
            84..=86 => (mark - low).saturating_sub(1),
            87..=89 => (mark - low) | (low.saturating_sub(1)),
            90..=91 => u128::from(u64::MAX),
            92..=93 => 1 << 64,
            94 => self.dice.pick(&[(1 << 64) + 1, 1 << 127, u128::MAX]),
            _ => 1 + self.dice.below(40) as u128,
        };
        Some(id.max(1))
    }
}
