//! Frames that are none, and frames that come again.

use reference::bytes::{
    arbitrate, close, configure, open, read_all, read_one, write, Head, Update,
};

use super::{Aim, Maker};
use crate::lists::view::View;
use crate::lists::ways::FRAME_WAYS;

impl Maker {
    /// A frame that would be accepted, but for one thing.
    pub(super) fn malformed(&mut self, view: &View, aims: &mut Vec<Aim>) -> Vec<u8> {
        let way = &FRAME_WAYS[self.dice.below(FRAME_WAYS.len())];
        let command = self.dice.pick(way.commands);
        let mut frame = self.acceptable(view, command);
        (way.spoil)(&mut self.dice, &mut frame);
        aims.push(Aim {
            reason: 1,
            name: way.name,
            update: None,
        });
        frame
    }

    /// A frame of the command that is well formed, and would be accepted if
    /// anything would.
    fn acceptable(&mut self, view: &View, command: u8) -> Vec<u8> {
        match command {
            1 => open(self.dice.choose(&view.closed()).copied().unwrap_or(0)),
            2 => {
                let role = self.dice.pick(&self.roles);
                close(view.primary(role).unwrap_or(0))
            }
            3 => {
                let role = self.dice.pick(&self.roles);
                let streams = [view.bound(role), view.unbound()].concat();
                let stream = self.dice.choose(&streams).copied().unwrap_or(0);
                let mark = view.mark(role).unwrap_or(0);
                arbitrate(stream, Head::set(view.device, role, self.higher(mark)))
            }
            4 => {
                let rows = self.rows(view);
                configure(self.primary_head(view, 0), &rows)
            }
            5 => {
                let mut aims = Vec::new();
                let count = self.dice.between(0, 3);
                let updates: Vec<Update> = (0..count)
                    .map(|at| self.update(view, 0, at, &mut aims))
                    .collect();
                write(self.primary_head(view, 0), 0, &updates)
            }
            _ => match self.dice.choose(&view.entries) {
                Some(entry) if self.dice.percent(60) => {
                    read_one(view.device, 0, entry.table, entry.key)
                }
                _ => read_all(view.device, 0, self.row(view, 0).table),
            },
        }
    }

    /// Random bytes, or a frame with one of its bytes changed.
    pub(super) fn noise(&mut self, view: &View) -> Vec<u8> {
        if self.dice.percent(75) {
            let command = self.dice.between(1, 6) as u8;
            let mut frame = self.acceptable(view, command);
            for _ in 0..self.dice.between(1, 2) {
                let at = self.dice.below(frame.len());
                frame[at] = match self.dice.below(3) {
                    0 => frame[at] ^ 1 << self.dice.below(8),
                    1 => self
                        .dice
                        .pick(&[0, 1, 2, 3, 4, 5, 6, 8, 16, 17, 32, 128, 255]),
                    _ => self.dice.next() as u8,
                };
            }
            return frame;
        }
        let length = self
            .dice
            .pick(&[0, 1, 2, 2, 28, 28, 29, 81, 159, 159, 250, 1_000]);
        let mut frame: Vec<u8> = (0..length).map(|_| self.dice.next() as u8).collect();
        if let Some(command) = frame.first_mut() {
            *command %= 8;
        }
        frame
    }

    /// An old batch, as it was or in the name of the primary of today.
    pub(super) fn resend(&mut self, view: &View) -> Vec<u8> {
        let Some(batch) = self.dice.choose(&view.batches) else {
            return self.write(view, &mut Vec::new());
        };
        let mut frame = batch.clone();
        if self.dice.percent(35) {
            let head = self.primary_head(view, frame[9]);
            frame[1..27].copy_from_slice(&head.bytes());
        }
        // The same updates under another atomicity.
        if self.dice.percent(20) {
            frame[27] = self.dice.pick(&[0, 1, 1, 2]);
        }
        frame
    }
}
