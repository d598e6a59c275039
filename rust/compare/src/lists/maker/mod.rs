//! Makes the next call of a list, with the state in view.
//!
//! Every list has a [`Mood`] that says what its calls are mostly about. Most
//! calls aim at something: at a key that is present, at a table that is full,
//! at an id that another stream holds. Where the agent has got stuck (no
//! primary, no rows), calls that get it going again are the more likely.

mod atomic;
mod deletes;
mod frames;
mod padded;
mod stories;
mod streams;
mod writing;

use std::collections::VecDeque;

use reference::bytes::Entry;

use super::entries::{Sizes, Spread};
use super::view::View;
use crate::bench::{Call, Poison, ANSWER_ROOM, STORE_ROOM};
use crate::dice::{Dice, MOST_NOISE};

/// What a call was made to meet: a way to go wrong, and where.
#[derive(Clone, Copy, Debug)]
pub struct Aim {
    pub reason: u8,
    pub name: &'static str,
    /// The update it is about; the call itself without one.
    pub update: Option<usize>,
}

impl Aim {
    /// The same, of an update.
    fn of(self, at: usize) -> Aim {
        Aim {
            update: Some(at),
            ..self
        }
    }
}

/// A call and what it was made to meet.
pub struct Draft {
    pub call: Call,
    pub aims: Vec<Aim>,
}

/// What the calls of a list are mostly about.
#[derive(Clone, Copy, Debug, PartialEq, Eq)]
pub enum Mood {
    /// Streams and ids.
    Court,
    /// Few keys, written again and again.
    Ledger,
    /// Tables and store full.
    Flood,
    /// Configurations, owners and primaries that change.
    Upheaval,
    /// Frames that are none.
    Garble,
}

const MOODS: [Mood; 9] = [
    Mood::Court,
    Mood::Court,
    Mood::Ledger,
    Mood::Ledger,
    Mood::Ledger,
    Mood::Upheaval,
    Mood::Upheaval,
    Mood::Flood,
    Mood::Garble,
];

/// The sorts of calls, in the order of [`Mood::weights`].
#[derive(Clone, Copy)]
enum Sort {
    Open,
    Close,
    Arbitrate,
    Configure,
    Write,
    Read,
    Malformed,
    Noise,
    Resend,
    Story,
}

const SORTS: [Sort; 10] = [
    Sort::Open,
    Sort::Close,
    Sort::Arbitrate,
    Sort::Configure,
    Sort::Write,
    Sort::Read,
    Sort::Malformed,
    Sort::Noise,
    Sort::Resend,
    Sort::Story,
];

impl Mood {
    fn weights(self) -> [usize; 10] {
        match self {
            Mood::Court => [14, 6, 50, 3, 8, 4, 5, 2, 3, 2],
            Mood::Ledger => [3, 1, 6, 5, 56, 20, 4, 2, 2, 2],
            Mood::Flood => [2, 1, 3, 3, 66, 14, 4, 1, 2, 1],
            Mood::Upheaval => [7, 4, 16, 14, 30, 15, 4, 2, 4, 4],
            Mood::Garble => [8, 4, 10, 8, 14, 10, 36, 12, 0, 1],
        }
    }

    fn calls(self, dice: &mut Dice) -> usize {
        match self {
            Mood::Flood => dice.between(150, 400),
            _ => dice.between(200, 2_000),
        }
    }
}

/// The maker of one list.
pub struct Maker {
    dice: Dice,
    mood: Mood,
    spread: Spread,
    sizes: Sizes,
    /// The roles that the list is mostly about; 0 is among them.
    roles: Vec<u8>,
    /// Bytes of the list's store.
    store: usize,
    /// Are the free bytes of the store overwritten between calls?
    poisons: bool,
    /// How many calls there are.
    pub calls: usize,
    /// So many calls pass before anything helps a configuration along.
    bare: usize,
    made: usize,
    /// Was the store full when a WRITE was made?
    was_full: bool,
    /// Entries that were made lately, to be met again.
    recent: VecDeque<Entry>,
    /// Frames that are due next: the rest of a story.
    due: VecDeque<Vec<u8>>,
}

impl Maker {
    pub fn new(mut dice: Dice, store: usize) -> Maker {
        let mood = dice.pick(&MOODS);
        let mut roles = vec![0];
        for _ in 0..dice.below(3) {
            roles.push(dice.between(1, 7) as u8);
        }
        let (spread, sizes) = match mood {
            Mood::Flood => (Spread::Wide, Sizes::Full),
            _ => (
                Spread::Narrow,
                dice.pick(&[Sizes::Tiny, Sizes::Any, Sizes::Full]),
            ),
        };
        Maker {
            mood,
            spread,
            sizes,
            roles,
            store,
            poisons: dice.percent(40),
            calls: mood.calls(&mut dice),
            bare: if dice.percent(25) { 60 } else { 0 },
            made: 0,
            was_full: false,
            recent: VecDeque::new(),
            due: VecDeque::new(),
            dice,
        }
    }

    /// The next call.
    pub fn next(&mut self, view: &View) -> Draft {
        self.made += 1;
        let mut aims = Vec::new();
        let frame = match self.due.pop_front() {
            Some(frame) => frame,
            None => self
                .remedy(view)
                .unwrap_or_else(|| self.frame(view, &mut aims)),
        };
        Draft {
            call: self.lend(frame),
            aims,
        }
    }

    /// Buffers for the frame: mostly what just suffices, sometimes more, now
    /// and then too little.
    fn lend(&mut self, frame: Vec<u8>) -> Call {
        let dice = &mut self.dice;
        let longer = dice.between(ANSWER_ROOM, MOST_NOISE);
        let (mut answer_len, mut store_len) = match dice.below(10) {
            0 => (ANSWER_ROOM + 1, self.store),
            1 => (longer, STORE_ROOM),
            2 => (ANSWER_ROOM, STORE_ROOM),
            _ => (ANSWER_ROOM, self.store),
        };
        match dice.below(200) {
            0 => answer_len = dice.pick(&[0, 3, 4, 56_324, ANSWER_ROOM - 1, ANSWER_ROOM - 1]),
            1 => store_len = dice.pick(&[0, 219, STORE_ROOM - 1, STORE_ROOM - 1]),
            _ => {}
        }
        let poison = match dice.below(8) {
            _ if !self.poisons => None,
            0 => Some(Poison::Noise(dice.next())),
            1 => Some(Poison::Byte(dice.pick(&[0x00, 0xff, 0x02]))),
            2..=4 => Some(Poison::Entries),
            _ => None,
        };
        Call {
            frame,
            answer_len,
            store_len,
            fill: dice.next(),
            poison,
        }
    }

    fn frame(&mut self, view: &View, aims: &mut Vec<Aim>) -> Vec<u8> {
        let sort = SORTS[self.dice.weighted(&self.mood.weights())];
        match sort {
            Sort::Open => self.open(view),
            Sort::Close => self.close(view),
            Sort::Arbitrate => self.arbitrate(view),
            Sort::Configure => self.configure(view, aims),
            Sort::Write => self.write(view, aims),
            Sort::Read => self.read(view, aims),
            Sort::Malformed => self.malformed(view, aims),
            Sort::Noise => self.noise(view),
            Sort::Resend => self.resend(view),
            Sort::Story => self.story(view),
        }
    }
}
