//! Hostile random lists of calls.
//!
//! A list is made call by call: its [`maker`] sees what the answers so far
//! tell a host ([`view`]) and aims by it. The same seed gives the same list.

pub mod digits;
pub mod entries;
pub mod maker;
pub mod view;
pub mod ways;

use crate::bench::{Bench, Call, Difference, List, LookBack, Second, Seen, STORE_ROOM};
use crate::dice::Dice;
use maker::{Draft, Maker};
use view::View;

/// A difference, and the list that led to it.
#[derive(Debug)]
pub struct Found {
    pub difference: Difference,
    /// Up to the call that differs.
    pub list: List,
}

/// The seed of a list within a run.
pub fn seed_of(run: u64, list: u64) -> u64 {
    Dice::new(run ^ list.wrapping_mul(0xd134_2543_de82_ef95)).next()
}

/// Plays the list of a seed, at most so many calls of it, and shows each call
/// that all agree on. Gives back the number of calls.
pub fn play<S: Second, L: LookBack>(
    seed: u64,
    most: usize,
    mut show: impl FnMut(&View, &Draft, &Seen<'_>),
) -> Result<usize, Box<Found>> {
    let mut dice = Dice::new(seed);
    let device = match dice.below(10) {
        0 => dice.pick(&[0, u64::MAX, 1 << 63, 0x0102_0304_0506_0708]),
        _ => 1,
    };
    let store = STORE_ROOM + dice.pick(&[0, 0, 0, 1, 220, 4_096, 9_216, 65_536]);
    let fill = dice.next();

    let mut maker = Maker::new(dice, store);
    let mut view = View::new(device);
    let mut bench: Bench<S, L> = Bench::new(device, store, fill);
    let mut calls: Vec<Call> = Vec::new();
    for _ in 0..maker.calls.min(most) {
        let draft = maker.next(&view);
        calls.push(draft.call.clone());
        match bench.call(&draft.call) {
            Ok(seen) => {
                show(&view, &draft, &seen);
                view.note(&draft.call.frame, seen.answer);
            }
            Err(difference) => {
                let list = List {
                    device,
                    store,
                    fill,
                    calls,
                };
                return Err(Box::new(Found { difference, list }));
            }
        }
    }
    Ok(calls.len())
}
