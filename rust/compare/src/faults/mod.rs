//! Proof that the comparison can fail: faults planted in a copy of the second
//! implementation.
//!
//! The copy is made by `build.rs` from the sources of the second
//! implementation and from `faults.txt`. It holds all faults and asks at each
//! place whether that fault is planted; with none planted it does what the
//! second implementation does. A fault is found when the library differs from
//! the copy.

use std::time::Duration;

use crate::bench::{sides, LookBack, Second, Silent};
use crate::lists::{self, Found};
use crate::shrink::shrink;
#[cfg(test)]
use crate::{dice::noise, twice::Twin};

#[allow(clippy::all, dead_code, unused)]
mod faulty {
    include!(concat!(env!("OUT_DIR"), "/faulty.rs"));

    use std::cell::Cell;

    thread_local! {
        static PLANTED: Cell<Option<usize>> = const { Cell::new(None) };
    }

    /// Is this the fault that is planted?
    pub fn planted(number: usize) -> bool {
        PLANTED.get() == Some(number)
    }

    /// Plants a fault, by its place in [`NAMES`], or none.
    pub fn plant(number: Option<usize>) {
        PLANTED.set(number);
    }
}

sides!(faulty::agent::Agent, faulty::lookback::Past);

/// The most calls of one list.
const MOST_OF_A_LIST: usize = 400;
/// After so many calls a fault counts as not found.
const MOST: usize = 60_000;
/// The copy without a fault has to agree for so many calls.
const SOUND: usize = 4_000;
/// The time to look for the shortest list that shows a fault.
const SHRINKING: Duration = Duration::from_secs(2);

/// How a fault was found.
pub struct Catch {
    /// The calls it took.
    pub calls: usize,
    /// The shortest list that shows it.
    pub shortest: Found,
}

/// The names of the faults.
pub fn names() -> &'static [&'static str] {
    faulty::NAMES
}

/// Faults that do not fit the sources, with the reasons.
pub fn misfits() -> &'static [&'static str] {
    faulty::MISFITS
}

/// Does the copy agree while no fault is planted?
pub fn is_sound(seed: u64) -> bool {
    faulty::plant(None);
    hunt::<faulty::agent::Agent, faulty::lookback::Past>(seed, SOUND).is_none()
}

/// Plants a fault and plays lists until the library differs from the copy.
/// Only the part of the copy that has the fault is asked.
pub fn find(number: usize, seed: u64) -> Option<Catch> {
    faulty::plant(Some(number));
    if names()[number].starts_with("looking back") {
        hunt::<reference::Agent, faulty::lookback::Past>(seed, MOST)
    } else {
        hunt::<faulty::agent::Agent, Silent<reference::Past>>(seed, MOST)
    }
}

/// Plays lists twice to the copy with a fault, or with none. Is a difference
/// seen, though its answers are compared with nothing but themselves?
#[cfg(test)]
pub fn shows_when_played_twice(number: Option<usize>, seed: u64) -> bool {
    (1..=4).any(|list| {
        let (mut calls, mut device) = (Vec::new(), 1);
        let seed = lists::seed_of(seed, list);
        let _ = lists::play::<reference::Agent, reference::Past>(seed, 600, |view, draft, _| {
            device = view.device;
            calls.push(draft.call.clone());
        });
        faulty::plant(number);
        let mut agent = <faulty::agent::Agent as Second>::fresh(device);
        let mut twin = Twin::<faulty::agent::Agent>::new(device);
        calls.iter().any(|call| {
            let mut answer = noise(call.fill, call.answer_len).to_vec();
            let returned = agent.call(&call.frame, call.store_len, &mut answer);
            twin.call(call, returned, &answer).is_err() || !twin.keeps(&agent.store_image())
        })
    })
}

fn hunt<S: Second, L: LookBack>(seed: u64, most: usize) -> Option<Catch> {
    let mut calls = 0;
    for list in 1.. {
        match lists::play::<S, L>(lists::seed_of(seed, list), MOST_OF_A_LIST, |_, _, _| {}) {
            Ok(played) => calls += played,
            Err(found) => {
                calls += found.list.calls.len();
                let shortest = shrink::<S, L>(*found, SHRINKING);
                return Some(Catch { calls, shortest });
            }
        }
        if calls >= most {
            break;
        }
    }
    None
}
