//! The search for a shorter list that still shows a difference.
//!
//! Greedy: first the buffers become usual ones, then calls are left out, long
//! stretches before single ones, then updates and rows, and where buffers are
//! still unusual each call is tried for itself. What is found when the time is
//! over is what there is.

use std::marker::PhantomData;
use std::time::{Duration, Instant};

use savorylatch::wire::Frame;

use crate::bench::{Bench, Call, List, LookBack, Second};
use crate::lists::Found;

/// The shortest list found within the time, with its difference.
pub fn shrink<S: Second, L: LookBack>(found: Found, time: Duration) -> Found {
    let mut search = Search::<S, L> {
        best: found,
        deadline: Instant::now() + time,
        sides: PhantomData,
    };
    search.plain_buffers();
    loop {
        let before = search.size();
        search.drop_calls();
        search.drop_parts();
        if search.size() == before || search.is_over() {
            break;
        }
    }
    search.plain_calls();
    search.best
}

struct Search<S, L> {
    best: Found,
    deadline: Instant,
    sides: PhantomData<(S, L)>,
}

impl<S: Second, L: LookBack> Search<S, L> {
    fn is_over(&self) -> bool {
        Instant::now() >= self.deadline
    }

    fn calls(&self) -> &[Call] {
        &self.best.list.calls
    }

    /// Calls and bytes: what is to become less.
    fn size(&self) -> (usize, usize) {
        let bytes = self.calls().iter().map(|call| call.frame.len()).sum();
        (self.calls().len(), bytes)
    }

    /// Takes the calls if they still show a difference, up to where they do.
    fn try_calls(&mut self, calls: Vec<Call>) -> bool {
        let mut list = List {
            calls,
            ..self.best.list.clone_empty()
        };
        match Bench::<S, L>::play(&list) {
            Ok(()) => false,
            Err((at, difference)) => {
                list.calls.truncate(at + 1);
                self.best = Found { difference, list };
                true
            }
        }
    }

    fn plain_buffers(&mut self) {
        let plain = self
            .calls()
            .iter()
            .map(|call| Call::new(call.frame.clone()));
        let plain = plain.collect();
        if self.try_calls(plain) {
            return;
        }
        let calm = self.calls().iter().cloned().map(|call| Call {
            poison: None,
            ..call
        });
        let calm = calm.collect();
        self.try_calls(calm);
    }

    /// The same call by call.
    fn plain_calls(&mut self) {
        let mut at = 0;
        while at < self.calls().len() && !self.is_over() {
            let call = &self.calls()[at];
            let calm = Call {
                poison: None,
                ..call.clone()
            };
            for easier in [calm, Call::new(call.frame.clone())] {
                let mut calls = self.calls().to_vec();
                if at < calls.len() && calls[at] != easier {
                    calls[at] = easier;
                    self.try_calls(calls);
                }
            }
            at += 1;
        }
    }

    /// Leaves out stretches of calls, each half as long as the last.
    fn drop_calls(&mut self) {
        let mut stretch = self.calls().len().div_ceil(2);
        while stretch > 0 {
            let mut end = self.calls().len();
            while end > 0 && !self.is_over() {
                let start = end.saturating_sub(stretch);
                let mut calls = self.calls().to_vec();
                calls.drain(start..end.min(calls.len()));
                self.try_calls(calls);
                end = start.min(self.calls().len());
            }
            stretch /= 2;
        }
    }

    /// Leaves out updates and rows.
    fn drop_parts(&mut self) {
        let mut at = 0;
        while at < self.calls().len() {
            let mut stretch = 64;
            while stretch > 0 {
                let mut start = 0;
                while !self.is_over() {
                    let Some(call) = self.calls().get(at) else {
                        return;
                    };
                    let Some(frame) = without(&call.frame, start, stretch) else {
                        break;
                    };
                    let mut calls = self.calls().to_vec();
                    calls[at].frame = frame;
                    if !self.try_calls(calls) {
                        start += stretch;
                    }
                }
                stretch /= 2;
            }
            at += 1;
        }
    }
}

/// The frame without some of its updates or rows; `None` where there are none.
fn without(frame: &[u8], start: usize, count: usize) -> Option<Vec<u8>> {
    let mut frame = Frame::decode(frame).ok()?;
    let dropped = match &mut frame {
        Frame::Write { updates, .. } => drop_some(updates, start, count),
        Frame::Configure { rows, .. } => drop_some(rows, start, count),
        _ => false,
    };
    dropped.then(|| frame.encode())
}

fn drop_some<T>(items: &mut Vec<T>, start: usize, count: usize) -> bool {
    if start >= items.len() {
        return false;
    }
    items.drain(start..items.len().min(start + count));
    true
}
