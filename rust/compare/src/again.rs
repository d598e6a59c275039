//! READs that come again.
//!
//! Document 02, request Two: after a WRITE with atomicity 1 answered 23, every
//! READ is answered as it was before it. This is held against the library
//! alone, by the frames it got and the answers it gave.

use std::collections::HashMap;

use savorylatch::wire::Frame;
use savorylatch::Command;

/// What READs were answered since anything last may have changed an entry.
#[derive(Default)]
pub struct Reads {
    /// By frame: the answer, and how many batches had been rolled back then.
    answered: HashMap<Vec<u8>, (Vec<u8>, u64)>,
    rolled_back: u64,
}

impl Reads {
    /// Takes note of a call and its answer. Says of a READ whether it was made
    /// before a batch that was rolled back, and now after it; the error is that
    /// it is not answered as it was.
    pub fn note(&mut self, frame: &[u8], answer: &[u8]) -> Result<bool, String> {
        let (Some(command), Some(&reason)) = (Command::of(frame), answer.first()) else {
            return Ok(false);
        };
        match (command, reason) {
            (Command::Read, _) => return self.read(frame, answer),
            (Command::Write, 23) if is_atomic(frame) => self.rolled_back += 1,
            (Command::Configure | Command::Write, 0 | 23) => self.answered.clear(),
            _ => {}
        }
        Ok(false)
    }

    fn read(&mut self, frame: &[u8], answer: &[u8]) -> Result<bool, String> {
        let now = (answer.to_vec(), self.rolled_back);
        match self.answered.insert(frame.to_vec(), now) {
            Some((before, _)) if before != answer => {
                Err("a READ is not answered as before, though no entry was changed".to_owned())
            }
            Some((_, rolled_back)) => Ok(rolled_back < self.rolled_back),
            None => Ok(false),
        }
    }
}

fn is_atomic(frame: &[u8]) -> bool {
    matches!(Frame::decode(frame), Ok(Frame::Write { atomicity: 1, .. }))
}
