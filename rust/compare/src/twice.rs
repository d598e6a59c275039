//! Lists played twice.
//!
//! Document 02, request One: the bytes after the key of a DELETE are not looked
//! at. So every list is played to a second agent as well, with other bytes
//! there; it must answer each call as the first one did and keep the same
//! entries. This is held against the library alone, by its own answers.

use savorylatch::wire::Frame;

use crate::bench::{Call, Second, STORE_ROOM};
use crate::dice::noise;

const DELETE: u8 = 3;
/// Where the updates are in a WRITE.
const UPDATES_AT: usize = 29;
/// Bytes of an update, and where its action is; the parameters follow.
const UPDATE: usize = 221;
const ACTION_AT: usize = 149;

/// The agent that is played a list the second time.
pub struct Twin<S> {
    agent: S,
    answer: Vec<u8>,
}

impl<S: Second> Twin<S> {
    pub fn new(device: u64) -> Self {
        Twin {
            agent: S::fresh(device),
            answer: Vec::new(),
        }
    }

    /// Plays a call again, given the reason that was returned the first time and
    /// the buffer as it was left. Says whether other bytes were after the key of
    /// a DELETE; the error is that they made a difference.
    pub fn call(&mut self, call: &Call, returned: u8, answer: &[u8]) -> Result<bool, String> {
        let other = with_other_bytes(&call.frame, call.fill);
        self.answer.clear();
        self.answer.extend(noise(call.fill, call.answer_len));
        let frame = other.as_ref().unwrap_or(&call.frame);
        let again = self.agent.call(frame, call.store_len, &mut self.answer);
        if (again, &self.answer[..]) != (returned, answer) {
            return Err(format!(
                "the list is answered otherwise with other bytes after the keys of DELETEs: \
                 {returned} is returned, and then {again}"
            ));
        }
        Ok(other.is_some())
    }

    /// Are these the entries that are kept?
    pub fn keeps(&self, entries: &[u8]) -> bool {
        self.agent.store_image() == entries
    }
}

/// The frame with other bytes after the key of each of its DELETEs; none where
/// there is no DELETE.
pub fn with_other_bytes(frame: &[u8], seed: u64) -> Option<Vec<u8>> {
    let Ok(Frame::Write { updates, .. }) = Frame::decode(frame) else {
        return None;
    };
    let mut other = frame.to_vec();
    let deletes = (0..updates.len()).filter(|&at| updates[at].kind == DELETE);
    for at in deletes.clone() {
        let (seed, next) = (seed.wrapping_add(at as u64), (at + 1) % updates.len());
        let rest = &mut other[UPDATES_AT + at * UPDATE..][ACTION_AT..UPDATE];
        match seed % 4 {
            0 => rest.fill(0),
            1 => rest.fill(0xff),
            2 => rest.copy_from_slice(&updates[next].encode()[ACTION_AT..]),
            _ => rest.copy_from_slice(noise(seed, rest.len())),
        }
        // What is the same by chance is turned round.
        if *rest == updates[at].encode()[ACTION_AT..] {
            rest.iter_mut().for_each(|byte| *byte = !*byte);
        }
    }
    (deletes.count() > 0).then_some(other)
}

/// The library with a store of its own.
pub struct Library {
    agent: savorylatch::Agent,
    store: Vec<u8>,
}

impl Second for Library {
    fn fresh(device: u64) -> Self {
        Library {
            agent: savorylatch::Agent::new(device),
            store: vec![0; STORE_ROOM],
        }
    }

    fn call(&mut self, frame: &[u8], store_len: usize, answer: &mut [u8]) -> u8 {
        if self.store.len() < store_len {
            self.store.resize(store_len, 0);
        }
        let store = &mut self.store[..store_len];
        self.agent.call_in(frame, store, answer) as u8
    }

    fn store_image(&self) -> Vec<u8> {
        self.store[..220 * self.agent.entries()].to_vec()
    }
}
