//! The store that a host lends to an agent.

use std::fmt;

use crate::bytes::zeros;
use crate::ffi;

/// The bytes in which an agent keeps its entries: [`Store::LENGTH`] of them, on the heap.
///
/// A store belongs to one agent. What it holds while the agent is fresh does not matter; from then
/// on only the agent's calls may change it. To save an agent, clone it and its store together.
#[derive(Clone)]
pub struct Store {
    pub(crate) bytes: Box<[u8; Store::LENGTH]>,
}

impl Store {
    /// The bytes that a store needs: 256 entries of 220.
    pub const LENGTH: usize = ffi::STORE;

    /// A store for a fresh agent.
    pub fn new() -> Store {
        Store { bytes: zeros() }
    }

    /// The bytes as they are.
    pub fn as_bytes(&self) -> &[u8] {
        &self.bytes[..]
    }
}

impl Default for Store {
    fn default() -> Store {
        Store::new()
    }
}

impl fmt::Debug for Store {
    // How many of the bytes are entries is the agent's knowledge.
    fn fmt(&self, f: &mut fmt::Formatter<'_>) -> fmt::Result {
        f.debug_struct("Store").finish_non_exhaustive()
    }
}
