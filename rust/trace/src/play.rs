//! Hands frames to the proved agent, and keeps what there is to say of each call.

use savorylatch::answer::{Notification, Unreadable};
use savorylatch::frame::{self, Query, Wanted};
use savorylatch::wire::Entry;
use savorylatch::{Agent, Answer, Command, Reason, Store};

use crate::call::Call;

/// An agent with its store and an answer buffer.
pub struct Player {
    agent: Agent,
    store: Store,
    answer: Answer,
    /// How many calls it has made.
    calls: usize,
}

/// A call and all that is known of it.
#[derive(Debug)]
pub struct Outcome {
    pub frame: Vec<u8>,
    /// The frame taken apart, or what is wrong with its form.
    pub call: Result<Call, String>,
    pub reason: Reason,
    /// The line that the program `play` prints of the call.
    pub printed: String,
    pub told: Vec<Notification>,
    /// The updates' reasons.
    pub pairs: Vec<Reason>,
    pub entries: Vec<Entry>,
    pub before: Agent,
    pub after: Agent,
    /// The store before the call.
    pub store: Store,
}

impl Player {
    /// With a fresh agent.
    pub fn new(device: u64) -> Player {
        Player {
            agent: Agent::new(device),
            store: Store::new(),
            answer: Answer::new(),
            calls: 0,
        }
    }

    /// With an agent and its store as they were.
    pub fn resume(agent: &Agent, store: &Store) -> Player {
        Player {
            agent: agent.clone(),
            store: store.clone(),
            answer: Answer::new(),
            calls: 0,
        }
    }

    /// The device's id.
    pub fn device(&self) -> u64 {
        self.agent.device()
    }

    /// One call. Of an agent and its own store every answer can be read.
    pub fn call(&mut self, frame: &[u8]) -> Result<Outcome, Unreadable> {
        let before = self.agent.clone();
        let store = self.store.clone();
        let reason = self.agent.call(frame, &mut self.store, &mut self.answer);
        self.calls += 1;
        let view = self.answer.view(Command::of(frame))?;
        let is_read = Command::of(frame) == Some(Command::Read);
        let entries = view.records().filter(|_| is_read);
        Ok(Outcome {
            frame: frame.to_vec(),
            call: Call::decode(frame),
            reason,
            printed: view.printed(self.calls),
            told: view.notifications().collect(),
            pairs: view.pairs().map(|(reason, _)| reason).collect(),
            entries: entries.filter_map(Entry::decode).collect(),
            before,
            after: self.agent.clone(),
            store,
        })
    }

    /// The entries that are stored, as a READ shows them.
    pub fn stored(&self) -> Vec<Entry> {
        let everything = Query {
            device: self.device(),
            role: 0,
            wanted: Wanted::Everything,
        };
        let mut player = Player::resume(&self.agent, &self.store);
        let outcome = player.call(&frame::read(&everything));
        outcome.map_or(Vec::new(), |outcome| outcome.entries)
    }
}
