//! The two sides, each behind the same call, and the memory that is lent to them.

/// Bytes that an answer buffer needs.
pub const ANSWER: usize = savorylatch::Answer::LENGTH;

/// Bytes of a page, by which buffers are placed.
const PAGE: usize = 4096;

/// An agent with the state that its earlier calls left.
pub trait Side {
    /// A fresh agent.
    fn fresh(device: u64) -> Self;

    /// One call; gives back the number of the reason.
    fn call(&mut self, frame: &[u8], answer: &mut [u8]) -> u8;

    /// The entries in order of insertion, `count` of them, 220 bytes each.
    fn entries(&self, count: usize) -> Vec<u8>;
}

/// The proved agent, called through the safe wrapper in memory of the host.
pub struct Proved {
    agent: savorylatch::Agent,
    store: Buffer,
}

impl Proved {
    /// The store as the calls left it.
    pub fn store(&self) -> &[u8] {
        self.store.bytes()
    }

    /// How many entries the store holds.
    pub fn count(&self) -> usize {
        self.agent.entries()
    }
}

impl Side for Proved {
    fn fresh(device: u64) -> Proved {
        Proved {
            agent: savorylatch::Agent::new(device),
            store: Buffer::new(savorylatch::Store::LENGTH, 0),
        }
    }

    fn call(&mut self, frame: &[u8], answer: &mut [u8]) -> u8 {
        self.agent
            .call_in(frame, self.store.bytes_mut(), answer)
            .number()
    }

    fn entries(&self, count: usize) -> Vec<u8> {
        self.store()[..220 * count].to_vec()
    }
}

/// The second implementation, which keeps its entries itself.
pub struct Second {
    agent: reference::Agent,
}

impl Side for Second {
    fn fresh(device: u64) -> Second {
        Second {
            agent: reference::Agent::new(device),
        }
    }

    fn call(&mut self, frame: &[u8], answer: &mut [u8]) -> u8 {
        self.agent.call(frame, reference::STORE_ROOM, answer)
    }

    fn entries(&self, _count: usize) -> Vec<u8> {
        self.agent.store_image()
    }
}

/// Bytes on the heap that start at a chosen place within a page. Where two buffers lie to each other
/// sways the time of a copy between them; so it is not left to the allocator.
pub struct Buffer {
    room: Vec<u8>,
    from: usize,
    length: usize,
}

impl Buffer {
    /// Zeros, the first of them `place` bytes into a page.
    pub fn new(length: usize, place: usize) -> Buffer {
        let room = vec![0; length + PAGE];
        let at = room.as_ptr() as usize % PAGE;
        Buffer {
            from: (PAGE + place - at) % PAGE,
            length,
            room,
        }
    }

    /// The answer buffer, half a page off the store.
    pub fn answer() -> Buffer {
        Buffer::new(ANSWER, PAGE / 2)
    }

    /// The bytes.
    pub fn bytes(&self) -> &[u8] {
        &self.room[self.from..][..self.length]
    }

    /// The bytes, to be written.
    pub fn bytes_mut(&mut self) -> &mut [u8] {
        &mut self.room[self.from..][..self.length]
    }
}
