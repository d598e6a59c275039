//! Writing an answer: a head of four bytes, then records.
//!
//! Records are written first, the head last, because the reason of a WRITE is
//! known only after its updates. Nothing but head and records is touched.

use crate::reason::Reason;

/// Bytes of an answer's head: reason 1, code 1, record count 2.
const HEAD: usize = 4;

/// An answer being written into a buffer that is long enough.
pub struct Answer<'a> {
    buffer: &'a mut [u8],
    end: usize,
    count: u16,
}

impl<'a> Answer<'a> {
    /// Starts an answer without records.
    pub fn new(buffer: &'a mut [u8]) -> Self {
        Answer {
            buffer,
            end: HEAD,
            count: 0,
        }
    }

    /// Adds one record.
    pub fn record(&mut self, bytes: &[u8]) {
        let start = self.end;
        self.end += bytes.len();
        self.count += 1;
        self.buffer[start..self.end].copy_from_slice(bytes);
    }

    /// Writes the head and gives back the number of the reason written.
    pub fn finish(self, reason: Reason) -> u8 {
        self.buffer[0] = reason.number();
        self.buffer[1] = reason.code();
        self.buffer[2..HEAD].copy_from_slice(&self.count.to_be_bytes());
        reason.number()
    }
}
