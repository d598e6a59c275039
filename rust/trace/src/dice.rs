//! Chance for tests, the same on every run.

/// SplitMix64.
pub struct Dice(u64);

impl Dice {
    pub fn new(seed: u64) -> Dice {
        Dice(seed)
    }

    fn next(&mut self) -> u64 {
        self.0 = self.0.wrapping_add(0x9e37_79b9_7f4a_7c15);
        let mut z = self.0;
        z = (z ^ (z >> 30)).wrapping_mul(0xbf58_476d_1ce4_e5b9);
        z = (z ^ (z >> 27)).wrapping_mul(0x94d0_49bb_1331_11eb);
        z ^ (z >> 31)
    }

    /// A number below a bound, 0 if that is 0.
    pub fn below(&mut self, bound: usize) -> usize {
        (self.next() % (bound.max(1) as u64)) as usize
    }

    pub fn byte(&mut self) -> u8 {
        // Small numbers mean most in a frame.
        match self.below(3) {
            0 => self.below(256) as u8,
            1 => self.below(10) as u8,
            _ => [0, 1, 2, 0x7f, 0x80, 0xfe, 0xff][self.below(7)],
        }
    }

    pub fn pick<'a, T>(&mut self, from: &'a [T]) -> &'a T {
        &from[self.below(from.len())]
    }
}

/// The example scripts.
pub const SCRIPTS: [&str; 13] = [
    include_str!("../../../samples/atomic-move.txt"),
    include_str!("../../../samples/clean-up.txt"),
    include_str!("../../../samples/document-01.txt"),
    include_str!("../../../samples/failover.txt"),
    include_str!("../../../samples/five-events.txt"),
    include_str!("../../../samples/five-events-atomic.txt"),
    include_str!("../../../samples/p2-p3-p4.txt"),
    include_str!("../../../samples/p5.txt"),
    include_str!("../../../samples/p9.txt"),
    include_str!("../../../samples/refusals.txt"),
    include_str!("../../../samples/roles.txt"),
    include_str!("../../../samples/tenant-moved.txt"),
    include_str!("../../../samples/values-and-widths.txt"),
];
