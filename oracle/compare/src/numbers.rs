//! Numbers that all differ.

use common::Random;
use std::ops::Range;

/// The numbers of a range in an order of their own. None comes twice before all of them have come; then
/// they come again.
pub struct Numbers {
    range: Range<u64>,
    next: u64,
    step: u64,
}

impl Numbers {
    /// The range is not empty, and its numbers have 32 bits.
    pub fn new(range: Range<u64>, random: &mut Random) -> Numbers {
        let count = range.end - range.start;
        let mut step = 1 + random.below(count);
        while common_divisor(step, count) != 1 {
            step = 1 + random.below(count);
        }
        Numbers {
            next: random.below(count),
            range,
            step,
        }
    }
}

impl Iterator for Numbers {
    type Item = u32;

    fn next(&mut self) -> Option<u32> {
        let number = self.range.start + self.next;
        let count = self.range.end - self.range.start;
        self.next = (self.next + self.step) % count;
        Some(number as u32)
    }
}

fn common_divisor(one: u64, other: u64) -> u64 {
    match other {
        0 => one,
        _ => common_divisor(other, one % other),
    }
}
