//! Page numbers in random order.

use common::Random;

pub fn shuffle(numbers: &mut [u32], random: &mut Random) {
    for last in (1..numbers.len()).rev() {
        numbers.swap(last, random.below(last as u64 + 1) as usize);
    }
}

/// So many numbers from 1 up to the bump, which all differ and lie about in all that there are.
pub fn scattered(count: usize, bump: u32, random: &mut Random) -> Vec<u32> {
    // Each is taken from a part of its own.
    let start = |part: usize| 1 + part as u64 * (bump as u64 - 1) / count as u64;
    let mut numbers: Vec<u32> = (0..count)
        .map(|part| (start(part) + random.below(start(part + 1) - start(part))) as u32)
        .collect();
    shuffle(&mut numbers, random);
    numbers
}
