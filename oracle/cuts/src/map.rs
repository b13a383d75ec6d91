//! The bit map that reading a list and finishing a save are lent.

use random::Random;

/// How many bytes of a map of so many bits are in use.
pub fn in_use(bits: u64) -> usize {
    bits.div_ceil(8) as usize
}

/// So many bytes, which hold anything.
pub fn dirty(length: usize, random: &mut Random) -> Vec<u8> {
    let mut map = vec![0; length];
    random.fill(&mut map);
    map
}

/// A call that comes past its room check leaves zeros in the bytes in use, and any call all other bytes as
/// they were.
pub fn check(number: u32, before: &[u8], after: &[u8], bits: u64) {
    let cleared = match number {
        0 | 6 | 9 | 22 => in_use(bits),
        _ => 0,
    };
    let (used, others) = after.split_at(cleared);
    assert!(
        used.iter().all(|byte| *byte == 0) && *others == before[cleared..],
        "the map's bytes in use are cleared, and no others"
    );
}
