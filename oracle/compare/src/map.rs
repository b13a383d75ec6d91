//! The bit map that reading a list and finishing a save are lent, as document 02 has it: one bit for each
//! number below some number, eight to a byte.

use crate::saves::model::{BUFFER, TABLES};
use common::Random;
use mopsienna_sys::Reply;
use std::collections::BTreeMap;

/// Refusals, by document 02's numbers.
pub const TOO_SHORT: u32 = 21;
pub const REPEAT: u32 = 22;

/// What the calls give that clear the bytes in use: an answer, or a refusal that comes after
/// [`TOO_SHORT`].
const CLEARING: [u32; 4] = [0, REPEAT, TABLES, BUFFER];

/// How many bytes are in use.
pub fn in_use(bits: u64) -> usize {
    bits.div_ceil(8) as usize
}

pub fn is_too_short(length: usize, bits: u64) -> bool {
    (length as u64) < bits.div_ceil(8)
}

/// Whether a call that gives this number clears them.
pub fn is_cleared_by(number: u32) -> bool {
    CLEARING.contains(&number)
}

/// How many bytes a call with this reply clears.
pub fn cleared_by(reply: &Reply, bits: u64) -> usize {
    match is_cleared_by(reply.number) {
        true => in_use(bits),
        false => 0,
    }
}

/// Whether a number occurs twice among these.
pub fn repeats(mut numbers: Vec<u32>) -> bool {
    numbers.sort_unstable();
    numbers.windows(2).any(|pair| pair[0] == pair[1])
}

/// So many bytes, which hold anything.
pub fn dirty(length: usize, random: &mut Random) -> Vec<u8> {
    let mut map = vec![0; length];
    random.fill(&mut map);
    map
}

/// A map that is too long to be copied: it is lent to one call after another. All but some of its bytes are
/// zero before each, so that it takes hardly any memory until a call comes past [`TOO_SHORT`].
#[derive(Default)]
pub struct Large(Vec<u8>);

/// So many bytes are looked at on both sides of a large map's ends, and of the end of what is in use, after
/// a call that is to leave it.
const NEAR: usize = 4096;

impl Large {
    /// Lends so many bytes to a call that is to give this reply. Tells what it gave, and whether the map is
    /// then as it has to be.
    pub fn lend(
        &mut self,
        length: usize,
        bits: u64,
        expected: &Reply,
        random: &mut Random,
        call: impl FnOnce(&mut Vec<u8>) -> Reply,
    ) -> (Reply, bool) {
        let map = &mut self.0;
        if map.capacity() < length {
            // Zeros that are new take no memory.
            *map = vec![0; length + NEAR];
        }
        map.resize(length, 0);
        let ends = [0, in_use(bits).min(length), length];
        let near = ends.map(|end| end.saturating_sub(NEAR)..length.min(end + NEAR));
        let mut dirty = BTreeMap::new();
        let any = random.below(length as u64) as usize;
        for place in near.iter().cloned().flatten().step_by(30).chain([any]) {
            map[place] = random.bits() as u8;
            dirty.insert(place, map[place]);
        }

        let reply = call(map);
        let cleared = cleared_by(expected, bits);
        let mut same = true;
        for (place, byte) in dirty.range(cleared..) {
            same &= std::mem::take(&mut map[*place]) == *byte;
        }
        // All others have to be zero.
        same &= match cleared {
            0 => near.into_iter().all(|part| is_zero(&map[part])),
            _ => map.chunks(NEAR).all(is_zero),
        };
        (reply, same)
    }
}

fn is_zero(part: &[u8]) -> bool {
    part.iter().fold(0, |all, byte| all | byte) == 0
}
