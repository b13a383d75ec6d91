//! The bit maps that reading a list and finishing a save are lent, and the least work on one.

use std::cell::RefCell;

thread_local! {
    static MAP: RefCell<Vec<u8>> = const { RefCell::new(vec![]) };
}

/// Lends the work a map of so many bits and no byte more. There is one map for all calls, as the largest
/// has 512 MiB; it holds anything when the length is a new one, and then what the last call left.
pub fn lend<T>(bits: u32, work: impl FnOnce(&mut Vec<u8>) -> T) -> T {
    MAP.with_borrow_mut(|map| {
        let length = bits.div_ceil(8) as usize;
        if map.len() != length {
            // The old one goes first.
            *map = vec![];
            *map = vec![0xA5; length];
        }
        work(map)
    })
}

/// About so many bytes are filled in the time in which a number's byte is made zero.
const FILLED: usize = 32;

/// The least that finds a repeat: the map is made zero, each number's bit is tested and set up to a repeat
/// or a number without a bit, and the map is made zero again, where the numbers are few by their bytes
/// alone. Tells whether there was neither.
#[inline(never)]
pub fn all_differ(map: &mut [u8], bits: u32, numbers: [&[u32]; 3]) -> bool {
    map.fill(0);
    let differ = set_all(map, bits, numbers);
    let count: usize = numbers.iter().map(|part| part.len()).sum();
    if map.len() / FILLED > count {
        clear_all(map, numbers);
    } else {
        map.fill(0);
    }
    differ
}

fn set_all(map: &mut [u8], bits: u32, numbers: [&[u32]; 3]) -> bool {
    for part in numbers {
        for &number in part {
            let (byte, bit) = (number as usize / 8, 1 << (number % 8));
            if number >= bits || map[byte] & bit != 0 {
                return false;
            }
            map[byte] |= bit;
        }
    }
    true
}

fn clear_all(map: &mut [u8], numbers: [&[u32]; 3]) {
    for part in numbers {
        for &number in part {
            if let Some(byte) = map.get_mut(number as usize / 8) {
                *byte = 0;
            }
        }
    }
}
