//! Cells alone, written and read.

use super::{
    case::any_hash,
    model::{max_size, too_large, CELL_NUMBERS, CELL_START},
    Comparison,
};
use common::Random;
use mopsienna_sys::Form;
use nomt_4096::beatree::leaf::node::MAX_OVERFLOW_VALUE_SIZE;
use nomt_plain::Values;

/// Passes on cells of some sizes, and on so many of any size, with any numbers; and on cells of sizes
/// around the library's limit and around the Rust's, which at the panel's page size is larger.
pub fn each<R: Values>(comparison: &mut Comparison, form: Form, random: &mut Random, count: u64) {
    let too_large = too_large(R::PAGE_SIZE);
    for size in [0, 1, 4093, too_large - 1, too_large, 1 << 32, u64::MAX] {
        for numbers in [0, 1, 15, 16] {
            cell::<R>(comparison, form, size, numbers, random);
        }
    }
    for _ in 0..count {
        let any = random.of_any_length(64);
        let size = random.pick(&[any, any % too_large]);
        let most = random.pick(&[4, 20, 300]);
        let numbers = random.below(most) as usize;
        cell::<R>(comparison, form, size, numbers, random);
    }
    // The random numbers are its own, so that the other cases stay as they are.
    let random = &mut Random::new(R::PAGE_SIZE as u64);
    for limit in [max_size(R::PAGE_SIZE), MAX_OVERFLOW_VALUE_SIZE] {
        for size in limit - 3..=limit + 3 {
            cell::<R>(comparison, form, size as u64, CELL_NUMBERS, random);
        }
    }
}

fn cell<R: Values>(
    comparison: &mut Comparison,
    form: Form,
    size: u64,
    numbers: usize,
    random: &mut Random,
) {
    let hash = any_hash(random);
    let numbers: Vec<u32> = (0..numbers).map(|_| random.bits() as u32).collect();
    let exact = CELL_START + 4 * numbers.len();
    let any = random.below(exact as u64) as usize;
    for length in [exact, exact + 1 + any, exact - 1, any, 0] {
        comparison.encode::<R>(form, size, &hash, &numbers, length);
    }
    let mut cell = vec![0; exact];
    random.fill(&mut cell);
    cell[..8].copy_from_slice(&size.to_le_bytes());
    for length in [exact, exact - 1, any, any - any % 4] {
        comparison.decode::<R>(form, &cell[..length]);
    }
}
