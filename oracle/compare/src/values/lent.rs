//! What is lent to a call, and texts that tell of it.

/// So many numbers, each its own, so that a place written is noticed.
pub fn untouched_numbers(length: usize) -> Vec<u32> {
    (0xC3C3_0000..).take(length).collect()
}

/// So many bytes, none of them 0.
pub fn untouched_bytes(length: usize) -> Vec<u8> {
    (0..length).map(|at| 1 + (at % 255) as u8).collect()
}

/// The numbers, or of many only the first ones and how many there are.
pub fn numbers_text(numbers: &[u32]) -> String {
    match numbers.len() {
        0..=40 => format!("{numbers:?}"),
        many => format!("{many} numbers from {:?}", &numbers[..4]),
    }
}
