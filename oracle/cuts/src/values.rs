//! How many pages a value takes, by the old total and by the new one, and its cell.

use mopsienna_sys::Form;

/// How many numbers go to a cell.
const IN_CELL: usize = 15;

/// How many pages a stored value may take, and places the number table of a reader has to have.
pub fn old_total(page_size: usize, size: usize) -> usize {
    let body = page_size - 4;
    let raw = size.div_ceil(body);
    if raw <= IN_CELL || raw - IN_CELL <= (body * raw - size) / 4 {
        return raw;
    }
    let missing = size + 4 * (raw - IN_CELL) - body * raw;
    raw + (missing + body - 3) / (body - 4)
}

/// How many pages a new value takes: the fewest that have room for it and for the numbers past the
/// cell's.
pub fn new_total(page_size: usize, size: usize) -> usize {
    let has_room =
        |total: usize| (page_size - 4) * total >= size + 4 * total.saturating_sub(IN_CELL);
    // There is such a count: a page has room for more than a number.
    (1..).find(|total| has_room(*total)).unwrap()
}

/// The cell of a value with these pages.
pub fn cell(form: Form, size: usize, numbers: &[u32]) -> Vec<u8> {
    let first = &numbers[..numbers.len().min(IN_CELL)];
    let mut cell = vec![0; 40 + 4 * first.len()];
    let hash = [size as u8; 32];
    let reply = form.encode_cell(size as u64, &hash, first, &mut cell);
    assert_eq!(reply.number, 0, "a cell of a value's numbers is written");
    cell
}
