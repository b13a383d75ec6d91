//! Pages that the writer would not write. The Rust reads those that end with exactly the old total of
//! numbers and the size of bytes, and so does the library where none of them is empty and the total is
//! not decided to be the new one; others may be.

use super::{
    case::{distinct, Case, Laid},
    model::{self, decided_total, differing, last_size, new_total, old_total, CELL_NUMBERS},
    Comparison, READ,
};
use crate::panics::unless_panic;
use common::Random;
use mopsienna_sys::{Form, Reply};
use nomt_plain::Values;
use std::io;

/// A chain that is to be laid out: the size of its value, and how many pages it has, of which so many are
/// empty.
pub struct Chain {
    size: usize,
    pages: usize,
    empty: usize,
}

/// What chain to lay out, at pages of so many bytes.
pub type Choice = fn(usize, &mut Random) -> Chain;

/// Any size up to some pages, and no empty page.
pub fn without_empty(page_size: usize, random: &mut Random) -> Chain {
    let most = last_size(page_size, random.pick(&[3, 15, 17, 30])) as u64;
    let size = 1 + random.below(most) as usize;
    Chain {
        size,
        pages: old_total(page_size, size),
        empty: 0,
    }
}

/// A size whose totals differ, or the one above it, and as many pages as one of them.
pub fn of_either_total(page_size: usize, random: &mut Random) -> Chain {
    let first = differing(page_size, 1 + random.below(30) as usize);
    let size = first + random.below(2) as usize;
    let totals = [new_total(page_size, size), old_total(page_size, size)];
    Chain {
        size,
        pages: random.pick(&totals),
        empty: 0,
    }
}

/// A size that has more pages than the bytes take, as the numbers past the cell's have no room behind
/// the bytes; and as many empty pages as these are more, or fewer.
pub fn with_empty(page_size: usize, random: &mut Random) -> Chain {
    let body = page_size - 4;
    let past_cell = 1 + random.below(15) as usize;
    let taken = CELL_NUMBERS + past_cell;
    let too_little = body.min(4 * past_cell) as u64;
    let size = body * taken - random.below(too_little) as usize;
    let pages = old_total(page_size, size);
    Chain {
        size,
        pages,
        empty: 1 + random.below((pages - taken) as u64) as usize,
    }
}

/// Passes on so many chains, which the Rust reads if they have as many pages as the old total: any count
/// of numbers in the cell, the others anywhere on pages that come before they are needed, the bytes
/// anywhere, empty pages anywhere, of which the first is refused, some pages without numbers more than
/// once.
pub fn each<R: Values>(
    comparison: &mut Comparison,
    form: Form,
    choice: Choice,
    random: &mut Random,
    count: u64,
) -> io::Result<()> {
    for _ in 0..count {
        let Chain { size, pages, empty } = choice(R::PAGE_SIZE, random);
        let page_count = pages + 1 + random.below(3) as usize;
        let numbers = distinct(pages, page_count, random);
        let (cell, laid) = any_chain(R::PAGE_SIZE, size, empty, numbers, random);
        let length = page_count * R::PAGE_SIZE;
        let case = Case::laid_out::<R>(length, size, &cell, &laid, random)?;

        let reply = as_laid(R::PAGE_SIZE, size, &cell, &laid);
        let model = model::read(R::PAGE_SIZE, &case.cell, case.store.bytes());
        let rust = unless_panic(|| R::read_value(&case.cell, case.store.file())).transpose()?;
        let is_read = pages == old_total(R::PAGE_SIZE, size);
        if rust.is_some() != is_read || !model.is_ok_and(|walked| walked.reply == reply) {
            comparison.reports[READ].disagree_at_call("the chain is none", || case.to_string());
        }
        comparison.check::<R>(form, &case)?;
    }
    Ok(())
}

/// What reading gives of pages that are laid out in the order of the walk, have each other's numbers and
/// all the value's bytes.
fn as_laid(page_size: usize, size: usize, cell: &[u32], laid: &[Laid]) -> Reply {
    let pages = laid.len();
    let first = laid.iter().take_while(|page| page.2 == 0).count();
    let found = laid.iter().take(first + 1).map(|page| page.1.len());
    let total = decided_total(page_size, size, cell.len() + found.sum::<usize>());
    let is_empty = |page: &Laid| page.1.is_empty() && page.2 == 0;
    match laid.iter().take(total).position(is_empty) {
        Some(index) => Reply::refusal(model::EMPTY, &[index as u64]),
        None if pages < total => Reply::refusal(model::UNKNOWN, &[pages as u64]),
        None if pages > total => Reply::refusal(model::NUMBERS, &[]),
        None => Reply::answer(&[size as u64, total as u64]),
    }
}

/// The numbers in the cell and the pages, of a value whose pages have these numbers and are empty at
/// so many places.
fn any_chain(
    page_size: usize,
    size: usize,
    empty: usize,
    mut numbers: Vec<u32>,
    random: &mut Random,
) -> (Vec<u32>, Vec<Laid>) {
    let body = page_size - 4;
    let full = numbers.len() - empty;
    // Numbers on pages take the place of bytes.
    let most_on_pages = ((body * full - size) / 4).min(full - 1);
    let any = random.below(most_on_pages as u64 + 1) as usize;
    let on_pages = random.pick(&[0, any, any, most_on_pages]);
    let mut counts = any_counts(body, full, on_pages, size, random);
    // The numbers that these are more go to the cell, so that every number is known in time.
    for _ in 0..empty {
        let place = random.below(counts.len() as u64 + 1) as usize;
        counts.insert(place, (0, 0));
    }
    // Pages without numbers can be the same.
    for (index, count) in counts.iter().enumerate() {
        let other = counts[..index].iter().position(|other| other == count);
        if let Some(other) = other.filter(|_| count.0 == 0 && random.below(4) == 0) {
            numbers[index] = numbers[other];
        }
    }
    let (cell, mut rest) = numbers.split_at(numbers.len() - on_pages);
    let laid = numbers.iter().zip(counts).map(|(number, (count, bytes))| {
        let (found, later) = rest.split_at(count);
        rest = later;
        (*number, found.to_vec(), bytes)
    });
    (cell.to_vec(), laid.collect())
}

/// How many numbers and how many bytes each of so many pages has, of all that stand on pages; none is
/// empty.
fn any_counts(
    body: usize,
    pages: usize,
    mut numbers_left: usize,
    mut bytes_left: usize,
    random: &mut Random,
) -> Vec<(usize, usize)> {
    let mut known = pages - numbers_left;
    let mut counts = vec![];
    for index in 0..pages {
        let later = pages - index - 1;
        // So much of this page has to be used, and the next number has to be known.
        let least = (4 * numbers_left + bytes_left).saturating_sub(body * later);
        let fewest = usize::from(known == index + 1 && later > 0);
        let most = numbers_left.min(body / 4);
        let any = fewest + random.below((most - fewest) as u64 + 1) as usize;
        let count = random.pick(&[fewest, fewest, any, most]);
        // Each later page is left a byte.
        let fewest = least.saturating_sub(4 * count).max(usize::from(count == 0));
        let most = (bytes_left - later).min(body - 4 * count);
        let any = fewest + random.below((most - fewest) as u64 + 1) as usize;
        let bytes = random.pick(&[fewest, most, most, any]);
        counts.push((count, bytes));
        known += count;
        numbers_left -= count;
        bytes_left -= bytes;
    }
    counts
}

/// Passes on so many small stores with any counts that fit and any numbers on every page. The size
/// is often what some of the first pages have together.
pub fn tangles<R: Values>(
    comparison: &mut Comparison,
    form: Form,
    random: &mut Random,
    count: u64,
) -> io::Result<()> {
    let body = R::PAGE_SIZE - 4;
    for _ in 0..count {
        let page_count = 1 + random.below(5) as usize;
        let any_number = |random: &mut Random| match random.below(30) {
            0 => page_count as u32,
            _ => random.below(page_count as u64) as u32,
        };
        let laid: Vec<Laid> = (0..page_count)
            .map(|page| {
                let count = random.pick(&[0, 0, 0, 1, 2]);
                let room = body - 4 * count;
                let any = random.below(room as u64 + 1) as usize;
                let bytes = random.pick(&[room, room, room, any, 0]);
                let numbers = (0..count).map(|_| any_number(random)).collect();
                (page as u32, numbers, bytes)
            })
            .collect();
        let most = random.pick(&[2, 5, 17]);
        let in_cell = 1 + random.below(most);
        let cell: Vec<u32> = (0..in_cell).map(|_| any_number(random)).collect();
        let mut size = fitting_size(R::PAGE_SIZE, &cell, &laid);
        if size == 0 || random.below(4) == 0 {
            size = 1 + random.below(20 * body as u64) as usize;
        }
        let length = page_count * R::PAGE_SIZE;
        let case = Case::laid_out::<R>(length, size, &cell, &laid, random)?;
        comparison.check::<R>(form, &case)?;
    }
    Ok(())
}

/// The bytes on the first pages of a walk, for as many pages as a value of so many bytes takes and
/// the walk has then found; 0 if there are none.
fn fitting_size(page_size: usize, cell: &[u32], laid: &[Laid]) -> usize {
    let mut numbers = cell.to_vec();
    let mut size = 0;
    for index in 0..60 {
        let page = numbers.get(index).and_then(|page| laid.get(*page as usize));
        let Some((_, found, bytes)) = page else {
            return 0;
        };
        numbers.extend(found);
        size += bytes;
        let totals = [old_total(page_size, size), new_total(page_size, size)];
        if numbers.len() == index + 1 && totals.contains(&(index + 1)) {
            return size;
        }
    }
    0
}
