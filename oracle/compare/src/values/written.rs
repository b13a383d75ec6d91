//! Values written by both sides, their cells, and the values read back from a store.
//!
//! The Rust's pages are those of the old total. The pages of the new one are the same where both totals
//! are, and else come from the model.

use super::{
    calls::Writing,
    case::{any_hash, distinct, Case},
    model::{
        self, differing, first_filled, last_size, max_size, new_total, old_total, Writer,
        CELL_NUMBERS, CELL_START, PANEL,
    },
    Comparison, Extent, WRITE, WRITE_OLD,
};
use crate::panics::unless_panic;
use common::Random;
use mopsienna_sys::Form;
use nomt_plain::{Chunked, Values};
use std::io;

/// Values of sizes around every change of the total, up to some total, and of random sizes.
pub fn each<R: Values>(
    comparison: &mut Comparison,
    form: Form,
    extent: Extent,
    random: &mut Random,
    count: u64,
) -> io::Result<()> {
    for size in sizes::<R>(extent) {
        read_back::<R>(comparison, form, size, random)?;
    }
    let most = last_size(R::PAGE_SIZE, most_pages::<R>(extent));
    for _ in 0..count {
        let size = 1 + random.of_any_length(most.ilog2() + 1) as usize % most;
        if random.below(4) == 0 {
            let pages = old_total(R::PAGE_SIZE, size);
            let numbers: Vec<u32> = (0..pages).map(|_| random.bits() as u32).collect();
            write::<R>(comparison, form, size, &numbers, random)?;
        } else {
            read_back::<R>(comparison, form, size, random)?;
        }
    }
    if R::PAGE_SIZE > 100 && extent != Extent::Least {
        one_page::<R>(comparison, form)?;
    }
    no_value::<R>(comparison, form);
    Ok(())
}

/// Values of every size that one page takes: bytes are copied and made zero in every count. The random
/// numbers are its own, so that the other cases stay as they are.
fn one_page<R: Values>(comparison: &mut Comparison, form: Form) -> io::Result<()> {
    let mut random = Random::new(R::PAGE_SIZE as u64);
    for size in 1..=last_size(R::PAGE_SIZE, 1) {
        write::<R>(comparison, form, size, &[1], &mut random)?;
    }
    Ok(())
}

/// Up to so many pages sizes are taken.
fn most_pages<R: Values>(extent: Extent) -> usize {
    let filled = first_filled(R::PAGE_SIZE);
    match (extent, R::PAGE_SIZE) {
        (Extent::Least, 4096) => 17,
        (Extent::Least, _) => 20,
        (_, 4096) => filled + 3,
        (_, 1024) => 2 * filled,
        (Extent::Short, _) => 120,
        (Extent::Long, _) => 400,
    }
}

/// The sizes around every change of the total, or, where pages are large and the run is short, around
/// those at which the cell and the first page are filled with numbers; and around the first ones whose
/// totals differ, in a long run also around later ones. At the panel's page size there are the largest too.
fn sizes<R: Values>(extent: Extent) -> Vec<usize> {
    let most = most_pages::<R>(extent);
    if R::PAGE_SIZE < 100 && extent != Extent::Least {
        return (1..=last_size(R::PAGE_SIZE, most)).collect();
    }
    let filled = first_filled(R::PAGE_SIZE);
    let is_taken = |pages: &usize| {
        extent == Extent::Long
            || (..=2).contains(pages)
            || (CELL_NUMBERS - 1..=CELL_NUMBERS + 2).contains(pages)
            || (filled - 1..=filled + 2).contains(pages)
    };
    let mut sizes = vec![];
    for pages in (1..=most).filter(is_taken) {
        let first = last_size(R::PAGE_SIZE, pages - 1) + 1;
        let last = last_size(R::PAGE_SIZE, pages);
        sizes.extend([first, first + 1, last - 1, last]);
    }
    let differing_from: &[usize] = match (extent, R::PAGE_SIZE) {
        (Extent::Least, 100..) => &[],
        // The panel's largest value has 1,033 pages.
        (Extent::Long, PANEL) => &[1, 400, 700, 1_000],
        (Extent::Long, _) => &[1, 1_200, 1_500, 2_000],
        _ => &[1],
    };
    for pages in differing_from {
        let first = differing(R::PAGE_SIZE, *pages);
        sizes.extend(first - 1..=first + 2);
    }
    if R::PAGE_SIZE == PANEL && extent != Extent::Least {
        let largest = max_size(PANEL);
        sizes.extend(largest - 3..=largest);
    }
    sizes.sort();
    sizes.dedup();
    sizes
}

/// Writes a value of this size to pages of a store, and reads it back from there, by each total that it
/// has.
fn read_back<R: Values>(
    comparison: &mut Comparison,
    form: Form,
    size: usize,
    random: &mut Random,
) -> io::Result<()> {
    let page = R::PAGE_SIZE;
    let pages = old_total(page, size);
    let page_count = pages + random.below(3 + pages as u64 / 4) as usize;
    let numbers = distinct(pages, page_count, random);
    write::<R>(comparison, form, size, &numbers, random)?;
    let length = page_count * page + random.pick(&[0, 1, page - 1]);
    for total in new_total(page, size)..=pages {
        let case = Case::written::<R>(length, size, &numbers[..total], &[])?;
        comparison.check::<R>(form, &case)?;
    }
    Ok(())
}

/// Writes a value of this size to pages with these numbers, and its cell, on both sides.
fn write<R: Values>(
    comparison: &mut Comparison,
    form: Form,
    size: usize,
    numbers: &[u32],
    random: &mut Random,
) -> io::Result<()> {
    let mut value = vec![0; size];
    random.fill(&mut value);
    let text = || format!("page size {}, size {size}", R::PAGE_SIZE);
    let Some(chunked) = unless_panic(|| R::chunk(&value, numbers)).transpose()? else {
        comparison.reports[WRITE_OLD].disagree_at_call("the Rust panics", text);
        return Ok(());
    };
    compare::<R>(comparison, form, &value, numbers, &chunked, random);
    Ok(())
}

/// The library's total, cell and pages of a value, by each total, beside those of the Rust, which takes
/// all the numbers. Gives the cell, unless the Rust takes others.
pub fn compare<R: Values>(
    comparison: &mut Comparison,
    form: Form,
    value: &[u8],
    numbers: &[u32],
    chunked: &Chunked,
    random: &mut Random,
) -> Option<Vec<u8>> {
    let size = value.len();
    let text = || format!("page size {}, size {size}", R::PAGE_SIZE);
    let cell = &numbers[..numbers.len().min(CELL_NUMBERS)];
    let at = chunked.pages.iter().map(|(page, _)| page);
    if chunked.total != numbers.len() || chunked.cell != cell || !at.eq(numbers) {
        comparison.reports[WRITE_OLD].disagree_at_call("the Rust takes other pages", text);
        return None;
    }
    let page = R::PAGE_SIZE;
    if model::pages(page, value, numbers) != chunked.pages {
        comparison.reports[WRITE_OLD].disagree_at_call("the model has other pages", text);
    }

    let of_model;
    let new_numbers = &numbers[..new_total(page, size)];
    let new_pages = if new_numbers.len() == numbers.len() {
        &chunked.pages
    } else {
        comparison.reports[WRITE].class(0, "writes a page more", text);
        of_model = model::pages(page, value, new_numbers);
        &of_model
    };
    comparison.total::<R>(form, size, new_pages, chunked);
    for (writer, numbers, pages) in [
        (Writer::Old, numbers, &chunked.pages),
        (Writer::New, new_numbers, new_pages),
    ] {
        let writing = Writing {
            writer,
            value,
            numbers,
        };
        compare_pages::<R>(comparison, form, writing, pages, random);
    }
    Some(compare_cell::<R>(comparison, form, size, cell, random))
}

/// The library's pages of a value by one total beside these, and pages that it refuses.
pub fn compare_pages<R: Values>(
    comparison: &mut Comparison,
    form: Form,
    writing: Writing,
    pages: &[(u32, Vec<u8>)],
    random: &mut Random,
) {
    let page = R::PAGE_SIZE;
    for index in 0..writing.numbers.len() as u64 {
        let length = random.pick(&[page, page, page + 1, page + 7, 2 * page]);
        comparison.write::<R>(form, writing, index, length, pages);
    }
    refused::<R>(comparison, form, writing, random);
}

/// The library's cell of a value beside the Rust's, which is given.
pub fn compare_cell<R: Values>(
    comparison: &mut Comparison,
    form: Form,
    size: usize,
    numbers: &[u32],
    random: &mut Random,
) -> Vec<u8> {
    let hash = any_hash(random);
    let length = CELL_START + 4 * numbers.len();
    for length in [length, length - 1, length + 1 + random.below(9) as usize] {
        comparison.encode::<R>(form, size as u64, &hash, numbers, length);
    }
    let cell = R::encode_cell(size as u64, hash, numbers);
    comparison.decode::<R>(form, &cell);
    cell
}

/// Pages that are refused: indexes past the last, one number less and more, and short buffers.
fn refused<R: Values>(
    comparison: &mut Comparison,
    form: Form,
    writing: Writing,
    random: &mut Random,
) {
    let numbers = writing.numbers;
    let total = numbers.len() as u64;
    let page = R::PAGE_SIZE;
    let any = random.below(total);
    let fewer = &numbers[1..];
    let more = [numbers, &[7]].concat();
    for (numbers, index, length) in [
        (numbers, any, page - 1),
        (numbers, total - 1, 0),
        (numbers, total, page),
        (numbers, total + 1, page - 1),
        (numbers, any + (1 << 32), page),
        (numbers, u64::MAX, page + 1),
        (fewer, any, page),
        (fewer, 0, page - 1),
        (&more, any, page),
        (&more, total, page),
        (&[], 0, page),
    ] {
        let writing = Writing { numbers, ..writing };
        comparison.write::<R>(form, writing, index, length, &[]);
    }
}

/// Sizes that no value has, with every other fault beside them.
fn no_value<R: Values>(comparison: &mut Comparison, form: Form) {
    // It is only as long as it looks: its bytes are never touched.
    let too_long = vec![0; max_size(R::PAGE_SIZE) + 1];
    for value in [&[][..], &too_long] {
        for (numbers, index, length) in [
            (&[][..], 0, R::PAGE_SIZE),
            (&[1], 0, R::PAGE_SIZE),
            (&[1], 1, R::PAGE_SIZE),
            (&[1], 0, R::PAGE_SIZE - 1),
        ] {
            for writer in [Writer::New, Writer::Old] {
                let writing = Writing {
                    writer,
                    value,
                    numbers,
                };
                comparison.write::<R>(form, writing, index, length, &[]);
            }
        }
    }
    let text = || format!("page size {}, size 0", R::PAGE_SIZE);
    let does = match unless_panic(|| R::chunk(&[], &[])) {
        Some(_) => "writes it",
        None => "panics",
    };
    comparison.reports[WRITE].class(model::SIZE, does, text);
}

/// The bytes past the value's, on a page that was not zeroed before.
pub fn left_bytes<R: Values>(comparison: &mut Comparison) -> io::Result<()> {
    const FILLER: u8 = 0xA5;
    let chunked = R::with_filled_pages(FILLER, || R::chunk(&[7], &[1]))?;
    let page = &chunked.pages[0].1;
    let as_said = page[..5] == [0, 0, 1, 0, 7] && page[5..].iter().all(|byte| *byte == FILLER);
    let does = match as_said {
        true => "leaves the bytes past the value's",
        false => "does something else",
    };
    comparison.reports[WRITE].class(0, does, || format!("page size {}, size 1", R::PAGE_SIZE));
    Ok(())
}
