//! The largest value at a page size, and one byte more.

use super::{
    calls::Writing,
    case::{any_hash, Case},
    model::{self, max_size, Writer},
    Comparison, DELETE, READ, WRITE,
};
use crate::panics::unless_panic;
use common::{Random, Store};
use mopsienna_sys::{Form, Reply};
use nomt_4096::beatree::leaf::node::MAX_OVERFLOW_VALUE_SIZE;
use nomt_plain::Values;
use std::io;

/// Writes the largest value page by page and reads it back, on both sides.
pub fn largest<R: Values>(
    comparison: &mut Comparison,
    form: Form,
    random: &mut Random,
) -> io::Result<()> {
    let size = max_size(R::PAGE_SIZE);
    // It is the same by both totals.
    let total = model::new_total(R::PAGE_SIZE, size);
    // The pages lie about in the store: 7 has no common divisor with the count.
    let page_count = (total + 1).next_multiple_of(7) + 1;
    let numbers: Vec<u32> = (1..=total)
        .map(|page| (7 * page % page_count) as u32)
        .collect();
    let mut value = vec![0; size];
    random.fill(&mut value);
    let hash = any_hash(random);
    let mut store = Store::new(page_count * R::PAGE_SIZE)?;

    let chunked = R::chunk(&value, &numbers)?;
    let cell = R::encode_cell(size as u64, hash, &chunked.cell);
    comparison.total::<R>(form, size, &chunked.pages, &chunked);
    for (index, (page, bytes)) in chunked.pages.iter().enumerate() {
        for writer in [Writer::New, Writer::Old] {
            let writing = Writing {
                writer,
                value: &value,
                numbers: &numbers,
            };
            let (index, length) = (index as u64, R::PAGE_SIZE + 1);
            comparison.write::<R>(form, writing, index, length, &chunked.pages);
        }
        store.bytes_mut()[*page as usize * R::PAGE_SIZE..][..R::PAGE_SIZE].copy_from_slice(bytes);
    }
    drop(chunked);

    let text = || format!("page size {}, the largest value", R::PAGE_SIZE);
    if R::read_value(&cell, store.file())? != value {
        comparison.reports[READ].disagree_at_call("the Rust reads something else", text);
    }
    if R::delete_value(&cell, store.file())? != numbers {
        comparison.reports[DELETE].disagree_at_call("the Rust deletes something else", text);
    }
    let mut table = vec![0; total];
    let mut got = vec![0; size];
    let library = comparison.library;
    let reply = library.read_value(form, &cell, store.bytes(), &mut table, &mut got);
    let expected = Reply::answer(&[size as u64, total as u64]);
    let same = got == value && table == numbers;
    comparison.reports[READ].compare(&expected, &reply, same, text);
    table.fill(0);
    let reply = library.delete_value(form, &cell, store.bytes(), &mut table);
    let expected = Reply::answer(&[total as u64]);
    comparison.reports[DELETE].compare(&expected, &reply, table == numbers, text);
    Ok(())
}

/// What the Rust does with a value of one byte more, which the library refuses.
pub fn one_more<R: Values>(comparison: &mut Comparison, form: Form) -> io::Result<()> {
    let size = max_size(R::PAGE_SIZE) + 1;
    let total = model::old_total(R::PAGE_SIZE, size);
    let value = vec![0; size];
    let numbers: Vec<u32> = (1..=total as u32).collect();
    let chunked = unless_panic(|| R::chunk(&value, &numbers)).transpose()?;
    let does = match chunked {
        Some(_) => "writes it",
        None => "panics",
    };
    comparison.reports[WRITE].class(model::SIZE, does, || {
        format!("page size {}, size {size}", R::PAGE_SIZE)
    });
    for writer in [Writer::New, Writer::Old] {
        let writing = Writing {
            writer,
            value: &value,
            numbers: &numbers,
        };
        comparison.write::<R>(form, writing, 0, R::PAGE_SIZE, &[]);
    }
    // Where the Rust's own limit is larger, it reads and deletes the value too.
    if size <= MAX_OVERFLOW_VALUE_SIZE {
        comparison.group = format!("{form}, a byte more than the largest");
        let case = Case::written::<R>((total + 1) * R::PAGE_SIZE, size, &numbers, &[])?;
        comparison.check::<R>(form, &case)?;
    }
    Ok(())
}
