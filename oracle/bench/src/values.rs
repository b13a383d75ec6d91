//! Writing, reading and deleting values.
//!
//! The sizes are such that the new total is the Rust's, so that both sides write and read the same pages.
//!
//! `write-SIZE-page` writes all pages of a value, one call for each, to the same buffer of one page;
//! `write-SIZE-buffer` writes them one after another to a buffer for all. The library is lent the
//! numbers of the pages. The Rust's side is its `chunk` in both rows: it hands out the numbers and
//! keeps all pages in memory, each from the stand-in's heap and filled with zeros first. The copies
//! are of the value: to the same page in parts of a page's room, and to the large buffer at once.
//! By memcpy and memset the value's bytes go to their places on the pages, one page after another, and
//! what is left of each page is made zero; counts and numbers are left out.
//!
//! `read-SIZE-file` and `read-SIZE-memory` read a value by its cell, to a number table and a value
//! buffer that are there already. The Rust's sides are its `read_blocking`, which reads each page
//! from the store's file in memory by a system call, and the loop of `read_blocking` over pages that
//! were read before. Both make the Rust's own vectors. The copy is of as many bytes from the store's
//! memory to the value buffer, at once. The pages lie in the store in order. In
//! `read-SIZE-scattered` they lie about in it, the Rust's side is that over pages that were read
//! before and lie about in the same way, and the copy takes them one by one from where they lie.
//!
//! `delete-SIZE` collects the numbers of the pages; the Rust's side is its `delete`, which reads
//! pages from the file.
//!
//! What the Rust makes is dropped after the clock is stopped. A page counts as one of the value's.

mod value;

use crate::timing::Row;
use std::{io, rc::Rc};
use value::Value;

const SIZES: [(&str, usize); 6] = [
    ("100B", 100),
    ("4KiB", 1 << 12),
    ("64KiB", 1 << 16),
    ("1MiB", 1 << 20),
    ("16MiB", 1 << 24),
    ("64MiB", 1 << 26),
];

/// About how many pages a sample goes through.
const SAMPLE: usize = 1000;

/// The rows that are taken, by their names.
pub fn rows(takes: &dyn Fn(&str) -> bool) -> io::Result<Vec<Row>> {
    let mut rows = vec![];
    for (name, size) in SIZES {
        for scattered in [false, true] {
            rows.extend(rows_of(name, size, scattered, takes)?);
        }
    }
    Ok(rows)
}

/// The rows of a value of this size.
fn rows_of(
    name: &str,
    size: usize,
    scattered: bool,
    takes: &dyn Fn(&str) -> bool,
) -> io::Result<Vec<Row>> {
    let names = match scattered {
        false => vec![
            format!("write-{name}-page"),
            format!("write-{name}-buffer"),
            format!("read-{name}-file"),
            format!("read-{name}-memory"),
            format!("delete-{name}"),
        ],
        true => vec![format!("read-{name}-scattered")],
    };
    if !names.iter().any(|name| takes(name)) {
        return Ok(vec![]);
    }
    let value = Rc::new(Value::new(size, scattered)?);
    let works = match scattered {
        false => vec![
            (
                value.writing(1),
                value.chunking(),
                Some(value.copying_parts()),
                Some(value.filling(1)),
            ),
            (
                value.writing(value.numbers.len()),
                value.chunking(),
                Some(value.copying_in()),
                Some(value.filling(value.numbers.len())),
            ),
            (
                value.reading(),
                value.from_file(),
                Some(value.copying_out()),
                None,
            ),
            (
                value.reading(),
                value.from_memory(),
                Some(value.copying_out()),
                None,
            ),
            (value.deleting(), value.deleting_from_file(), None, None),
        ],
        true => vec![(
            value.reading(),
            value.from_memory(),
            Some(value.copying_pages()),
            None,
        )],
    };
    let rows = names.into_iter().zip(works);
    Ok(rows
        .map(|(name, (ours, theirs, copy, fill))| Row {
            name,
            pages: value.numbers.len(),
            calls: (SAMPLE / value.numbers.len()).max(1),
            ours,
            theirs,
            copy,
            fill,
            map: None,
            rounds: None,
        })
        .collect())
}
