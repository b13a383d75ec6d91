//! Page totals and cells.
//!
//! `total-SIZE` is how many pages a value takes, how many of their numbers go to its cell, how many bytes
//! are left, and the old total; the Rust's side is its `total_needed_pages` in a function that gives the
//! same, as both totals of these sizes are.
//! `encode_cell` writes a cell of 15 numbers, to a buffer that is there
//! already; the Rust's makes a vector. `decode_cell` reads it: the hash is copied on both sides, and
//! the Rust's goes through the numbers, which the library only counts.

use crate::timing::{measured, Ours, Row, Work};
use mopsienna_sys::{values::Hash, Form, UNTOUCHED};
use nomt_4096::beatree::{
    allocator::PageNumber,
    ops::overflow::{
        self,
        probe::{total_needed_pages, BODY_SIZE},
    },
};
use std::hint::black_box;

const SIZES: [(&str, u64); 3] = [("100B", 100), ("64KiB", 1 << 16), ("64MiB", 1 << 26)];

/// The numbers of a full cell.
const NUMBERS: [u32; 15] = [
    900, 30, 701, 44, 512, 999, 3, 77, 640, 82, 255, 256, 411, 8, 19,
];
const CELL: usize = 40 + 4 * NUMBERS.len();
const SIZE: u64 = 1 << 20;
const HASH: Hash = [7; 32];

/// How many calls make a sample.
const CALLS: usize = 10_000;

pub fn rows() -> Vec<Row> {
    let row = |name: String, (ours, theirs): (Work, Work)| Row {
        name,
        pages: 1,
        calls: CALLS,
        ours: Ours::This(ours),
        theirs,
        copy: None,
        fill: None,
        map: None,
        rounds: None,
    };
    let totals = SIZES.map(|(name, size)| row(format!("total-{name}"), totalling(size)));
    let encoding = row("encode_cell".into(), encoding());
    let decoding = row("decode_cell".into(), decoding());
    totals.into_iter().chain([encoding, decoding]).collect()
}

/// Makes so many calls of what is given.
fn repeated(mut call: impl FnMut() + 'static) -> Work {
    Box::new(move |calls| measured(|| (0..calls).for_each(|_| call())).0)
}

/// What the library answers, from the Rust's total.
#[inline(never)]
fn rust_total(size: u64) -> [u64; 4] {
    let total = total_needed_pages(size as usize);
    let in_cell = total.min(NUMBERS.len());
    let spare = BODY_SIZE * total - size as usize - 4 * (total - in_cell);
    [total, in_cell, spare, total].map(|number| number as u64)
}

fn totalling(size: u64) -> (Work, Work) {
    let mut out = UNTOUCHED;
    assert_eq!(Form::Fixed.total_into(size, &mut out), 0);
    assert!(out[..4] == rust_total(size));
    let ours = repeated(move || {
        black_box(Form::Fixed.total_into(black_box(size), &mut out));
        black_box(&mut out);
    });
    let theirs = repeated(move || {
        black_box(rust_total(black_box(size)));
    });
    (ours, theirs)
}

fn encoding() -> (Work, Work) {
    let mut cell = [0; CELL];
    let numbers = NUMBERS.map(PageNumber);
    Form::Fixed.encode_cell(SIZE, &HASH, &NUMBERS, &mut cell);
    assert!(cell[..] == overflow::encode_cell(SIZE as usize, HASH, &numbers));
    let ours = repeated(move || {
        black_box(Form::Fixed.encode_cell(SIZE, &HASH, black_box(&NUMBERS), &mut cell));
        black_box(&mut cell);
    });
    let theirs = repeated(move || {
        let numbers = black_box(&numbers);
        drop(black_box(overflow::encode_cell(
            SIZE as usize,
            HASH,
            numbers,
        )));
    });
    (ours, theirs)
}

fn decoding() -> (Work, Work) {
    let numbers = NUMBERS.map(PageNumber);
    let cell = overflow::encode_cell(SIZE as usize, HASH, &numbers);
    let (mut hash, mut out) = ([0; 32], UNTOUCHED);
    assert_eq!(Form::Fixed.decode_cell_into(&cell, &mut hash, &mut out), 0);
    assert!(hash == HASH && out[0] == SIZE && out[1] == NUMBERS.len() as u64);
    let theirs_cell = cell.clone();
    let ours = repeated(move || {
        black_box(Form::Fixed.decode_cell_into(black_box(&cell), &mut hash, &mut out));
        black_box((&mut hash, &mut out));
    });
    let theirs = repeated(move || {
        let (size, hash, numbers) = overflow::decode_cell(black_box(&theirs_cell));
        black_box((size, hash, numbers.count()));
    });
    (ours, theirs)
}
