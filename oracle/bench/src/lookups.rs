//! Page lookup, with 16 pending pages.
//!
//! `lookup-pending` seeks the last of them, `lookup-store` a page that is in the store. The library
//! tells where the page lies. The Rust has no pending pages: its side is the same in both rows, its
//! `StoreReader::query`, which reads the page from the store's file in memory to a page of its own.

use crate::timing::{measured, Ours, Row, Work};
use common::Store;
use mopsienna_sys::{Form, UNTOUCHED};
use nomt_4096::{beatree::allocator::PageNumber, io::PAGE_SIZE, reader};
use std::{hint::black_box, io, rc::Rc};

const PENDING: usize = 16;
const STORE_PAGES: usize = 1000;

/// The numbers of the pending pages.
const NUMBERS: [u32; PENDING] = [
    900, 30, 701, 44, 512, 999, 3, 77, 640, 82, 255, 256, 411, 8, 19, 1,
];

/// How many lookups make a sample.
const CALLS: usize = 1000;

pub fn rows() -> io::Result<Vec<Row>> {
    let store = Rc::new(Store::new(STORE_PAGES * PAGE_SIZE)?);
    let mut rows = vec![];
    for (name, page) in [("pending", NUMBERS[PENDING - 1]), ("store", 500)] {
        rows.push(Row {
            name: format!("lookup-{name}"),
            pages: 1,
            calls: CALLS,
            ours: Ours::This(looking_up(&store, page)),
            theirs: querying(&store, page)?,
            copy: None,
            fill: None,
            map: None,
            rounds: None,
        });
    }
    Ok(rows)
}

fn looking_up(store: &Rc<Store>, page: u32) -> Work {
    let store = store.clone();
    let pending = vec![0; PENDING * PAGE_SIZE];
    Box::new(move |calls| {
        let mut out = UNTOUCHED;
        measured(|| {
            for _ in 0..calls {
                let page = black_box(page);
                black_box(Form::Fixed.lookup_into(
                    &NUMBERS,
                    &pending,
                    store.bytes(),
                    page,
                    &mut out,
                ));
                black_box(&mut out);
            }
        })
        .0
    })
}

fn querying(store: &Rc<Store>, page: u32) -> io::Result<Work> {
    let reader = reader(store.file())?;
    // The file is there as long as the reader: the descriptor is its own.
    Ok(Box::new(move |calls| {
        let mut made = Vec::with_capacity(calls);
        measured(|| made.extend((0..calls).map(|_| reader.query(PageNumber(page))))).0
    }))
}
