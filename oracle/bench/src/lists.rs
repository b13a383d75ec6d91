//! Reading lists of full pages.
//!
//! The library reads the lent store into tables that are there already, with a bit map of just the
//! length that it needs. The Rust has two rows: `file` is its `FreeList::read` with its calls to read
//! each page from the store's file, which is in memory; `memory` is the loop of its `FreeList::read`
//! over pages that were read before. Both make the Rust's own vectors, and what is made is dropped
//! after the clock is stopped. `memory` also gives back the pages, as the Rust's decoder takes them.
//! The map alone is the work of `maps::all_differ` on the pages and entries in two tables.

use crate::{
    maps, numbers,
    timing::{measured, Ours, Row, Work},
};
use common::{
    lists::{self, Portions, CAPACITY},
    Random, Store,
};
use mopsienna_sys::{Form, Reply};
use nomt_4096::{
    beatree::allocator::{
        probe::free_list::{decode_free_list_page, portions, FreeList},
        PageNumber,
    },
    io::{page_pool::FatPage, read_page, PagePool, PAGE_SIZE},
};
use std::{hint::black_box, io, rc::Rc};

/// About how many list pages a sample goes through.
const SAMPLE: usize = 1000;

/// The rows that are taken, by their names.
pub fn rows(takes: &dyn Fn(&str) -> bool) -> io::Result<Vec<Row>> {
    let mut rows = vec![];
    for pages in [1, 10, 100, 1500, 3000] {
        let names = ["file", "memory"].map(|name| format!("read_list-{pages}-{name}"));
        if !names.iter().any(|name| takes(name)) {
            continue;
        }
        let list = Rc::new(List::new(pages)?);
        let theirs: [Work; 2] = [list.from_file(), list.from_memory()];
        for (name, theirs) in names.into_iter().zip(theirs) {
            rows.push(Row {
                name,
                pages,
                calls: (SAMPLE / pages).max(1),
                ours: list.ours(),
                theirs,
                copy: None,
                fill: None,
                map: Some(list.map_alone()),
                rounds: None,
            });
        }
    }
    Ok(rows)
}

/// A list in the least store that holds it: all pages but page 0 are its own or its entries. Only its own
/// are ever touched.
struct List {
    store: Store,
    page_count: u32,
    list: Portions,
}

impl List {
    /// The list's pages are half of those at the front of the store, and lie about there; the entries
    /// are all other pages, in random order.
    fn new(pages: usize) -> io::Result<List> {
        let page_count = (pages * (1 + CAPACITY) + 1) as u32;
        let mut random = Random::new(pages as u64);
        let mut own: Vec<u32> = (1..=2 * pages as u32).collect();
        numbers::shuffle(&mut own, &mut random);
        let mut entries = own.split_off(pages);
        entries.extend(2 * pages as u32 + 1..page_count);
        numbers::shuffle(&mut entries, &mut random);
        let list = own
            .iter()
            .zip(entries.chunks(CAPACITY))
            .map(|(page, entries)| {
                let entries = entries.iter().copied().map(PageNumber).collect();
                (PageNumber(*page), entries)
            })
            .collect();
        let mut store = Store::new(page_count as usize * PAGE_SIZE)?;
        lists::write(store.bytes_mut(), &list);
        let list = List {
            store,
            page_count,
            list,
        };
        list.check();
        Ok(list)
    }

    /// Sees to it that all read the same list.
    fn check(&self) {
        let (mut pages, mut entries) = self.tables();
        maps::lend(self.page_count, |map| {
            let reply = self.read_into(Form::Fixed, &mut pages, &mut entries, map);
            assert_eq!(reply.number, 0);
            assert!(map.iter().all(|byte| *byte == 0));
            assert!(maps::all_differ(
                map,
                self.page_count,
                [&pages, &entries, &[]]
            ));
        });
        assert!(self.list.iter().map(|(page, _)| page.0).eq(pages));
        let all_entries = self.list.iter().flat_map(|(_, entries)| entries);
        assert!(all_entries.map(|entry| entry.0).eq(entries));
        assert!(self.list == *portions(&self.read_file()));
        assert!(self.list == self.decode(self.read_pages()));
    }

    fn ours(self: &Rc<List>) -> Ours {
        let list = self.clone();
        let (mut pages, mut entries) = self.tables();
        Ours::Any(Box::new(move |form, calls| {
            maps::lend(list.page_count, |map| {
                measured(|| {
                    for _ in 0..calls {
                        black_box(list.read_into(form, &mut pages, &mut entries, map));
                        black_box((&mut pages, &mut entries));
                    }
                })
                .0
            })
        }))
    }

    fn map_alone(self: &Rc<List>) -> Work {
        let page_count = self.page_count;
        let pages: Vec<u32> = self.list.iter().map(|(page, _)| page.0).collect();
        let entries = self.list.iter().flat_map(|(_, entries)| entries);
        let entries: Vec<u32> = entries.map(|entry| entry.0).collect();
        Box::new(move |calls| {
            maps::lend(page_count, |map| {
                measured(|| {
                    for _ in 0..calls {
                        let numbers = [&pages[..], &entries, &[]];
                        black_box(maps::all_differ(map, page_count, numbers));
                    }
                })
                .0
            })
        })
    }

    fn from_file(self: &Rc<List>) -> Work {
        let list = self.clone();
        Box::new(move |calls| {
            let mut made = Vec::with_capacity(calls);
            measured(|| made.extend((0..calls).map(|_| list.read_file()))).0
        })
    }

    fn from_memory(self: &Rc<List>) -> Work {
        let list = self.clone();
        Box::new(move |calls| {
            let pages: Vec<_> = (0..calls).map(|_| list.read_pages()).collect();
            let mut made = Vec::with_capacity(calls);
            measured(|| made.extend(pages.into_iter().map(|pages| list.decode(pages)))).0
        })
    }

    fn tables(&self) -> (Vec<u32>, Vec<u32>) {
        let pages = self.list.len();
        (vec![0; pages], vec![0; pages * CAPACITY])
    }

    fn head(&self) -> PageNumber {
        PageNumber(lists::head(&self.list))
    }

    fn read_into(
        &self,
        form: Form,
        pages: &mut [u32],
        entries: &mut [u32],
        map: &mut [u8],
    ) -> Reply {
        form.read_list(self.store.bytes(), self.head().0, pages, entries, map)
    }

    fn read_file(&self) -> FreeList {
        // The lists made here are healthy.
        FreeList::read(&PagePool, self.store.file(), Some(self.head())).unwrap()
    }

    /// The list's pages, from the head down.
    fn read_pages(&self) -> Vec<FatPage> {
        let numbers = self.list.iter().rev().map(|(page, _)| page.0);
        numbers
            .map(|page| read_page(&PagePool, self.store.file(), page.into()).unwrap())
            .collect()
    }

    /// The loop of the Rust's `FreeList::read`, without its reading of pages.
    fn decode(&self, pages: Vec<FatPage>) -> Portions {
        let mut number = self.head();
        let mut portions = vec![];
        for page in pages {
            let (prev, entries) = decode_free_list_page(page, self.page_count);
            portions.push((number, entries));
            number = prev;
        }
        portions.reverse();
        portions
    }
}
