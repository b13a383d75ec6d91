//! The Rust's reading of a list.

use super::case::Case;
use crate::panics::unless_panic;
use nomt_4096::{
    beatree::allocator::{
        probe::free_list::{decode_free_list_page, FreeList},
        PageNumber,
    },
    io::{PagePool, PAGE_SIZE},
};

/// What the Rust does with a list.
pub enum Rust {
    Reads(FreeList),
    Panics,
    Fails,
    /// It would not end, and is not called.
    RunsOn,
}

impl Rust {
    pub fn read(case: &Case) -> Rust {
        if runs_on(case) {
            return Rust::RunsOn;
        }
        let head = Some(PageNumber(case.head)).filter(|page| !page.is_nil());
        match unless_panic(|| FreeList::read(&PagePool, case.store.file(), head)) {
            Some(Ok(list)) => Rust::Reads(list),
            Some(Err(_)) => Rust::Fails,
            None => Rust::Panics,
        }
    }

    pub fn name(&self) -> &'static str {
        match self {
            Rust::Reads(_) => "reads it",
            Rust::Panics => "panics",
            Rust::Fails => "gives an I/O error",
            Rust::RunsOn => "would not end",
        }
    }
}

/// Whether the Rust, page by page, decodes as many pages as the store has and is led to another:
/// then it has come to one of them twice.
fn runs_on(case: &Case) -> bool {
    let pages = case.store.bytes().chunks_exact(PAGE_SIZE);
    let page_count = pages.len();
    let mut number = case.head as usize;
    for _ in 0..page_count {
        let Some(bytes) = pages.clone().nth(number).filter(|_| number != 0) else {
            return false;
        };
        let mut page = PagePool.alloc_fat_page();
        page.copy_from_slice(bytes);
        match unless_panic(|| decode_free_list_page(page, page_count as u32)) {
            Some((prev, _)) => number = prev.0 as usize,
            None => return false,
        }
    }
    0 < number && number < page_count
}
