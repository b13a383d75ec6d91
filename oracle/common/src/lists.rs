//! Lists in stores, their pages encoded by the Rust.

use nomt_4096::{
    beatree::allocator::{
        probe::free_list::{encode_free_list_page, MAX_PNS_PER_PAGE},
        PageNumber,
    },
    io::PAGE_SIZE,
};

/// How many entries a list page holds at most.
pub const CAPACITY: usize = MAX_PNS_PER_PAGE;

/// A list as the Rust holds it: each page's number and entries, from the bottom page up.
pub type Portions = Vec<(PageNumber, Vec<PageNumber>)>;

/// Writes the list's pages to a store. Bytes past a page's last entry stay as they were.
pub fn write(store: &mut [u8], list: &Portions) {
    let mut prev = PageNumber(0);
    for (page, entries) in list {
        let encoded = encode_free_list_page(prev, entries);
        let written = entry_at(entries.len());
        store[page.0 as usize * PAGE_SIZE..][..written].copy_from_slice(&encoded[..written]);
        prev = *page;
    }
}

/// The head's number, 0 of an empty list.
pub fn head(list: &Portions) -> u32 {
    list.last().map_or(0, |(page, _)| page.0)
}

/// Where on a list page an entry starts.
pub fn entry_at(entry: usize) -> usize {
    6 + 4 * entry
}
