//! What reading a list gives, written from the documents' words and from neither side's code.

use crate::map;
use common::lists::{Portions, CAPACITY};
use mopsienna_sys::Reply;
use nomt_4096::beatree::allocator::PageNumber;

/// Refusals, by document 01's numbers; those of the bit map are document 02's.
pub const PAST_STORE: u32 = 2;
pub const COUNT: u32 = 3;
pub const ENTRY: u32 = 4;
pub const NOT_ENDED: u32 = 5;
pub const TABLES: u32 = 6;

/// How many pages a store has.
pub fn page_count(page_size: usize, store: &[u8]) -> usize {
    (store.len() / page_size).min(u32::MAX as usize)
}

/// What a store has where a list is to be.
pub struct Read {
    /// The list, or the refusal that comes before anything else that is lent is looked at.
    pub list: Result<Portions, Reply>,
    /// How many bits a map has to have.
    pub bits: u64,
    /// Whether a number occurs twice among the list's pages and entries together.
    repeats: bool,
}

impl Read {
    /// What a call gives that is lent so many places of both tables, and so many bytes of a map.
    pub fn reply(&self, pages: usize, entries: usize, map: usize) -> Reply {
        let list = match &self.list {
            Ok(list) => list,
            Err(refusal) => return refusal.clone(),
        };
        let refused = |number| Reply::refusal(number, &[]);
        if map::is_too_short(map, self.bits) {
            return refused(map::TOO_SHORT);
        }
        if self.repeats {
            return refused(map::REPEAT);
        }
        let (list_pages, list_entries) = size(list);
        if pages < list_pages || entries < list_entries {
            return refused(TABLES);
        }
        Reply::answer(&[list_pages as u64, list_entries as u64])
    }

    /// The number of what a call gives with all room.
    pub fn number(&self) -> u32 {
        self.reply(usize::MAX, usize::MAX, map::in_use(self.bits))
            .number
    }
}

/// Looks for the list with this head.
pub fn read(page_size: usize, store: &[u8], head: u32) -> Read {
    let list = list(page_size, store, head);
    Read {
        bits: page_count(page_size, store) as u64,
        repeats: list.as_ref().is_ok_and(|list| map::repeats(numbers(list))),
        list,
    }
}

/// How many pages and entries a list has.
pub fn size(list: &Portions) -> (usize, usize) {
    let entries = list.iter().map(|(_, entries)| entries.len()).sum();
    (list.len(), entries)
}

/// The numbers of a list, of its pages and its entries.
fn numbers(list: &Portions) -> Vec<u32> {
    let pages = list.iter().map(|(page, _)| page);
    let entries = list.iter().flat_map(|(_, entries)| entries);
    pages.chain(entries).map(|number| number.0).collect()
}

/// The list from this page down, or its refusal.
fn list(page_size: usize, store: &[u8], head: u32) -> Result<Portions, Reply> {
    let page_count = page_count(page_size, store);
    let mut from_head_down: Portions = vec![];
    let mut page = head;
    while page != 0 {
        if from_head_down.len() == page_count {
            return Err(Reply::refusal(NOT_ENDED, &[]));
        }
        let refused = |number| Err(Reply::refusal(number, &[page.into()]));
        if page as usize >= page_count {
            return refused(PAST_STORE);
        }
        let bytes = &store[page as usize * page_size..][..page_size];
        let count = u16::from_le_bytes([bytes[4], bytes[5]]).into();
        if !fits((page_size - 6) / 4, count, &from_head_down) {
            return refused(COUNT);
        }
        let entries: Vec<PageNumber> = bytes[6..]
            .chunks_exact(4)
            .take(count)
            .map(|entry| PageNumber(number(entry)))
            .collect();
        if !entries
            .iter()
            .all(|n| (1..page_count).contains(&(n.0 as usize)))
        {
            return refused(ENTRY);
        }
        from_head_down.push((PageNumber(page), entries));
        page = number(bytes);
    }
    let mut list = from_head_down;
    list.reverse();
    Ok(list)
}

/// Whether a count fits the page below the given ones.
fn fits(capacity: usize, count: usize, above: &Portions) -> bool {
    match above.as_slice() {
        [] => (1..=capacity).contains(&count),
        [(_, head)] if head.len() == 1 => count == capacity || count == capacity - 1,
        _ => count == capacity,
    }
}

/// The number in the first four bytes.
fn number(bytes: &[u8]) -> u32 {
    u32::from_le_bytes([bytes[0], bytes[1], bytes[2], bytes[3]])
}

/// Whether a list of so many pages and entries is fragmented, if it can be accepted at all.
pub fn fragmented(pages: usize, entries: usize) -> Option<bool> {
    if (pages, entries) == (0, 0) {
        return Some(false);
    }
    let least = CAPACITY * pages.checked_sub(1)?;
    let accepted = 1 <= entries && least <= entries && entries <= CAPACITY * pages;
    accepted.then_some(pages >= 2 && entries == least)
}
