//! What is lent to a call, and texts that tell of it.

use super::model::{self, After};
use mopsienna_sys::Lent;
use nomt_plain::{List, Rust};
use std::fmt::Write;

/// What is lent to a finish: how many places of each.
#[derive(Clone, Copy, Debug)]
pub struct Room {
    pub pages: usize,
    pub entries: usize,
    pub bytes: usize,
    pub numbers: usize,
    /// Bytes of the bit map.
    pub map: usize,
}

impl Room {
    /// Places of both tables alone.
    pub fn tables(pages: usize, entries: usize) -> Room {
        Room {
            pages,
            entries,
            bytes: 0,
            numbers: 0,
            map: 0,
        }
    }

    /// What a finish needs with a map of so many bytes, and more; then one place less of each table, of
    /// the buffer and of its numbers; one page less in the table, with no buffer; and at last a map of a byte
    /// less.
    pub fn around<R: Rust>(list: &List, after: &After, map: usize) -> [Room; 8] {
        let (pages, entries) = model::size(list);
        let (new_pages, new_entries) = model::size(&after.state.list);
        let written = after.written.len();
        let exact = Room {
            pages: pages.max(new_pages),
            entries: entries.max(new_entries),
            bytes: written * R::PAGE_SIZE,
            numbers: written,
            map,
        };
        let ample = Room {
            pages: exact.pages + 2,
            entries: exact.entries + 5,
            bytes: exact.bytes + R::PAGE_SIZE + 3,
            numbers: exact.numbers + 2,
            map: map + 3,
        };
        let [mut pages, mut entries, mut bytes, mut numbers, mut short] = [ample; 5];
        pages.pages = exact.pages.saturating_sub(1);
        entries.entries = exact.entries.saturating_sub(1);
        bytes.bytes = exact.bytes.saturating_sub(1);
        numbers.numbers = exact.numbers.saturating_sub(1);
        let least = Room {
            pages: pages.pages,
            bytes: 0,
            numbers: 0,
            ..exact
        };
        short.map = map.saturating_sub(1);
        [exact, ample, pages, entries, bytes, numbers, least, short]
    }
}

/// So much room, with the list in the tables as far as they go. Every other place holds a number of
/// its own, so that a place written is noticed; no byte of the buffer is 0. The map is zeros.
pub fn lent(list: &List, room: Room) -> Lent {
    let numbers = |start: u32, length: usize| (start..).take(length).collect();
    let mut lent = Lent {
        pages: numbers(0xA5A5_0000, room.pages),
        entries: numbers(0x5A5A_0000, room.entries),
        buffer: (0..room.bytes).map(|at| 1 + (at % 255) as u8).collect(),
        numbers: numbers(0xC3C3_0000, room.numbers),
        map: vec![0; room.map],
    };
    put_list(&mut lent, list);
    lent
}

/// Puts a list into the tables, as far as they go.
pub fn put_list(lent: &mut Lent, list: &List) {
    for (place, (page, _)) in lent.pages.iter_mut().zip(list) {
        *place = *page;
    }
    let entries = list.iter().flat_map(|(_, entries)| entries);
    for (place, entry) in lent.entries.iter_mut().zip(entries) {
        *place = *entry;
    }
}

/// Each page's number, its count and, of a short list, its entries.
pub fn list_text(list: &List) -> String {
    let short = list.iter().map(|(_, entries)| entries.len()).sum::<usize>() <= 60;
    let mut text = String::new();
    for (page, entries) in list {
        // Writing to a string cannot fail.
        let _ = match short {
            true => write!(text, "{page}{entries:?} "),
            false => write!(text, "{page}({}) ", entries.len()),
        };
    }
    text
}

/// The numbers, or of many only how many there are.
pub fn numbers_text(numbers: &[u32]) -> String {
    match numbers.len() {
        0..=60 => format!("{numbers:?}"),
        many => format!("{many} numbers"),
    }
}
