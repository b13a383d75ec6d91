//! A store with a list in it, healthy or harmed.

use super::model::page_count;
use common::{
    lists::{self, Portions},
    Random, Store,
};
use nomt_4096::io::PAGE_SIZE as PAGE;
use std::{fmt, io};

use Harm::{Byte, Count, Entry, Head, Length, Prev};

/// Something changed after the list was written.
#[derive(Clone, Debug)]
pub enum Harm {
    /// The head is this page.
    Head(u32),
    /// The page's previous one is this.
    Prev(u32, u32),
    /// The page's count is this.
    Count(u32, u16),
    /// The page's entry at this place is this.
    Entry(u32, usize, u32),
    /// The store's byte at this place has these bits turned over.
    Byte(usize, u8),
    /// The store is cut to so many bytes.
    Length(usize),
}

/// A store and the head of a list in it.
pub struct Case {
    pub store: Store,
    pub head: u32,
    pub list: Portions,
    length: usize,
    harms: Vec<Harm>,
}

/// Stores up to this length are filled, so that pages outside the list are not empty.
const FILLED: usize = 64 * PAGE;

impl Case {
    pub fn new(length: usize, list: Portions, harms: &[Harm]) -> io::Result<Case> {
        let mut store = Store::new(length)?;
        if length <= FILLED {
            Random::new(length as u64).fill(store.bytes_mut());
        }
        lists::write(store.bytes_mut(), &list);
        let mut case = Case {
            store,
            head: lists::head(&list),
            list,
            length,
            harms: harms.to_vec(),
        };
        for harm in harms {
            case.harm(harm)?;
        }
        Ok(case)
    }

    fn harm(&mut self, harm: &Harm) -> io::Result<()> {
        match *harm {
            Head(page) => self.head = page,
            Prev(page, number) => self.write(page, 0, &number.to_le_bytes()),
            Count(page, count) => self.write(page, 4, &count.to_le_bytes()),
            Entry(page, place, number) => {
                self.write(page, lists::entry_at(place), &number.to_le_bytes())
            }
            Byte(at, bits) => {
                if let Some(byte) = self.store.bytes_mut().get_mut(at) {
                    *byte ^= bits;
                }
            }
            Length(length) => self.store.cut(length.min(self.store.bytes().len()))?,
        }
        Ok(())
    }

    /// Writes to a page, unless the store was cut above it.
    fn write(&mut self, page: u32, at: usize, bytes: &[u8]) {
        if (page as usize) < page_count(PAGE, self.store.bytes()) {
            self.store.bytes_mut()[page as usize * PAGE + at..][..bytes.len()]
                .copy_from_slice(bytes);
        }
    }
}

impl fmt::Display for Case {
    fn fmt(&self, f: &mut fmt::Formatter<'_>) -> fmt::Result {
        let (pages, rest) = (self.length / PAGE, self.length % PAGE);
        write!(f, "store of {pages} pages")?;
        if rest > 0 {
            write!(f, " and {rest} bytes")?;
        }
        write!(f, ", list")?;
        for (page, entries) in &self.list {
            write!(f, " {}({})", page.0, entries.len())?;
        }
        write!(f, ", harms {:?}", self.harms)
    }
}
