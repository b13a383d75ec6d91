//! A value, and what is done with it on each side.

use crate::timing::{measured, Ours, Work};
use common::{memory_file, Random, Store};
use mopsienna_sys::Form;
use nomt_4096::{
    beatree::{
        allocator::{
            probe::{self, free_list::from_portions},
            PageNumber, StoreReader, SyncAllocator, SyncFinisher,
        },
        ops::overflow::{
            chunk, decode_cell, delete,
            probe::{parse_page, total_needed_pages, BODY_SIZE},
            read_blocking,
        },
    },
    io::{page_pool::FatPage, read_page, IoHandle, PagePool, PAGE_SIZE},
    reader, Plain,
};
use nomt_plain::Values;
use std::{hint::black_box, io, rc::Rc, sync::Arc};

/// A value, and a store with its pages.
pub struct Value {
    bytes: Vec<u8>,
    pub numbers: Vec<u32>,
    cell: Vec<u8>,
    store: Store,
    reader: StoreReader,
}

impl Value {
    pub fn new(size: usize, scattered: bool) -> io::Result<Value> {
        let total = total_needed_pages(size);
        let stride = if scattered { 7 } else { 1 };
        // With a stride, the count of pages is one more than a multiple of it, so that no page comes
        // twice.
        let page_count = total.next_multiple_of(stride) + 1;
        let numbers: Vec<u32> = (1..=total)
            .map(|page| (stride * page % page_count) as u32)
            .collect();
        let mut bytes = vec![0; size];
        Random::new(size as u64).fill(&mut bytes);
        let chunked = Plain::chunk(&bytes, &numbers)?;
        let mut store = Store::new(page_count * PAGE_SIZE)?;
        for (page, bytes) in &chunked.pages {
            store.bytes_mut()[*page as usize * PAGE_SIZE..][..PAGE_SIZE].copy_from_slice(bytes);
        }
        let value = Value {
            cell: Plain::encode_cell(size as u64, [7; 32], &chunked.cell),
            reader: reader(store.file())?,
            bytes,
            numbers,
            store,
        };
        value.check(&chunked.pages);
        Ok(value)
    }

    /// Sees to it that both sides write and read the same.
    fn check(&self, pages: &[(u32, Vec<u8>)]) {
        let mut page = vec![1; PAGE_SIZE];
        for (index, (_, bytes)) in pages.iter().enumerate() {
            let reply =
                Form::Fixed.write_value_page(&self.bytes, &self.numbers, index as u64, &mut page);
            assert_eq!(reply.number, 0);
            assert!(page == *bytes);
        }
        let (mut numbers, mut bytes) = self.room();
        let reply =
            Form::Fixed.read_value(&self.cell, self.store.bytes(), &mut numbers, &mut bytes);
        assert_eq!(reply.number, 0);
        assert!(numbers == self.numbers && bytes == self.bytes);
        assert!(self.bytes == read_blocking(&self.cell, &self.reader));
        assert!(self.bytes == self.parse(&self.read_pages()));

        numbers.fill(0);
        let reply = Form::Fixed.delete_value(&self.cell, self.store.bytes(), &mut numbers);
        assert_eq!(reply.number, 0);
        assert!(numbers == self.numbers);
        let freed = self.delete();
        assert!(freed.iter().map(|number| number.0).eq(numbers));
    }

    /// A number table and a value buffer.
    fn room(&self) -> (Vec<u32>, Vec<u8>) {
        (vec![0; self.numbers.len()], vec![0; self.bytes.len()])
    }

    /// Writes all pages, to a buffer for so many of them.
    pub fn writing(self: &Rc<Value>, room: usize) -> Ours {
        let value = self.clone();
        let mut buffer = vec![0; room * PAGE_SIZE];
        Ours::Any(Box::new(move |form, calls| {
            measured(|| {
                for _ in 0..calls {
                    for index in 0..value.numbers.len() {
                        let page = &mut buffer[index % room * PAGE_SIZE..][..PAGE_SIZE];
                        let (bytes, numbers) = (&value.bytes, &value.numbers);
                        black_box(form.write_value_page(bytes, numbers, index as u64, page));
                        black_box(page);
                    }
                }
            })
            .0
        }))
    }

    pub fn chunking(self: &Rc<Value>) -> Work {
        let value = self.clone();
        Box::new(move |calls| {
            // A file in memory is always given.
            let saves: Vec<_> = (0..calls).map(|_| open_save().unwrap()).collect();
            let mut made = Vec::with_capacity(calls);
            measured(|| {
                for (allocator, _) in &saves {
                    let io = IoHandle::default();
                    made.push((chunk(&value.bytes, allocator, &PagePool, &io), io));
                }
            })
            .0
        })
    }

    pub fn copying_parts(self: &Rc<Value>) -> Work {
        let value = self.clone();
        let mut page = vec![0; PAGE_SIZE];
        Box::new(move |calls| {
            measured(|| {
                for _ in 0..calls {
                    for part in value.bytes.chunks(BODY_SIZE) {
                        copy(part, &mut page);
                    }
                }
            })
            .0
        })
    }

    pub fn copying_in(self: &Rc<Value>) -> Work {
        let value = self.clone();
        let mut buffer = vec![0; value.numbers.len() * PAGE_SIZE];
        Box::new(move |calls| {
            measured(|| (0..calls).for_each(|_| copy(&value.bytes, &mut buffer))).0
        })
    }

    /// Fills all pages, in a buffer for so many of them, with the value's bytes and with zeros behind them.
    pub fn filling(self: &Rc<Value>, room: usize) -> Work {
        let value = self.clone();
        let parts = self.parts();
        let mut buffer = vec![0; room * PAGE_SIZE];
        Box::new(move |calls| {
            measured(|| {
                for _ in 0..calls {
                    let mut from = 0;
                    for (index, (at, count)) in parts.iter().copied().enumerate() {
                        let page = &mut buffer[index % room * PAGE_SIZE..][..PAGE_SIZE];
                        copy(&value.bytes[from..][..count], &mut page[at..]);
                        page[at + count..].fill(0);
                        black_box(page);
                        from += count;
                    }
                }
            })
            .0
        })
    }

    /// Where the value's bytes stand on each page, and how many.
    fn parts(&self) -> Vec<(usize, usize)> {
        let part = |number: &u32| {
            let page = &self.store.bytes()[*number as usize * PAGE_SIZE..][..PAGE_SIZE];
            let count = |at| u16::from_le_bytes([page[at], page[at + 1]]) as usize;
            (4 + 4 * count(0), count(2))
        };
        self.numbers.iter().map(part).collect()
    }

    pub fn reading(self: &Rc<Value>) -> Ours {
        let value = self.clone();
        let (mut numbers, mut bytes) = self.room();
        Ours::Any(Box::new(move |form, calls| {
            measured(|| {
                for _ in 0..calls {
                    let store = value.store.bytes();
                    black_box(form.read_value(&value.cell, store, &mut numbers, &mut bytes));
                    black_box((&mut numbers, &mut bytes));
                }
            })
            .0
        }))
    }

    pub fn from_file(self: &Rc<Value>) -> Work {
        let value = self.clone();
        Box::new(move |calls| {
            let mut made = Vec::with_capacity(calls);
            let read = |_| read_blocking(&value.cell, &value.reader);
            measured(|| made.extend((0..calls).map(read))).0
        })
    }

    pub fn from_memory(self: &Rc<Value>) -> Work {
        let value = self.clone();
        let pages = self.read_pages();
        Box::new(move |calls| {
            let mut made = Vec::with_capacity(calls);
            measured(|| made.extend((0..calls).map(|_| value.parse(&pages)))).0
        })
    }

    pub fn copying_out(self: &Rc<Value>) -> Work {
        let value = self.clone();
        let (_, mut bytes) = self.room();
        Box::new(move |calls| {
            let stored = &value.store.bytes()[PAGE_SIZE..][..bytes.len()];
            measured(|| (0..calls).for_each(|_| copy(stored, &mut bytes))).0
        })
    }

    pub fn copying_pages(self: &Rc<Value>) -> Work {
        let value = self.clone();
        let (_, mut bytes) = self.room();
        Box::new(move |calls| {
            let store = value.store.bytes();
            measured(|| {
                for _ in 0..calls {
                    for (to, page) in bytes.chunks_mut(BODY_SIZE).zip(&value.numbers) {
                        copy(&store[*page as usize * PAGE_SIZE + 4..][..to.len()], to);
                    }
                }
            })
            .0
        })
    }

    pub fn deleting(self: &Rc<Value>) -> Ours {
        let value = self.clone();
        let (mut numbers, _) = self.room();
        Ours::Any(Box::new(move |form, calls| {
            measured(|| {
                for _ in 0..calls {
                    let store = value.store.bytes();
                    black_box(form.delete_value(&value.cell, store, &mut numbers));
                    black_box(&mut numbers);
                }
            })
            .0
        }))
    }

    pub fn deleting_from_file(self: &Rc<Value>) -> Work {
        let value = self.clone();
        Box::new(move |calls| {
            let mut made = Vec::with_capacity(calls);
            measured(|| made.extend((0..calls).map(|_| value.delete()))).0
        })
    }

    fn delete(&self) -> Vec<PageNumber> {
        let mut freed = vec![];
        delete(&self.cell, &self.reader, &mut freed);
        freed
    }

    /// The pages, in the order of the walk. They are read in the order of their numbers, so that they
    /// lie about in memory as they do in the store.
    fn read_pages(&self) -> Vec<FatPage> {
        let mut pages: Vec<_> = self.numbers.iter().copied().enumerate().collect();
        pages.sort_by_key(|(_, number)| *number);
        let read = |number: u32| read_page(&PagePool, self.store.file(), number.into()).unwrap();
        let mut pages: Vec<_> = pages
            .into_iter()
            .map(|(at, page)| (at, read(page)))
            .collect();
        pages.sort_by_key(|(at, _)| *at);
        pages.into_iter().map(|(_, page)| page).collect()
    }

    /// The loop of the Rust's `read_blocking`, without its reading of pages.
    fn parse(&self, pages: &[FatPage]) -> Vec<u8> {
        let (value_size, _, cell_pages) = decode_cell(&self.cell);
        let total_pages = total_needed_pages(value_size);
        let mut value = Vec::with_capacity(value_size);
        let mut page_numbers = Vec::with_capacity(total_pages);
        page_numbers.extend(cell_pages);
        for page in pages {
            let (page_pns, bytes) = parse_page(page);
            page_numbers.extend(page_pns);
            value.extend(bytes);
        }
        assert_eq!(page_numbers.len(), total_pages);
        assert_eq!(value.len(), value_size);
        value
    }
}

/// An open save whose numbers all come from past the bump and below the recorded length.
fn open_save() -> io::Result<(SyncAllocator, SyncFinisher)> {
    let file = Arc::new(memory_file()?);
    let length = PageNumber(1 << 30);
    Ok(probe::open(file, PageNumber(1), length, from_portions(vec![])).start_sync())
}

/// A plain copy to the start of a buffer. It is never inlined, so that it is always made.
#[inline(never)]
fn copy(from: &[u8], to: &mut [u8]) {
    to[..from.len()].copy_from_slice(black_box(from));
    black_box(to);
}
