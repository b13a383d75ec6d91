//! The Rust's values in plain numbers, at this package's page size.

use crate::{
    beatree::{
        allocator::{
            probe::{self, free_list},
            PageNumber, Store, StoreReader,
        },
        ops::overflow::{self, AsyncReader},
    },
    io::{read_page, IoHandle, IoKind, PagePool},
    plain::{numbers, Plain, Save},
};
use nomt_plain::{Cell, Chunked, Values};
use std::{fs::File, io, sync::Arc};

impl Values for Plain {
    const BODY_SIZE: usize = overflow::probe::BODY_SIZE;

    fn total(size: u64) -> u64 {
        overflow::probe::total_needed_pages(size as usize) as u64
    }

    fn chunk_in(save: &Save, value: &[u8]) -> io::Result<Chunked> {
        let io = IoHandle::default();
        let (cell, total) = overflow::chunk(value, &save.0, &PagePool, &io)?;
        Ok(Chunked {
            cell: plain(cell),
            total,
            pages: written(&io),
        })
    }

    fn encode_cell(size: u64, hash: [u8; 32], pages: &[u32]) -> Vec<u8> {
        overflow::encode_cell(size as usize, hash, &numbers(pages))
    }

    fn decode_cell(cell: &[u8]) -> Cell {
        let (size, hash, pages) = overflow::decode_cell(cell);
        Cell {
            size: size as u64,
            hash,
            numbers: plain(pages),
        }
    }

    fn read_value(cell: &[u8], file: &File) -> io::Result<Vec<u8>> {
        Ok(overflow::read_blocking(cell, &reader(file)?))
    }

    fn read_in_steps(cell: &[u8], file: &File) -> io::Result<(Option<Vec<u8>>, Vec<u32>)> {
        let io = IoHandle::default();
        let mut steps = AsyncReader::new(cell, reader(file)?);
        let mut value = None;
        let mut asked = vec![];
        while let Some(index) = steps.submit(&io, 0) {
            for command in io.take() {
                if let IoKind::Read(_, page, _) = command.kind {
                    asked.push(page as u32);
                    value = steps.complete(index, read_page(&PagePool, file, page)?);
                }
            }
        }
        Ok((value, asked))
    }

    fn delete_value(cell: &[u8], file: &File) -> io::Result<Vec<u32>> {
        let mut freed = vec![];
        overflow::delete(cell, &reader(file)?, &mut freed);
        Ok(plain(freed))
    }

    fn query(file: &File, page: u32) -> io::Result<Vec<u8>> {
        Ok(reader(file)?.query(PageNumber(page)).to_vec())
    }
}

/// A reader of the file. Reading needs neither bump nor list.
pub fn reader(file: &File) -> io::Result<StoreReader> {
    let file = Arc::new(file.try_clone()?);
    let list = free_list::from_portions(vec![]);
    let store: Store = probe::open(file, PageNumber(1), PageNumber(1), list);
    Ok(StoreReader::new(store, PagePool))
}

/// The pages that were sent to be written, in order.
fn written(io: &IoHandle) -> Vec<(u32, Vec<u8>)> {
    let mut pages = vec![];
    for command in io.take() {
        if let IoKind::Write(_, page, bytes) = command.kind {
            let bytes: Box<[u8]> = bytes;
            pages.push((page as u32, bytes.into_vec()));
        }
    }
    pages
}

fn plain(numbers: impl IntoIterator<Item = PageNumber>) -> Vec<u32> {
    numbers.into_iter().map(|number| number.0).collect()
}
