//! The Rust's saves in plain numbers, at this package's page size.

use crate::{
    beatree::allocator::{
        probe::{self, free_list},
        PageNumber, Store, SyncAllocator, SyncFinisher,
    },
    io::{page_pool::FILLER, PagePool, PAGE_SIZE},
};
use nomt_plain::{Finished, Held, List, Rust, State};
use std::{fs::File, io, sync::Arc};

/// The Rust's store. The file only gets lengths: no page is read or written.
pub struct Plain(Store);

pub struct Save(pub(crate) SyncAllocator, SyncFinisher);

impl Rust for Plain {
    const PAGE_SIZE: usize = PAGE_SIZE;
    const CAPACITY: usize = free_list::MAX_PNS_PER_PAGE;

    type Save = Save;

    fn open(state: &State) -> io::Result<Plain> {
        let list = state
            .list
            .iter()
            .map(|(page, entries)| (PageNumber(*page), numbers(entries)))
            .collect();
        let list = free_list::from_portions(list);
        let file = Arc::new(memory_file::memory_file()?);
        let bump = PageNumber(state.bump);
        let length = PageNumber(state.length);
        Ok(Plain(probe::open(file, bump, length, list)))
    }

    fn state(&self) -> State {
        let (bump, length) = probe::bump_and_max_bump(&self.0);
        State {
            bump: bump.0,
            length: length.0,
            list: self.held().list,
        }
    }

    fn held(&self) -> Held {
        probe::look_at_list(&self.0, held)
    }

    fn start(&self, count: usize) -> Save {
        let (allocator, finisher) = self.0.start_sync();
        probe::set_allocations(&allocator, count);
        Save(allocator, finisher)
    }

    fn hand_out(save: &Save) -> io::Result<(u32, u32)> {
        let number = save.0.allocate()?;
        Ok((number.0, probe::max_bump(&save.0).0))
    }

    fn finish(save: Save, freed: &[u32]) -> io::Result<Finished> {
        let Save(allocator, finisher) = save;
        drop(allocator);
        let (written, meta) = finisher.finish(&PagePool, numbers(freed))?;
        Ok(Finished {
            head: meta.freelist_pn,
            bump: meta.bump,
            written: written
                .into_iter()
                .map(|(page, bytes)| (page.0, bytes.to_vec()))
                .collect(),
        })
    }

    fn with_filled_pages<T>(byte: u8, call: impl FnOnce() -> T) -> T {
        let before = FILLER.replace(byte);
        let result = call();
        FILLER.set(before);
        result
    }

    fn read(file: &File, head: u32) -> io::Result<Held> {
        let head = Some(PageNumber(head)).filter(|page| !page.is_nil());
        let list = free_list::FreeList::read(&PagePool, file, head).map_err(io::Error::other)?;
        Ok(held(&list))
    }
}

fn held(list: &free_list::FreeList) -> Held {
    let plain: List = free_list::portions(list)
        .iter()
        .map(|(page, entries)| (page.0, entries.iter().map(|entry| entry.0).collect()))
        .collect();
    Held {
        list: plain,
        entries: list.as_clean().len(),
        fragmented: free_list::fragmented(list),
    }
}

pub(crate) fn numbers(plain: &[u32]) -> Vec<PageNumber> {
    plain.iter().copied().map(PageNumber).collect()
}
