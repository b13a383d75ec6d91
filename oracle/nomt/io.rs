//! Stands in for nomt's `io`: just what the files built here use of it.

use page_pool::FatPage;
use std::{cell::RefCell, convert::Infallible, fs::File, os::fd::RawFd, os::unix::fs::FileExt};

pub use crate::PAGE_SIZE;
pub use page_pool::PagePool;

pub mod page_pool {
    use super::PAGE_SIZE;
    use std::cell::Cell;

    thread_local! {
        /// What every byte of a new page is.
        pub static FILLER: Cell<u8> = const { Cell::new(0) };
    }

    pub type FatPage = Box<[u8; PAGE_SIZE]>;

    /// Pages come from the heap, filled so that every byte of them is determined.
    #[derive(Clone, Default)]
    pub struct PagePool;

    impl PagePool {
        pub fn alloc_fat_page(&self) -> FatPage {
            // Zeros may come from the allocator, which is not to be lost in benchmarks.
            match FILLER.get() {
                0 => Box::new([0; PAGE_SIZE]),
                byte => Box::new([byte; PAGE_SIZE]),
            }
        }
    }
}

/// Reads a whole page; a file that ends within the page is an error.
pub fn read_page(pool: &PagePool, file: &File, page: u64) -> std::io::Result<FatPage> {
    let mut bytes = pool.alloc_fat_page();
    file.read_exact_at(&mut bytes[..], page * PAGE_SIZE as u64)?;
    Ok(bytes)
}

/// A file, a page number, and the page to be filled or written.
pub enum IoKind {
    Read(RawFd, u64, FatPage),
    Write(RawFd, u64, FatPage),
}

pub struct IoCommand {
    pub kind: IoKind,
    pub user_data: u64,
}

/// Collects the commands sent to it, in order, and carries out none of them.
#[derive(Default)]
pub struct IoHandle(RefCell<Vec<IoCommand>>);

impl IoHandle {
    pub fn send(&self, command: IoCommand) -> Result<(), Infallible> {
        self.0.borrow_mut().push(command);
        Ok(())
    }

    /// The commands sent since the last call.
    pub fn take(&self) -> Vec<IoCommand> {
        self.0.take()
    }
}
