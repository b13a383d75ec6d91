//! A store in memory that both sides read: the library as lent bytes, the Rust as a file.

use memory_file::memory_file;
use std::{
    ffi::{c_int, c_void},
    fs::File,
    io,
    os::fd::AsRawFd,
    ptr, slice,
};

/// A mapped file in memory. It may have any length, and only the pages touched take room.
pub struct Store {
    file: File,
    start: *mut u8,
    mapped: usize,
    length: usize,
}

const READ_AND_WRITE: c_int = 1 | 2;
const SHARED: c_int = 1;

extern "C" {
    fn mmap(
        start: *mut c_void,
        length: usize,
        protection: c_int,
        flags: c_int,
        file: c_int,
        offset: i64,
    ) -> *mut c_void;
    fn munmap(start: *mut c_void, length: usize) -> c_int;
}

impl Store {
    /// A store of zeros.
    pub fn new(length: usize) -> io::Result<Store> {
        let file = memory_file()?;
        file.set_len(length as u64)?;
        // Nothing can be mapped at length 0; the byte is never touched then.
        let mapped = length.max(1);
        // SAFETY: the mapping is new, and nobody else knows the file.
        let start = unsafe {
            mmap(
                ptr::null_mut(),
                mapped,
                READ_AND_WRITE,
                SHARED,
                file.as_raw_fd(),
                0,
            )
        };
        if start as isize == -1 {
            return Err(io::Error::last_os_error());
        }
        Ok(Store {
            file,
            start: start.cast(),
            mapped,
            length,
        })
    }

    /// Cuts the store to a length that is not above its own.
    pub fn cut(&mut self, length: usize) -> io::Result<()> {
        assert!(length <= self.length);
        self.set_length(length)
    }

    /// Gives the store a length that is not above its first one. What was cut off is gone, and
    /// zeros are added.
    pub fn set_length(&mut self, length: usize) -> io::Result<()> {
        assert!(length <= self.mapped);
        self.length = length;
        self.file.set_len(length as u64)
    }

    /// For reading; it is written through [`Store::bytes_mut`] alone.
    pub fn file(&self) -> &File {
        &self.file
    }

    pub fn bytes(&self) -> &[u8] {
        // SAFETY: the file has these bytes, they are mapped, and they change only through
        // `bytes_mut` and `set_length`.
        unsafe { slice::from_raw_parts(self.start, self.length) }
    }

    pub fn bytes_mut(&mut self) -> &mut [u8] {
        // SAFETY: as for `bytes`.
        unsafe { slice::from_raw_parts_mut(self.start, self.length) }
    }
}

impl Drop for Store {
    fn drop(&mut self) {
        // SAFETY: this is the whole mapping, and every borrow of it has ended.
        unsafe { munmap(self.start.cast(), self.mapped) };
    }
}
