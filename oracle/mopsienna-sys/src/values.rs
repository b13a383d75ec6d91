//! The functions of values and cells, and of page lookup. Cells are the same at all page sizes, but for
//! the largest value.
//!
//! Writing a page and writing a cell give nothing but a number; the places of their replies are
//! never touched.

use super::{
    form::{call, in_both, words},
    Form, Out, Reply,
};

/// A cell carries a hash of so many bytes.
pub type Hash = [u8; 32];

extern "C" {
    fn sized_write_old_value_page(
        words: u64,
        value: *const u8,
        value_len: usize,
        numbers: *const u32,
        numbers_len: usize,
        index: u64,
        page: *mut u8,
        page_len: usize,
    ) -> u32;
}

in_both! {
    fn write_value_page(
        value: *const u8,
        value_len: usize,
        numbers: *const u32,
        numbers_len: usize,
        index: u64,
        page: *mut u8,
        page_len: usize,
    ) -> u32;
    fn encode_cell(
        size: u64,
        hash: &[u8; 32],
        numbers: *const u32,
        numbers_len: usize,
        cell: *mut u8,
        cell_len: usize,
    ) -> u32;
    fn decode_cell(cell: *const u8, cell_len: usize, hash: &mut [u8; 32], out: &mut Out) -> u32;
    fn read_value(
        cell: *const u8,
        cell_len: usize,
        store: *const u8,
        store_len: usize,
        numbers: *mut u32,
        numbers_len: usize,
        value: *mut u8,
        value_len: usize,
        out: &mut Out,
    ) -> u32;
    fn delete_value(
        cell: *const u8,
        cell_len: usize,
        store: *const u8,
        store_len: usize,
        numbers: *mut u32,
        numbers_len: usize,
        out: &mut Out,
    ) -> u32;
    fn lookup(
        numbers: *const u32,
        numbers_len: usize,
        pending: *const u8,
        pending_len: usize,
        store: *const u8,
        store_len: usize,
        page: u32,
        out: &mut Out,
    ) -> u32;
}

/// Values, cells and page lookup, inlined too.
impl Form {
    /// Writes one page of a value to the start of the page buffer.
    #[inline]
    pub fn write_value_page(
        self,
        value: &[u8],
        numbers: &[u32],
        index: u64,
        page: &mut [u8],
    ) -> Reply {
        // SAFETY: the function reads only the value and the numbers, and writes only to the buffer.
        Reply::of(|_| unsafe {
            call!(
                self,
                write_value_page(
                    value.as_ptr(),
                    value.len(),
                    numbers.as_ptr(),
                    numbers.len(),
                    index,
                    page.as_mut_ptr(),
                    page.len(),
                )
            )
        })
    }

    /// The same by the old total, as the Rust writes it. Only libsized has it, so it is called there in
    /// every form.
    #[inline]
    pub fn write_old_value_page(
        self,
        value: &[u8],
        numbers: &[u32],
        index: u64,
        page: &mut [u8],
    ) -> Reply {
        // SAFETY: the function reads only the value and the numbers, and writes only to the buffer.
        Reply::of(|_| unsafe {
            sized_write_old_value_page(
                words(self.page_size() as u64),
                value.as_ptr(),
                value.len(),
                numbers.as_ptr(),
                numbers.len(),
                index,
                page.as_mut_ptr(),
                page.len(),
            )
        })
    }

    /// Writes a cell to the start of the cell buffer.
    #[inline]
    pub fn encode_cell(self, size: u64, hash: &Hash, numbers: &[u32], cell: &mut [u8]) -> Reply {
        // SAFETY: the function reads only the hash and the numbers, and writes only to the buffer.
        Reply::of(|_| unsafe {
            call!(
                self,
                encode_cell(
                    size,
                    hash,
                    numbers.as_ptr(),
                    numbers.len(),
                    cell.as_mut_ptr(),
                    cell.len(),
                )
            )
        })
    }

    /// Reads a cell's hash. Answers the value's size and how many numbers the cell has.
    #[inline]
    pub fn decode_cell(self, cell: &[u8], hash: &mut Hash) -> Reply {
        Reply::of(|out| self.decode_cell_into(cell, hash, out))
    }

    /// The same into places that are there already: 0 or the refusal's number.
    #[inline]
    pub fn decode_cell_into(self, cell: &[u8], hash: &mut Hash, out: &mut Out) -> u32 {
        // SAFETY: the function reads only the cell, and writes only to the hash and to the eight places
        // of `out`.
        unsafe { call!(self, decode_cell(cell.as_ptr(), cell.len(), hash, out)) }
    }

    /// Reads a value by its cell. Answers its size and how many numbers were found.
    #[inline]
    pub fn read_value(
        self,
        cell: &[u8],
        store: &[u8],
        numbers: &mut [u32],
        value: &mut [u8],
    ) -> Reply {
        // SAFETY: the function reads only the cell and the store, and writes only to the table, to
        // the value buffer and to the eight places of `out`.
        Reply::of(|out| unsafe {
            call!(
                self,
                read_value(
                    cell.as_ptr(),
                    cell.len(),
                    store.as_ptr(),
                    store.len(),
                    numbers.as_mut_ptr(),
                    numbers.len(),
                    value.as_mut_ptr(),
                    value.len(),
                    out,
                )
            )
        })
    }

    /// Collects the numbers of a value's pages. Answers how many were found.
    #[inline]
    pub fn delete_value(self, cell: &[u8], store: &[u8], numbers: &mut [u32]) -> Reply {
        // SAFETY: the function reads only the cell and the store, and writes only to the table and
        // to the eight places of `out`.
        Reply::of(|out| unsafe {
            call!(
                self,
                delete_value(
                    cell.as_ptr(),
                    cell.len(),
                    store.as_ptr(),
                    store.len(),
                    numbers.as_mut_ptr(),
                    numbers.len(),
                    out,
                )
            )
        })
    }

    /// Finds a page. Answers 0 for the pending pages or 1 for the store, and the byte there at which
    /// the page starts.
    #[inline]
    pub fn lookup(self, numbers: &[u32], pending: &[u8], store: &[u8], page: u32) -> Reply {
        Reply::of(|out| self.lookup_into(numbers, pending, store, page, out))
    }

    /// The same into places that are there already: 0 or the refusal's number.
    #[inline]
    pub fn lookup_into(
        self,
        numbers: &[u32],
        pending: &[u8],
        store: &[u8],
        page: u32,
        out: &mut Out,
    ) -> u32 {
        // SAFETY: the function reads only the numbers, and writes only to the eight places of `out`.
        unsafe {
            call!(
                self,
                lookup(
                    numbers.as_ptr(),
                    numbers.len(),
                    pending.as_ptr(),
                    pending.len(),
                    store.as_ptr(),
                    store.len(),
                    page,
                    out,
                )
            )
        }
    }
}
