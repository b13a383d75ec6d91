//! The C functions of libmopsienna and libsized, each as a safe function.
//!
//! The functions of libsized are those of totals, lists, saves and values at any page size. What both
//! libraries have is declared once, and is a method of [`Form`].

mod form;
pub mod values;

pub use form::{Form, BEFORE};

use form::{call, in_both};
use std::fmt;

/// The eight places in which a function puts its answer or the values of its refusal.
pub type Out = [u64; 8];

/// What the places hold before a call, each its own number, so that a place written or mixed up
/// with another is noticed.
pub const UNTOUCHED: Out = [
    0xA5A5_A5A5_A5A5_A5A0,
    0xA5A5_A5A5_A5A5_A5A1,
    0xA5A5_A5A5_A5A5_A5A2,
    0xA5A5_A5A5_A5A5_A5A3,
    0xA5A5_A5A5_A5A5_A5A4,
    0xA5A5_A5A5_A5A5_A5A5,
    0xA5A5_A5A5_A5A5_A5A6,
    0xA5A5_A5A5_A5A5_A5A7,
];

/// What a call gave: 0 or the refusal's number, and every place of `out`.
///
/// The same type says what a call should give, so that the two are compared whole.
#[derive(Clone, PartialEq, Eq)]
pub struct Reply {
    pub number: u32,
    pub out: Out,
}

impl Reply {
    /// A success with the given answer; the places past it are untouched.
    pub fn answer(values: &[u64]) -> Reply {
        Reply::refusal(0, values)
    }

    /// A refusal with the values that come with its number; the places past them are untouched.
    pub fn refusal(number: u32, values: &[u64]) -> Reply {
        let mut out = UNTOUCHED;
        out[..values.len()].copy_from_slice(values);
        Reply { number, out }
    }

    /// Makes a call over untouched places.
    #[inline]
    fn of(call: impl FnOnce(&mut Out) -> u32) -> Reply {
        let mut out = UNTOUCHED;
        let number = call(&mut out);
        Reply { number, out }
    }
}

impl fmt::Display for Reply {
    /// The number and the places, an untouched place as `-`.
    fn fmt(&self, f: &mut fmt::Formatter<'_>) -> fmt::Result {
        write!(f, "{} with", self.number)?;
        for (value, untouched) in self.out.iter().zip(UNTOUCHED) {
            if *value == untouched {
                write!(f, " -")?;
            } else {
                write!(f, " {value}")?;
            }
        }
        Ok(())
    }
}

extern "C" {
    fn mopsienna_grow(page: u32, out: &mut Out) -> u32;
    fn mopsienna_columns(
        rows: *const u8,
        rows_len: usize,
        columns: *mut u8,
        columns_len: usize,
    ) -> u32;
    fn mopsienna_rows(
        columns: *const u8,
        columns_len: usize,
        rows: *mut u8,
        rows_len: usize,
    ) -> u32;
}

in_both! {
    fn total(size: u64, out: &mut Out) -> u32;
    fn read_list(
        store: *const u8,
        store_len: usize,
        head: u32,
        pages: *mut u32,
        pages_len: usize,
        entries: *mut u32,
        entries_len: usize,
        map: *mut u8,
        map_len: usize,
        out: &mut Out,
    ) -> u32;
    fn hand_out(
        bump: u32,
        length: u32,
        list_pages: u64,
        list_entries: u64,
        count: u64,
        pages: *const u32,
        pages_len: usize,
        entries: *const u32,
        entries_len: usize,
        out: &mut Out,
    ) -> u32;
    fn finish(
        bump: u32,
        length: u32,
        list_pages: u64,
        list_entries: u64,
        count: u64,
        pages: *mut u32,
        pages_len: usize,
        entries: *mut u32,
        entries_len: usize,
        freed: *const u32,
        freed_len: usize,
        buffer: *mut u8,
        buffer_len: usize,
        numbers: *mut u32,
        numbers_len: usize,
        map: *mut u8,
        map_len: usize,
        out: &mut Out,
    ) -> u32;
}

/// An open save's numbers: the store's bump and recorded length, the pages and entries of its list,
/// and how many numbers were handed out.
#[derive(Clone, Copy, Debug)]
pub struct Save {
    pub bump: u32,
    pub length: u32,
    pub pages: u64,
    pub entries: u64,
    pub count: u64,
}

/// What is lent to a finish to be written: the list's two tables, the page buffer and its numbers, and the
/// bit map.
#[derive(Clone, Debug, PartialEq)]
pub struct Lent {
    pub pages: Vec<u32>,
    pub entries: Vec<u32>,
    pub buffer: Vec<u8>,
    pub numbers: Vec<u32>,
    pub map: Vec<u8>,
}

/// Answers the grown length.
pub fn grow(page: u32) -> Reply {
    // SAFETY: the function writes only to the eight places of `out`.
    Reply::of(|out| unsafe { mopsienna_grow(page, out) })
}

/// Writes the columns of these rows to the start of the second buffer. It gives nothing but a number, and
/// so does [`rows`]; the places of their replies are never touched.
#[inline]
pub fn columns(rows: &[u8], columns: &mut [u8]) -> Reply {
    // SAFETY: the function reads only the rows, and writes only to the second buffer.
    Reply::of(|_| unsafe {
        mopsienna_columns(
            rows.as_ptr(),
            rows.len(),
            columns.as_mut_ptr(),
            columns.len(),
        )
    })
}

/// Writes the rows of these columns to the start of the second buffer.
#[inline]
pub fn rows(columns: &[u8], rows: &mut [u8]) -> Reply {
    // SAFETY: the function reads only the columns, and writes only to the second buffer.
    Reply::of(|_| unsafe {
        mopsienna_rows(
            columns.as_ptr(),
            columns.len(),
            rows.as_mut_ptr(),
            rows.len(),
        )
    })
}

/// Totals, lists and saves. All is inlined, so that where the form is known it costs nothing to
/// choose.
impl Form {
    /// Answers the total of pages, the numbers in the cell, the spare room, and how many places a
    /// reader's number table has to have.
    #[inline]
    pub fn total(self, size: u64) -> Reply {
        Reply::of(|out| self.total_into(size, out))
    }

    /// The same into places that are there already: 0 or the refusal's number.
    #[inline]
    pub fn total_into(self, size: u64, out: &mut Out) -> u32 {
        // SAFETY: the function writes only to the eight places of `out`.
        unsafe { call!(self, total(size, out)) }
    }

    /// Reads a list into the two tables, with this bit map. Answers how many pages and entries it has.
    #[inline]
    pub fn read_list(
        self,
        store: &[u8],
        head: u32,
        pages: &mut [u32],
        entries: &mut [u32],
        map: &mut [u8],
    ) -> Reply {
        // SAFETY: the function reads only the store, and writes only to the tables, the map and the eight
        // places of `out`.
        Reply::of(|out| unsafe {
            call!(
                self,
                read_list(
                    store.as_ptr(),
                    store.len(),
                    head,
                    pages.as_mut_ptr(),
                    pages.len(),
                    entries.as_mut_ptr(),
                    entries.len(),
                    map.as_mut_ptr(),
                    map.len(),
                    out,
                )
            )
        })
    }

    /// Hands out the next number. Answers it, the count after it and the recorded length after it.
    #[inline]
    pub fn hand_out(self, save: &Save, pages: &[u32], entries: &[u32]) -> Reply {
        Reply::of(|out| self.hand_out_into(save, pages, entries, out))
    }

    /// The same into places that are there already: 0 or the refusal's number.
    #[inline]
    pub fn hand_out_into(self, save: &Save, pages: &[u32], entries: &[u32], out: &mut Out) -> u32 {
        // SAFETY: the function reads only the tables, and writes only to the eight places of `out`.
        unsafe {
            call!(
                self,
                hand_out(
                    save.bump,
                    save.length,
                    save.pages,
                    save.entries,
                    save.count,
                    pages.as_ptr(),
                    pages.len(),
                    entries.as_ptr(),
                    entries.len(),
                    out,
                )
            )
        }
    }

    /// Finishes the save. Answers the head, the bump, the recorded length, the pages and the entries
    /// of the new list and how many pages are to be written.
    #[inline]
    pub fn finish(self, save: &Save, freed: &[u32], lent: &mut Lent) -> Reply {
        // SAFETY: the function reads only what it is lent, and writes only to the tables, the
        // buffer, the numbers, the map and the eight places of `out`.
        Reply::of(|out| unsafe {
            call!(
                self,
                finish(
                    save.bump,
                    save.length,
                    save.pages,
                    save.entries,
                    save.count,
                    lent.pages.as_mut_ptr(),
                    lent.pages.len(),
                    lent.entries.as_mut_ptr(),
                    lent.entries.len(),
                    freed.as_ptr(),
                    freed.len(),
                    lent.buffer.as_mut_ptr(),
                    lent.buffer.len(),
                    lent.numbers.as_mut_ptr(),
                    lent.numbers.len(),
                    lent.map.as_mut_ptr(),
                    lent.map.len(),
                    out,
                )
            )
        })
    }
}
