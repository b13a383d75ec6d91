//! The Rust's values in plain numbers. What panics in the Rust panics here.

use crate::{Rust, State};
use std::{fs::File, io};

/// A value's pages as the Rust writes them.
pub struct Chunked {
    /// The numbers that go to the value's cell.
    pub cell: Vec<u32>,
    /// How many pages the Rust counts.
    pub total: usize,
    /// The pages with their numbers, in the order written.
    pub pages: Vec<(u32, Vec<u8>)>,
}

/// What the Rust reads from a cell.
#[derive(Debug, PartialEq)]
pub struct Cell {
    pub size: u64,
    pub hash: [u8; 32],
    pub numbers: Vec<u32>,
}

/// The Rust's values at one page size.
pub trait Values: Rust {
    /// How many bytes a value's page has beside its header.
    const BODY_SIZE: usize;

    /// How many pages the Rust counts for a value of this size.
    fn total(size: u64) -> u64;

    /// The pages of a value, from a store that hands out these numbers.
    fn chunk(value: &[u8], numbers: &[u32]) -> io::Result<Chunked> {
        // Numbers are handed out from the end of the list.
        let entries: Vec<u32> = numbers.iter().rev().copied().collect();
        let list_pages = entries.chunks(Self::CAPACITY);
        let store = Self::open(&State {
            bump: 1,
            length: 1,
            list: list_pages.map(|entries| (0, entries.to_vec())).collect(),
        })?;
        Self::chunk_in(&store.start(0), value)
    }

    /// The pages of a value, with the next numbers of a save.
    fn chunk_in(save: &Self::Save, value: &[u8]) -> io::Result<Chunked>;

    fn encode_cell(size: u64, hash: [u8; 32], numbers: &[u32]) -> Vec<u8>;

    fn decode_cell(cell: &[u8]) -> Cell;

    /// Reads a value whose pages are in a file.
    fn read_value(cell: &[u8], file: &File) -> io::Result<Vec<u8>>;

    /// Reads it by the Rust's other reader, which asks for one page after another. Gives the value,
    /// and the number of every page that was asked for.
    fn read_in_steps(cell: &[u8], file: &File) -> io::Result<(Option<Vec<u8>>, Vec<u32>)>;

    /// Collects the numbers of a value's pages.
    fn delete_value(cell: &[u8], file: &File) -> io::Result<Vec<u32>>;

    /// Reads one page.
    fn query(file: &File, page: u32) -> io::Result<Vec<u8>>;
}
