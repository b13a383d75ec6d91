//! The Rust's saves in plain numbers: one trait that the package of every page size implements, and
//! another for its values.

mod values;

use std::{fs::File, io};

pub use values::{Cell, Chunked, Values};

/// Each list page's number and entries, from the bottom page up.
pub type List = Vec<(u32, Vec<u32>)>;

/// What a store holds between two saves.
#[derive(Clone, Debug, PartialEq)]
pub struct State {
    pub bump: u32,
    /// The recorded length, in pages.
    pub length: u32,
    pub list: List,
}

/// A list as the Rust holds it: its pages, how many entries it takes itself to have, and whether it
/// takes itself to be fragmented.
#[derive(Clone, Debug, PartialEq)]
pub struct Held {
    pub list: List,
    pub entries: usize,
    pub fragmented: bool,
}

/// What the Rust gives when a save is finished.
pub struct Finished {
    pub head: u32,
    pub bump: u32,
    /// Pages to be written, each with its number, in the order encoded.
    pub written: Vec<(u32, Vec<u8>)>,
}

/// The Rust's store and its saves at one page size.
pub trait Rust: Sized {
    const PAGE_SIZE: usize;
    /// How many entries a list page holds at most.
    const CAPACITY: usize;

    type Save;

    /// A store in this state. The list's shape has to be one that is accepted.
    fn open(state: &State) -> io::Result<Self>;

    /// The store's state, which is not to be asked for during a save.
    fn state(&self) -> State;

    /// The list as the store holds it.
    fn held(&self) -> Held;

    /// Starts a save with so many numbers taken as handed out.
    fn start(&self, count: usize) -> Self::Save;

    /// The next number, and the recorded length after it.
    fn hand_out(save: &Self::Save) -> io::Result<(u32, u32)>;

    fn finish(save: Self::Save, freed: &[u32]) -> io::Result<Finished>;

    /// Makes a call over pages that hold this byte before they are written, instead of zeros.
    fn with_filled_pages<T>(byte: u8, call: impl FnOnce() -> T) -> T;

    /// Reads the list with this head from a file.
    fn read(file: &File, head: u32) -> io::Result<Held>;
}
