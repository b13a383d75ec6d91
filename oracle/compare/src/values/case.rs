//! A value in a store, healthy or harmed, or pages that nobody wrote as a value.

use super::{
    lent::numbers_text,
    model::{self, CELL_NUMBERS, CELL_START},
};
use common::{Random, Store};
use mopsienna_sys::values::Hash;
use nomt_plain::Values;
use std::{fmt, io};

use Harm::{Byte, Bytes, Cell, Empty, Length, More, Number, Numbers, Size, Zero};

/// Something changed after the value was written.
#[derive(Clone, Debug)]
pub enum Harm {
    /// The cell's size is this.
    Size(u64),
    /// The cell has so many bytes; those that are added are 0.
    Cell(usize),
    /// The cell has this number behind its numbers.
    More(u32),
    /// The number at this place of all, in the cell or on a page, is this.
    Number(usize, u32),
    /// The count of numbers on the page at this place of the walk is this.
    Numbers(usize, u16),
    /// Its count of value bytes is this.
    Bytes(usize, u16),
    /// Both its counts are 0.
    Empty(usize),
    /// All its bytes are 0.
    Zero(usize),
    /// The store's byte at this place has these bits turned over.
    Byte(usize, u8),
    /// The store is cut to so many bytes.
    Length(usize),
}

/// A store, and the cell of a value that may be in it.
pub struct Case {
    pub store: Store,
    pub cell: Vec<u8>,
    pub page_size: usize,
    length: usize,
    text: String,
}

/// A page as it is laid out by hand: its number, the numbers on it, and how many value bytes.
pub type Laid = (u32, Vec<u32>, usize);

/// Stores up to this length are filled, so that other pages are not all zeros.
const FILLED: usize = 1 << 18;

impl Case {
    /// A value of this size, written to these pages of a store of so many bytes, and then harmed. By the
    /// old total it is written by the Rust, by the new one, where that is another, by the model.
    pub fn written<R: Values>(
        length: usize,
        size: usize,
        numbers: &[u32],
        harms: &[Harm],
    ) -> io::Result<Case> {
        let mut random = Random::new((size + length) as u64);
        let mut value = vec![0; size];
        random.fill(&mut value);
        let pages = match numbers.len() == model::old_total(R::PAGE_SIZE, size) {
            true => R::chunk(&value, numbers)?.pages,
            false => model::pages(R::PAGE_SIZE, &value, numbers),
        };
        let in_cell = &numbers[..numbers.len().min(CELL_NUMBERS)];
        let cell = R::encode_cell(size as u64, any_hash(&mut random), in_cell);
        let mut case = Case::empty(R::PAGE_SIZE, length, cell, &mut random)?;
        for (page, bytes) in &pages {
            case.write(*page, 0, bytes);
        }
        case.text = format!(
            "value of {size} bytes on {}, harms {harms:?}",
            numbers_text(numbers)
        );
        for harm in harms {
            case.harm(harm, numbers)?;
        }
        Ok(case)
    }

    /// Pages laid out by hand in a store of so many bytes, and a cell with these numbers. Value
    /// bytes are those that the store was filled with.
    pub fn laid_out<R: Values>(
        length: usize,
        size: usize,
        numbers: &[u32],
        pages: &[Laid],
        random: &mut Random,
    ) -> io::Result<Case> {
        let cell = R::encode_cell(size as u64, any_hash(random), numbers);
        let mut case = Case::empty(R::PAGE_SIZE, length, cell, random)?;
        for (page, numbers, bytes) in pages {
            case.write(*page, 0, &(numbers.len() as u16).to_le_bytes());
            case.write(*page, 2, &(*bytes as u16).to_le_bytes());
            for (place, number) in numbers.iter().enumerate() {
                case.write(*page, 4 + 4 * place, &number.to_le_bytes());
            }
        }
        case.text = format!(
            "value of {size} bytes, cell {}, pages",
            numbers_text(numbers)
        );
        for (page, numbers, bytes) in pages.iter().take(40) {
            case.text += &format!(" {page}({} and {bytes} bytes)", numbers_text(numbers));
        }
        Ok(case)
    }

    /// A store that is written to elsewhere, without a cell.
    pub fn of_store(page_size: usize, store: Store) -> Case {
        Case {
            length: store.bytes().len(),
            store,
            cell: vec![],
            page_size,
            text: String::new(),
        }
    }

    /// Takes another cell, of a value that the text tells of.
    pub fn look_at(&mut self, cell: &[u8], text: String) {
        self.length = self.store.bytes().len();
        self.cell = cell.to_vec();
        self.text = text;
    }

    /// A store without the value.
    fn empty(
        page_size: usize,
        length: usize,
        cell: Vec<u8>,
        random: &mut Random,
    ) -> io::Result<Case> {
        let mut store = Store::new(length)?;
        if length <= FILLED {
            fill(page_size, store.bytes_mut(), random);
        }
        Ok(Case {
            store,
            cell,
            page_size,
            length,
            text: String::new(),
        })
    }

    fn harm(&mut self, harm: &Harm, numbers: &[u32]) -> io::Result<()> {
        match *harm {
            Size(size) => self.write_cell(0, &size.to_le_bytes()),
            Cell(length) => self.cell.resize(length, 0),
            More(number) => self.cell.extend(number.to_le_bytes()),
            Number(place, number) => match place.checked_sub(CELL_NUMBERS) {
                None => self.write_cell(CELL_START + 4 * place, &number.to_le_bytes()),
                Some(place) => {
                    let on_a_page = (self.page_size - 4) / 4;
                    let page = numbers[place / on_a_page];
                    self.write(page, 4 + 4 * (place % on_a_page), &number.to_le_bytes());
                }
            },
            Numbers(index, count) => self.write(numbers[index], 0, &count.to_le_bytes()),
            Bytes(index, count) => self.write(numbers[index], 2, &count.to_le_bytes()),
            Empty(index) => self.write(numbers[index], 0, &[0; 4]),
            Zero(index) => self.write(numbers[index], 0, &vec![0; self.page_size]),
            Byte(at, bits) => {
                if let Some(byte) = self.store.bytes_mut().get_mut(at) {
                    *byte ^= bits;
                }
            }
            Length(length) => self.store.cut(length.min(self.store.bytes().len()))?,
        }
        Ok(())
    }

    /// Writes to a page, unless the store has no such page.
    fn write(&mut self, page: u32, at: usize, bytes: &[u8]) {
        if (page as usize) < self.store.bytes().len() / self.page_size {
            self.store.bytes_mut()[page as usize * self.page_size + at..][..bytes.len()]
                .copy_from_slice(bytes);
        }
    }

    /// Writes to the cell, as far as it goes.
    fn write_cell(&mut self, at: usize, bytes: &[u8]) {
        for (place, byte) in self.cell.iter_mut().skip(at).zip(bytes) {
            *place = *byte;
        }
    }
}

impl fmt::Display for Case {
    fn fmt(&self, f: &mut fmt::Formatter<'_>) -> fmt::Result {
        let (pages, rest) = (self.length / self.page_size, self.length % self.page_size);
        write!(f, "page size {}, store of {pages} pages", self.page_size)?;
        if rest > 0 {
            write!(f, " and {rest} bytes")?;
        }
        write!(f, ", {}", self.text)
    }
}

/// Any bytes; but most pages get counts that fit and numbers of pages near the store's.
fn fill(page_size: usize, store: &mut [u8], random: &mut Random) {
    random.fill(store);
    let page_count = (store.len() / page_size) as u64;
    for page in store.chunks_exact_mut(page_size) {
        if random.below(4) == 0 {
            continue;
        }
        let body = page_size - 4;
        let numbers = random.below((body as u64 / 4).min(3) + 1) as usize;
        let bytes = random.below((body - 4 * numbers) as u64 + 1);
        page[..2].copy_from_slice(&(numbers as u16).to_le_bytes());
        page[2..4].copy_from_slice(&(bytes as u16).to_le_bytes());
        for number in page[4..].chunks_exact_mut(4).take(numbers) {
            let near = random.below(page_count + 2) as u32;
            number.copy_from_slice(&near.to_le_bytes());
        }
    }
}

pub fn any_hash(random: &mut Random) -> Hash {
    let mut hash = Hash::default();
    random.fill(&mut hash);
    hash
}

/// So many different numbers below a limit, in any order.
pub fn distinct(count: usize, limit: usize, random: &mut Random) -> Vec<u32> {
    let mut numbers: Vec<u32> = (0..limit as u32).collect();
    for place in 0..count {
        let other = place + random.below((limit - place) as u64) as usize;
        numbers.swap(place, other);
    }
    numbers.truncate(count);
    numbers
}
