//! What values and page lookup give, written from the documents' words and from neither side's code.
//! What stands on a page that is written, and in a cell, comes from the Rust.

use mopsienna_sys::Reply;
use nomt_plain::Cell;

/// Refusals, by the documents' numbers.
pub const BUFFER: u32 = 9;
pub const SIZE: u32 = 10;
pub const INDEX: u32 = 11;
pub const CELL: u32 = 12;
pub const ROOM: u32 = 13;
pub const UNKNOWN: u32 = 14;
pub const PAST_STORE: u32 = 15;
pub const PAGE: u32 = 16;
pub const NUMBERS: u32 = 17;
pub const BYTES: u32 = 18;
pub const EMPTY: u32 = 25;

/// The small panel's page size.
pub const PANEL: usize = 1024;

/// The greatest size of a value: that of document 02's request Five at the panel's page size, else that of
/// document 01.
pub const fn max_size(page_size: usize) -> usize {
    match page_size {
        PANEL => 1 << 20,
        _ => 1 << 29,
    }
}

/// The least size that is too large.
pub const fn too_large(page_size: usize) -> u64 {
    max_size(page_size) as u64 + 1
}

/// How many numbers of pages go to a cell.
pub const CELL_NUMBERS: usize = 15;

/// Where the numbers start in a cell.
pub const CELL_START: usize = 40;

/// By which total a value is written.
#[derive(Clone, Copy)]
pub enum Writer {
    New,
    Old,
}

impl Writer {
    /// How many pages a value takes.
    pub fn total(self, page_size: usize, size: usize) -> usize {
        match self {
            Writer::New => new_total(page_size, size),
            Writer::Old => old_total(page_size, size),
        }
    }
}

/// The total of document 01.
pub fn old_total(page_size: usize, size: usize) -> usize {
    let body = page_size - 4;
    let raw = size.div_ceil(body);
    if raw <= CELL_NUMBERS || raw - CELL_NUMBERS <= (body * raw - size) / 4 {
        return raw;
    }
    let m = size + 4 * (raw - CELL_NUMBERS) - body * raw;
    raw + (m + body - 3) / (body - 4)
}

/// The total of document 02's request Nine: the least whose pages have room for the value and for the
/// numbers past the cell's. A page more is always more room, so it is sought from the old one on.
pub fn new_total(page_size: usize, size: usize) -> usize {
    let has_room =
        |total: usize| (page_size - 4) * total >= size + 4 * total.saturating_sub(CELL_NUMBERS);
    let mut total = old_total(page_size, size);
    while !has_room(total) {
        total += 1;
    }
    while total > 0 && has_room(total - 1) {
        total -= 1;
    }
    total
}

/// Whether the two totals of a size are not the same.
pub fn totals_differ(page_size: usize, size: usize) -> bool {
    new_total(page_size, size) != old_total(page_size, size)
}

/// The least size of so many pages or more, by the old total, whose two totals differ. Among the sizes of
/// one old total it is the first.
pub fn differing(page_size: usize, pages: usize) -> usize {
    let mut firsts = (pages - 1..).map(|pages| last_size(page_size, pages) + 1);
    // From some total on there is one with each.
    firsts.find(|size| totals_differ(page_size, *size)).unwrap()
}

/// The greatest size that takes no more pages than so many by the old total, which never falls as sizes
/// rise.
pub fn last_size(page_size: usize, pages: usize) -> usize {
    let (mut fits, mut does_not) = (0, page_size * pages + 1);
    while fits + 1 < does_not {
        let middle = (fits + does_not) / 2;
        if old_total(page_size, middle) <= pages {
            fits = middle;
        } else {
            does_not = middle;
        }
    }
    fits
}

/// The total at which the first page of a value is filled with numbers.
pub fn first_filled(page_size: usize) -> usize {
    CELL_NUMBERS + (page_size - 4) / 4
}

/// How many pages a store has.
pub fn page_count(page_size: usize, store_length: usize) -> usize {
    (store_length / page_size).min(u32::MAX as usize)
}

/// The refusal of writing a page of a value, if it is refused, by the lengths of what is lent.
pub fn write(
    page_size: usize,
    writer: Writer,
    value: usize,
    numbers: usize,
    index: u64,
    buffer: usize,
) -> Option<Reply> {
    let refused = |number| Some(Reply::refusal(number, &[]));
    if value == 0 || value > max_size(page_size) {
        return refused(SIZE);
    }
    let total = writer.total(page_size, value);
    if numbers != total || index >= total as u64 {
        return refused(INDEX);
    }
    if buffer < page_size {
        return refused(BUFFER);
    }
    None
}

/// The pages of a value over any total, by document 01's rule of what a page holds: there are as many
/// as numbers.
pub fn pages(page_size: usize, value: &[u8], numbers: &[u32]) -> Vec<(u32, Vec<u8>)> {
    let body = page_size - 4;
    let mut numbers_left = numbers.get(CELL_NUMBERS..).unwrap_or(&[]);
    let mut bytes_left = value;
    let page = |number: &u32| {
        let most = numbers_left.len().min(body / 4);
        let (on_page, later) = numbers_left.split_at(most);
        let most = bytes_left.len().min(body - 4 * on_page.len());
        let (bytes, rest) = bytes_left.split_at(most);
        (numbers_left, bytes_left) = (later, rest);
        let counts = [on_page.len() as u16, bytes.len() as u16];
        let mut page = counts.map(u16::to_le_bytes).concat();
        page.extend(on_page.iter().flat_map(|number| number.to_le_bytes()));
        page.extend(bytes);
        page.resize(page_size, 0);
        (*number, page)
    };
    numbers.iter().map(page).collect()
}

/// The refusal of writing a cell, if it is refused.
pub fn encode_cell(page_size: usize, size: u64, numbers: usize, buffer: usize) -> Option<Reply> {
    if size >= too_large(page_size) {
        return Some(Reply::refusal(SIZE, &[]));
    }
    (buffer < CELL_START + 4 * numbers).then(|| Reply::refusal(ROOM, &[]))
}

/// What a cell holds, or its refusal.
pub fn decode_cell(page_size: usize, cell: &[u8]) -> Result<Cell, Reply> {
    if cell.len() < CELL_START + 4 || !cell.len().is_multiple_of(4) {
        return Err(Reply::refusal(CELL, &[]));
    }
    let (head, numbers) = cell.split_at(CELL_START);
    let (size, hash) = head.split_at(8);
    let cell = Cell {
        size: little_endian(size),
        hash: std::array::from_fn(|at| hash[at]),
        numbers: numbers_in(numbers),
    };
    if cell.size >= too_large(page_size) {
        return Err(Reply::refusal(SIZE, &[]));
    }
    Ok(cell)
}

/// What reading or deleting a value gives where there is enough room.
pub struct Walked {
    /// How many numbers and bytes there has to be room for. That of the numbers is the old total.
    pub room: usize,
    pub size: usize,
    /// The value's total, the old one or the new one.
    pub total: usize,
    pub reply: Reply,
    /// The first `total` numbers found, none from a refused page.
    pub numbers: Vec<u32>,
    /// The value bytes found.
    pub bytes: Vec<u8>,
}

impl Walked {
    /// Whether the value goes by the new total where the old one is another. The Rust knows the old one
    /// alone.
    pub fn is_new(&self) -> bool {
        self.total != self.room
    }
}

/// Reads the value of a cell. The refusals that come before any room is looked at are errors.
pub fn read(page_size: usize, cell: &[u8], store: &[u8]) -> Result<Walked, Reply> {
    walk(page_size, cell, store, false)
}

/// The same for deleting it.
pub fn delete(page_size: usize, cell: &[u8], store: &[u8]) -> Result<Walked, Reply> {
    walk(page_size, cell, store, true)
}

fn walk(page_size: usize, cell: &[u8], store: &[u8], deleting: bool) -> Result<Walked, Reply> {
    let cell = decode_cell(page_size, cell)?;
    if cell.size == 0 {
        return Err(Reply::refusal(SIZE, &[]));
    }
    let size = cell.size as usize;
    let room = old_total(page_size, size);
    // The old one until the first page with value bytes is taken.
    let mut decided = None;
    let mut numbers = cell.numbers;
    let mut bytes = vec![];
    let mut stopped = None;
    let mut index = 0;
    while index < decided.unwrap_or(room) {
        match page(page_size, store, numbers.get(index)) {
            Ok((found, value)) => {
                numbers.extend(found);
                bytes.extend(value);
                if !value.is_empty() && decided.is_none() {
                    decided = Some(decided_total(page_size, size, numbers.len()));
                }
                if deleting && !value.is_empty() {
                    break;
                }
            }
            Err(number) => {
                stopped = Some(Reply::refusal(number, &[index as u64]));
                break;
            }
        }
        index += 1;
    }
    let total = decided.unwrap_or(room);
    let reply = match stopped {
        Some(refusal) => refusal,
        None if numbers.len() != total => Reply::refusal(NUMBERS, &[]),
        None if deleting => Reply::answer(&[total as u64]),
        None if bytes.len() != size => Reply::refusal(BYTES, &[]),
        None => Reply::answer(&[size as u64, total as u64]),
    };
    numbers.truncate(total);
    Ok(Walked {
        room,
        size,
        total,
        reply,
        numbers,
        bytes,
    })
}

/// The total of a value with so many numbers found up to and including the first page with bytes: the
/// new one if that is how many, else the old one.
pub fn decided_total(page_size: usize, size: usize, found: usize) -> usize {
    match new_total(page_size, size) {
        new if new == found => new,
        _ => old_total(page_size, size),
    }
}

/// The numbers and the value bytes on a page that the walk comes to, or the refusal's number.
fn page<'a>(
    page_size: usize,
    store: &'a [u8],
    number: Option<&u32>,
) -> Result<(Vec<u32>, &'a [u8]), u32> {
    let page = *number.ok_or(UNKNOWN)? as usize;
    if page >= page_count(page_size, store.len()) {
        return Err(PAST_STORE);
    }
    let (head, body) = store[page * page_size..][..page_size].split_at(4);
    let numbers = 4 * little_endian(&head[..2]) as usize;
    let bytes = little_endian(&head[2..]) as usize;
    if numbers + bytes > body.len() {
        return Err(PAGE);
    }
    if numbers + bytes == 0 {
        return Err(EMPTY);
    }
    Ok((numbers_in(&body[..numbers]), &body[numbers..][..bytes]))
}

/// Where a page lies.
pub fn lookup(
    page_size: usize,
    numbers: &[u32],
    pending_length: usize,
    store_length: usize,
    page: u32,
) -> Reply {
    if pending_length < page_size * numbers.len() {
        return Reply::refusal(BUFFER, &[]);
    }
    let at = |place: usize| (place * page_size) as u64;
    match numbers.iter().position(|number| *number == page) {
        Some(place) => Reply::answer(&[0, at(place)]),
        None if (page as usize) < page_count(page_size, store_length) => {
            Reply::answer(&[1, at(page as usize)])
        }
        None => Reply::refusal(PAST_STORE, &[page.into()]),
    }
}

fn numbers_in(bytes: &[u8]) -> Vec<u32> {
    let numbers = bytes.chunks_exact(4);
    numbers.map(|number| little_endian(number) as u32).collect()
}

fn little_endian(bytes: &[u8]) -> u64 {
    let digits = bytes.iter().rev();
    digits.fold(0, |number, byte| 256 * number + u64::from(*byte))
}
