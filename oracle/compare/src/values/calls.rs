//! Calls of the library beside what is expected of them: writing pages, what these leave, cells, and
//! numbers past the greatest page size.

use super::{
    lent::{numbers_text, untouched_bytes, untouched_numbers},
    model::{self, Writer},
    write, Comparison, Library, Linked, DECODE, DELETE, ENCODE, LOOKUP, READ, TOTAL,
};
use crate::{
    panics::unless_panic,
    record::{Kind, Line},
    report::difference,
};
use mopsienna_sys::{values::Hash, Form, Reply};
use nomt_plain::{Chunked, Values};

/// The hash before a call.
pub const UNTOUCHED_HASH: Hash = [0xA5; 32];

/// A value that is to be written: by which total, its bytes and the numbers of its pages.
#[derive(Clone, Copy)]
pub struct Writing<'a> {
    pub writer: Writer,
    pub value: &'a [u8],
    pub numbers: &'a [u32],
}

impl Comparison<'_> {
    /// Numbers past the greatest page size, which stand for it. What is expected is made by the
    /// library itself, whatever `self.library` changes.
    pub fn page_sizes(&mut self) {
        let greatest = Form::Sized(65_536);
        let bytes = greatest.page_size();
        for size in [65_540, 1 << 32, u64::MAX] {
            let form = Form::Sized(size);
            let text = || format!("page size {size}");

            let writing = |library: &dyn Library, form, writer| {
                let mut page = untouched_bytes(bytes);
                let reply = library.write_value_page(form, writer, &[7], &[1], 0, &mut page);
                (reply, page)
            };
            for writer in [Writer::New, Writer::Old] {
                let expected = writing(&Linked, greatest, writer);
                let got = writing(self.library, form, writer);
                let report = &mut self.reports[write(writer)];
                report.compare(&expected.0, &got.0, expected.1 == got.1, text);
            }

            let mut cell = [0; 44];
            let (size, number) = (1, 1);
            (cell[0], cell[40]) = (size, number);
            let (_, page) = writing(&Linked, greatest, Writer::New);
            let store = [vec![0; bytes], page].concat();
            let read = |library: &dyn Library, form| {
                let (mut table, mut value) = (untouched_numbers(3), untouched_bytes(64));
                let reply = library.read_value(form, &cell, &store, &mut table, &mut value);
                (reply, table, value)
            };
            let (expected, got) = (read(&Linked, greatest), read(self.library, form));
            let same = expected.1 == got.1 && expected.2 == got.2;
            self.reports[READ].compare(&expected.0, &got.0, same, text);

            let delete = |library: &dyn Library, form| {
                let mut table = untouched_numbers(3);
                let reply = library.delete_value(form, &cell, &store, &mut table);
                (reply, table)
            };
            let (expected, got) = (delete(&Linked, greatest), delete(self.library, form));
            self.reports[DELETE].compare(&expected.0, &got.0, expected.1 == got.1, text);

            let expected = Linked.lookup(greatest, &[], &[], &store, 1);
            let got = self.library.lookup(form, &[], &[], &store, 1);
            self.reports[LOOKUP].compare(&expected, &got, true, text);

            let expected = Linked.total(greatest, size.into());
            let got = self.library.total(form, size.into());
            self.reports[TOTAL].compare(&expected, &got, true, text);
        }
    }

    /// Writing a page of a value, to a buffer of so many bytes, beside these pages.
    pub fn write<R: Values>(
        &mut self,
        form: Form,
        writing: Writing,
        index: u64,
        length: usize,
        pages: &[(u32, Vec<u8>)],
    ) {
        let Writing {
            writer,
            value,
            numbers,
        } = writing;
        let mut got = untouched_bytes(length);
        let mut expected = got.clone();
        let (bytes, count) = (value.len(), numbers.len());
        let refusal = model::write(R::PAGE_SIZE, writer, bytes, count, index, length);
        let expected_reply = refusal.unwrap_or_else(|| {
            expected[..R::PAGE_SIZE].copy_from_slice(&pages[index as usize].1);
            Reply::answer(&[])
        });
        let written = expected_reply.number == 0;
        let past_cell = count > model::CELL_NUMBERS;
        let differ = model::totals_differ(R::PAGE_SIZE, bytes);
        // Where the totals are the same, the pages are too.
        let (kind, most, other) = match writer {
            Writer::New => (Kind::WritePage, 24, true),
            Writer::Old => (Kind::WriteOldPage, 2, differ),
        };
        let most = if written { most } else { 1 };
        self.recorder.keep(
            most,
            format!("{} {past_cell} {}", R::PAGE_SIZE, index == 0),
            bytes + count + length,
            || {
                Line::new(kind)
                    .number(R::PAGE_SIZE as u64)
                    .number(index)
                    .array(value)
                    .array(numbers)
                    .length(&expected)
                    .status(&expected_reply)
                    .places(&expected, if written { R::PAGE_SIZE } else { 0 })
                    .long((other && (written || differ)).then(|| {
                        let first = index == 0 && (differ || !past_cell);
                        let many = count > 1;
                        format!("{} {past_cell} {many} {first} {differ}", R::PAGE_SIZE)
                    }))
            },
        );
        let library = self.library;
        let reply = library.write_value_page(form, writer, value, numbers, index, &mut got);
        let same = got == expected;
        self.reports[write(writer)].compare(&expected_reply, &reply, same, || {
            format!(
                "page size {}, size {bytes}, {}, index {index}, buffer of {length}{}",
                R::PAGE_SIZE,
                numbers_text(numbers),
                difference("page", &expected, &got),
            )
        });
    }

    /// The total of a value beside its pages by the new total: how many there are, how many of their
    /// numbers are in the cell, and what they leave; and beside how many the Rust wrote, for which a
    /// reader's number table needs room.
    pub fn total<R: Values>(
        &mut self,
        form: Form,
        size: usize,
        pages: &[(u32, Vec<u8>)],
        chunked: &Chunked,
    ) {
        let expected = Reply::answer(&[
            pages.len() as u64,
            chunked.cell.len() as u64,
            pages.iter().map(|(_, page)| left(page)).sum(),
            chunked.pages.len() as u64,
        ]);
        let got = self.library.total(form, size as u64);
        self.reports[TOTAL].compare(&expected, &got, true, || {
            format!("page size {}, size {size}", R::PAGE_SIZE)
        });
    }

    /// Writing a cell to a buffer of so many bytes. Where the Rust panics, the model has to refuse.
    pub fn encode<R: Values>(
        &mut self,
        form: Form,
        size: u64,
        hash: &Hash,
        numbers: &[u32],
        length: usize,
    ) {
        let text = || {
            let (page, numbers) = (R::PAGE_SIZE, numbers_text(numbers));
            format!("page size {page}, size {size}, {numbers}, buffer of {length}")
        };
        let refusal = model::encode_cell(R::PAGE_SIZE, size, numbers.len(), length);
        let rust = unless_panic(|| R::encode_cell(size, *hash, numbers));
        if refusal
            .as_ref()
            .is_some_and(|refusal| refusal.number == model::SIZE)
        {
            let does = match rust {
                Some(_) => "writes it",
                None => "panics",
            };
            self.reports[ENCODE].class(model::SIZE, does, text);
        }
        let mut got = untouched_bytes(length);
        let mut expected = got.clone();
        let expected_reply = match (refusal, rust) {
            (Some(refusal), _) => refusal,
            (None, Some(cell)) => {
                expected[..cell.len()].copy_from_slice(&cell);
                Reply::answer(&[])
            }
            (None, None) => return self.reports[ENCODE].disagree_at_call("the Rust panics", text),
        };
        let written = match expected_reply.number {
            0 => model::CELL_START + 4 * numbers.len(),
            _ => 0,
        };
        let most = if written > 0 { 60 } else { 6 };
        self.keep_cell::<R>(most, numbers.len() + length, || {
            Line::new(Kind::EncodeCell)
                .number(size)
                .array(hash)
                .array(numbers)
                .length(&expected)
                .status(&expected_reply)
                .places(&expected, written)
        });
        let library = self.library;
        let reply = library.encode_cell(form, size, hash, numbers, &mut got);
        let same = got == expected;
        self.reports[ENCODE].compare(&expected_reply, &reply, same, || {
            format!("{}{}", text(), difference("cell", &expected, &got))
        });
    }

    /// Reading a cell.
    pub fn decode<R: Values>(&mut self, form: Form, cell: &[u8]) {
        let text = || {
            format!(
                "page size {}, cell of {} bytes: {:?}",
                R::PAGE_SIZE,
                cell.len(),
                &cell[..cell.len().min(8)]
            )
        };
        let rust = unless_panic(|| R::decode_cell(cell));
        let mut expected = UNTOUCHED_HASH;
        let expected_reply = match (model::decode_cell(R::PAGE_SIZE, cell), rust) {
            (Ok(model), Some(rust)) if model == rust => {
                expected = rust.hash;
                Reply::answer(&[rust.size, rust.numbers.len() as u64])
            }
            (Ok(_), _) => {
                return self.reports[DECODE].disagree_at_call("the Rust reads another cell", text)
            }
            (Err(refusal), rust) => {
                let does = match rust {
                    Some(_) => "reads it",
                    None => "panics",
                };
                self.reports[DECODE].class(refusal.number, does, text);
                refusal
            }
        };
        let read = expected_reply.number == 0;
        let most = if read { 60 } else { 6 };
        self.keep_cell::<R>(most, cell.len(), || {
            Line::new(Kind::DecodeCell)
                .array(cell)
                .reply(&expected_reply)
                .places(&expected, if read { expected.len() } else { 0 })
        });
        let mut hash = UNTOUCHED_HASH;
        let reply = self.library.decode_cell(form, cell, &mut hash);
        self.reports[DECODE].compare(&expected_reply, &reply, hash == expected, || {
            format!("{}{}", text(), difference("hash", &expected, &hash))
        });
    }

    /// Keeps a call on a cell. Its line has no page size and stands for all but the panel's, where the
    /// largest value is another.
    fn keep_cell<R: Values>(&self, most: usize, lent: usize, line: impl FnOnce() -> Line) {
        if R::PAGE_SIZE != model::PANEL {
            self.recorder.keep(most, String::new(), lent, line);
        }
    }
}

/// How many bytes a value's page leaves behind its header, numbers and value bytes, by the two counts
/// in the header.
fn left(page: &[u8]) -> u64 {
    let count = |at| usize::from(u16::from_le_bytes([page[at], page[at + 1]]));
    page[4 + 4 * count(0) + count(2)..].len() as u64
}
