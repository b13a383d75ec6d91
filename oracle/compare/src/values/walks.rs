//! Reading and deleting a value, on both sides and beside the model.

use super::{
    case::Case,
    lent::{untouched_bytes, untouched_numbers},
    model::{self, Walked},
    Comparison, DELETE, READ,
};
use crate::{
    panics::unless_panic,
    record::{Kind, Line},
    report::difference,
};
use mopsienna_sys::{Form, Reply};
use nomt_plain::Values;
use std::io;

/// Above so many bytes or numbers there is only a call with too little room.
const MOST_BYTES: usize = 1 << 23;
const MOST_NUMBERS: usize = 1 << 18;

/// The least page size.
const LEAST_PAGE: usize = 16;

/// The value, if it is read, and the numbers of its pages, if it is deleted.
pub struct Found {
    pub value: Option<Vec<u8>>,
    pub freed: Option<Vec<u32>>,
}

impl Comparison<'_> {
    /// Reads and deletes the value, with the room that is needed, with more and with less. Gives what
    /// is to be found.
    pub fn check<R: Values>(&mut self, form: Form, case: &Case) -> io::Result<Found> {
        let store = case.store.bytes();
        let read = model::read(R::PAGE_SIZE, &case.cell, store);
        let is_read = self.rust_reads::<R>(case, &read)?;
        for (numbers, bytes) in rooms(&read) {
            self.read(form, case, &read, numbers, bytes);
        }
        let deleted = model::delete(R::PAGE_SIZE, &case.cell, store);
        let is_deleted = self.rust_deletes::<R>(case, &deleted)?;
        for numbers in number_rooms(&deleted) {
            self.delete(form, case, &deleted, numbers);
        }
        let group = self.groups.entry(self.group.clone()).or_default();
        group[0] += 1;
        group[1] += u64::from(is_read);
        group[2] += u64::from(is_deleted);
        let walked = |model: Result<Walked, Reply>, is: bool| model.ok().filter(|_| is);
        Ok(Found {
            value: walked(read, is_read).map(|walked| walked.bytes),
            freed: walked(deleted, is_deleted).map(|walked| walked.numbers),
        })
    }

    /// The Rust's reading beside the model's. Tells whether the model reads the value.
    fn rust_reads<R: Values>(
        &mut self,
        case: &Case,
        model: &Result<Walked, Reply>,
    ) -> io::Result<bool> {
        let file = case.store.file();
        let value = unless_panic(|| R::read_value(&case.cell, file)).transpose()?;
        let is_new = is_new(model);
        if let Some(refusal) = refusal(model) {
            let does = match value {
                Some(_) if is_new && refusal.number == model::NUMBERS => {
                    "reads it by the old total"
                }
                Some(_) => "reads it",
                None => "panics",
            };
            self.reports[READ].class(refusal.number, does, || case.to_string());
            return Ok(false);
        }
        let steps = unless_panic(|| R::read_in_steps(&case.cell, file)).transpose()?;
        if is_new {
            let does = match (value, steps) {
                (None, None) => "panics",
                _ => "reads something",
            };
            self.reports[READ].class(0, does, || case.to_string());
            return Ok(true);
        }
        let agrees = model.as_ref().is_ok_and(|walked| {
            value.as_ref() == Some(&walked.bytes)
                && steps.is_some_and(|steps| steps == (value, walked.numbers.clone()))
        });
        if !agrees {
            self.reports[READ]
                .disagree_at_call("the Rust reads something else", || case.to_string());
        }
        Ok(true)
    }

    /// The Rust's deleting beside the model's. Tells whether the model deletes the value.
    fn rust_deletes<R: Values>(
        &mut self,
        case: &Case,
        model: &Result<Walked, Reply>,
    ) -> io::Result<bool> {
        let file = case.store.file();
        let freed = unless_panic(|| R::delete_value(&case.cell, file)).transpose()?;
        if let Some(refusal) = refusal(model) {
            let does = match freed {
                Some(_) => "deletes it",
                None => "panics",
            };
            self.reports[DELETE].class(refusal.number, does, || case.to_string());
            return Ok(false);
        }
        if is_new(model) {
            let does = match freed {
                Some(_) => "deletes something",
                None => "panics",
            };
            self.reports[DELETE].class(0, does, || case.to_string());
            return Ok(true);
        }
        let agrees = model
            .as_ref()
            .is_ok_and(|walked| freed.as_ref() == Some(&walked.numbers));
        if !agrees {
            self.reports[DELETE]
                .disagree_at_call("the Rust deletes something else", || case.to_string());
        }
        Ok(true)
    }

    /// The library's reading beside the model's, with room for so many numbers and bytes.
    fn read(
        &mut self,
        form: Form,
        case: &Case,
        model: &Result<Walked, Reply>,
        numbers: usize,
        bytes: usize,
    ) {
        let (mut table, mut value) = (untouched_numbers(numbers), untouched_bytes(bytes));
        let (mut expected_table, mut expected_value) = (table.clone(), value.clone());
        let expected = match model {
            Err(refusal) => refusal.clone(),
            Ok(walked) if numbers < walked.room || bytes < walked.size => {
                Reply::refusal(model::ROOM, &[])
            }
            Ok(walked) => {
                expected_table[..walked.numbers.len()].copy_from_slice(&walked.numbers);
                if walked.reply.number == 0 {
                    expected_value[..walked.size].copy_from_slice(&walked.bytes);
                }
                walked.reply.clone()
            }
        };
        self.record_read(case, model, &expected, &expected_table, &expected_value);
        let reply =
            self.library
                .read_value(form, &case.cell, case.store.bytes(), &mut table, &mut value);
        let same = table == expected_table && value == expected_value;
        self.reports[READ].compare(&expected, &reply, same, || {
            format!(
                "{case}, room for {numbers} numbers and {bytes} bytes{}{}",
                difference("numbers", &expected_table, &table),
                difference("value", &expected_value, &value),
            )
        });
    }

    /// Keeps a reading.
    fn record_read(
        &self,
        case: &Case,
        model: &Result<Walked, Reply>,
        expected: &Reply,
        table: &[u32],
        value: &[u8],
    ) {
        let store = case.store.bytes();
        let (most, class, size) = match model {
            Ok(walked) if expected.number == 0 => (7, &self.group[..], walked.size),
            _ => (3, refused_at(expected), 0),
        };
        self.recorder
            .keep(most, class.into(), store.len() + value.len(), || {
                Line::new(Kind::ReadValue)
                    .number(case.page_size as u64)
                    .array(&case.cell)
                    .array(store)
                    .length(table)
                    .length(value)
                    .reply(expected)
                    .places(table, found(model, expected))
                    .places(value, size)
                    .long(self.long_class(case, model, expected, table))
            });
    }

    /// The library's deleting beside the model's, with room for so many numbers.
    fn delete(&mut self, form: Form, case: &Case, model: &Result<Walked, Reply>, numbers: usize) {
        let mut table = untouched_numbers(numbers);
        let mut expected_table = table.clone();
        let expected = match model {
            Err(refusal) => refusal.clone(),
            Ok(walked) if numbers < walked.room => Reply::refusal(model::ROOM, &[]),
            Ok(walked) => {
                expected_table[..walked.numbers.len()].copy_from_slice(&walked.numbers);
                walked.reply.clone()
            }
        };
        let store = case.store.bytes();
        let deleted = expected.number == 0;
        let (most, class) = match deleted {
            true => (6, &self.group[..]),
            false => (3, refused_at(&expected)),
        };
        self.recorder.keep(most, class.into(), store.len(), || {
            Line::new(Kind::DeleteValue)
                .number(case.page_size as u64)
                .array(&case.cell)
                .array(store)
                .length(&expected_table)
                .reply(&expected)
                .places(&expected_table, found(model, &expected))
                .long(self.long_class(case, model, &expected, &expected_table))
        });
        let reply = self
            .library
            .delete_value(form, &case.cell, store, &mut table);
        let same = table == expected_table;
        self.reports[DELETE].compare(&expected, &reply, same, || {
            format!(
                "{case}, room for {numbers} numbers{}",
                difference("numbers", &expected_table, &table),
            )
        });
    }

    /// What sets a long line apart beside the page size: for values whose totals differ, by which one it
    /// goes, whether that is decided, and whether the chain is one around that place, refusals at the
    /// least page size alone; for others as they were written, whether the value has one page, more, or
    /// more than have their numbers in the cell; for empty pages, where the table has more places than
    /// numbers were found, whether it is the first page.
    fn long_class(
        &self,
        case: &Case,
        model: &Result<Walked, Reply>,
        expected: &Reply,
        table: &[u32],
    ) -> Option<String> {
        let walked = model.as_ref().ok()?;
        let total = walked.total;
        let differ = model::totals_differ(case.page_size, walked.size);
        let class = match expected.number {
            number if differ && (number == 0 || case.page_size == LEAST_PAGE) => {
                let decided = !walked.bytes.is_empty();
                let around = self.group.ends_with("decided");
                let at = refused_at(expected);
                format!("differ {} {decided} {around} {at}", walked.is_new())
            }
            0 if self.group.ends_with("written") => {
                format!("{} {}", total > model::CELL_NUMBERS, total > 1)
            }
            model::EMPTY if walked.numbers.len() < table.len() => refused_at(expected).into(),
            _ => return None,
        };
        Some(format!("{} {class}", case.page_size))
    }
}

/// What sets a refusal apart: whether it is that of the first page, of a later one or of none.
fn refused_at(expected: &Reply) -> &'static str {
    match expected.number {
        model::UNKNOWN | model::PAST_STORE | model::PAGE | model::EMPTY => match expected.out[0] {
            0 => "first page",
            _ => "later page",
        },
        _ => "",
    }
}

/// How many numbers stand in the table after a call.
fn found(model: &Result<Walked, Reply>, reply: &Reply) -> usize {
    match model {
        Ok(walked) if reply.number != model::ROOM => walked.numbers.len(),
        _ => 0,
    }
}

/// The refusal with enough room, if there is one.
fn refusal(model: &Result<Walked, Reply>) -> Option<&Reply> {
    match model {
        Err(refusal) => Some(refusal),
        Ok(walked) => Some(&walked.reply).filter(|reply| reply.number != 0),
    }
}

/// Whether the model goes by a new total that is not the old one.
fn is_new(model: &Result<Walked, Reply>) -> bool {
    model.as_ref().is_ok_and(Walked::is_new)
}

/// Room for numbers and bytes: as much as is needed and more, and each one place too short.
fn rooms(model: &Result<Walked, Reply>) -> Vec<(usize, usize)> {
    let Ok(walked) = model else {
        return vec![(0, 0), (3, 9)];
    };
    let (numbers, bytes) = (walked.room, walked.size);
    if numbers > MOST_NUMBERS || bytes > MOST_BYTES {
        return vec![(0, 0), (20, 100)];
    }
    vec![
        (numbers, bytes),
        (numbers + 2, bytes + 5),
        (numbers - 1, bytes + 5),
        (numbers + 2, bytes - 1),
    ]
}

/// The same where only numbers need room.
fn number_rooms(model: &Result<Walked, Reply>) -> Vec<usize> {
    match model {
        Err(_) => vec![0, 3],
        Ok(walked) if walked.room > MOST_NUMBERS => vec![0, 20],
        Ok(walked) => vec![walked.room, walked.room + 2, walked.room - 1],
    }
}
