//! A save that is open, on both sides.

use super::{
    history::{History, Value},
    Comparison, Event,
};
use crate::{
    saves::{
        self,
        lent::{lent, Room},
        model::{left, After, Finish},
    },
    values::{
        calls::Writing,
        model::{first_filled, new_total, old_total, pages, Writer, CELL_NUMBERS},
        written,
    },
};
use common::Random;
use mopsienna_sys::{Lent, Save};
use nomt_plain::Values;
use std::{io, rc::Rc};

pub struct Open<R: Values> {
    /// The Rust's save.
    rust: R::Save,
    /// One like it that only hands out, number by number.
    handing: R::Save,
    /// The library's save, with its list's tables.
    save: Save,
    tables: Lent,
    freed: Vec<u32>,
}

impl<R: Values> Open<R> {
    pub fn start(history: &History<R>) -> io::Result<Open<R>> {
        let state = &history.state;
        let save = saves::open_save(state, 0);
        let room = Room::tables(save.pages as usize, save.entries as usize);
        Ok(Open {
            rust: history.rust.start(0),
            handing: R::open(state)?.start(0),
            save,
            tables: lent(&state.list, room),
            freed: vec![],
        })
    }

    /// The next numbers.
    fn hand_out(
        &mut self,
        history: &mut History<R>,
        comparison: &mut Comparison,
        count: usize,
    ) -> io::Result<Vec<u32>> {
        let mut numbers = vec![];
        for _ in 0..count {
            let mut got = (0, 0);
            let (pages, entries) = (&self.tables.pages, &self.tables.entries);
            let saves = &mut comparison.saves;
            saves.hand_out::<R>(history.form, &self.save, pages, entries, || {
                got = R::hand_out(&self.handing)?;
                Ok(got)
            })?;
            numbers.push(got.0);
            self.save.count += 1;
            if got.1 != self.save.length {
                self.save.length = got.1;
                history.set_length(got.1)?;
            }
        }
        Ok(numbers)
    }

    /// Writes a value to pages of the store and makes its cell. Where the totals differ, it may be the
    /// new one, which the Rust does not write: it only hands out the numbers.
    pub fn write(
        &mut self,
        history: &mut History<R>,
        comparison: &mut Comparison,
        size: usize,
        random: &mut Random,
    ) -> io::Result<Option<Rc<Value>>> {
        let mut bytes = vec![0; size];
        random.fill(&mut bytes);
        let totals = [new_total, old_total].map(|total| total(R::PAGE_SIZE, size));
        let total = random.pick(&totals);
        let numbers = self.hand_out(history, comparison, total)?;
        let values = &mut comparison.values;
        let form = history.form;
        let cell = if total == totals[1] {
            let chunked = R::chunk_in(&self.rust, &bytes)?;
            history.write(&chunked.pages);
            written::compare::<R>(values, form, &bytes, &numbers, &chunked, random)
        } else {
            for _ in &numbers {
                R::hand_out(&self.rust)?;
            }
            let pages = pages(R::PAGE_SIZE, &bytes, &numbers);
            let writing = Writing {
                writer: Writer::New,
                value: &bytes,
                numbers: &numbers,
            };
            written::compare_pages::<R>(values, form, writing, &pages, random);
            history.write(&pages);
            comparison.count(Event::APageLess);
            let values = &mut comparison.values;
            let in_cell = &numbers[..CELL_NUMBERS];
            Some(written::compare_cell::<R>(
                values, form, size, in_cell, random,
            ))
        };

        comparison.count(Event::Written);
        if numbers.len() > CELL_NUMBERS {
            comparison.count(Event::NumbersOnPages);
        }
        if numbers.len() >= first_filled(R::PAGE_SIZE) {
            comparison.count(Event::PageOfNumbers);
        }
        Ok(cell.map(|cell| {
            Rc::new(Value {
                cell,
                numbers,
                bytes,
            })
        }))
    }

    /// Deletes a value, an old one or one of this save.
    pub fn delete(
        &mut self,
        history: &mut History<R>,
        comparison: &mut Comparison,
        value: &Value,
        old: bool,
    ) -> io::Result<()> {
        history.look_at(comparison, value)?;
        self.freed.extend(&value.numbers);
        comparison.count(if old {
            Event::Deleted
        } else {
            Event::DeletedAtOnce
        });
        Ok(())
    }

    /// Writes any bytes to a page that is handed out, and frees it again.
    pub fn spoil(
        &mut self,
        history: &mut History<R>,
        comparison: &mut Comparison,
        random: &mut Random,
    ) -> io::Result<()> {
        let numbers = self.hand_out(history, comparison, 1)?;
        R::hand_out(&self.rust)?;
        for number in &numbers {
            let mut bytes = vec![0; R::PAGE_SIZE];
            random.fill(&mut bytes);
            history.write(&[(*number, bytes)]);
        }
        self.freed.extend(numbers);
        comparison.count(Event::Spoilt);
        Ok(())
    }

    /// Finishes. Its pages are not yet written.
    pub fn finish(
        self,
        history: &mut History<R>,
        comparison: &mut Comparison,
        random: &mut Random,
    ) -> io::Result<After> {
        let finished = R::finish(self.rust, &self.freed)?;
        let after = saves::after(&history.rust, finished);
        let list = &history.state.list;
        let finish = Finish::new(history.form, &self.save, list, &self.freed, &after);
        if random.below(2) == 0 {
            let mistaken = mistaken(comparison, &finish, random);
            comparison.count(Event::AtLast);
            let saves = &mut comparison.saves;
            saves.finishes_at_last::<R>(&finish, mistaken.as_deref());
        }
        let saves = &mut comparison.saves;
        saves.finishes::<R>(&finish, random);
        saves.kind::<R>(&finish);
        history.set_length(after.state.length)?;
        Ok(after)
    }
}

/// The freed numbers with one more by mistake, at any place: one of them, a list page or an entry that is
/// left, if there is one.
fn mistaken(comparison: &mut Comparison, finish: &Finish, random: &mut Random) -> Option<Vec<u32>> {
    let mut freed = finish.freed.to_vec();
    let (event, numbers) = match random.below(4) {
        0 => (Event::FreedTwice, freed.clone()),
        1 => {
            let pages = finish.list.iter().map(|(page, _)| *page);
            (Event::FreedListPage, pages.collect())
        }
        2 => (Event::FreedEntry, left(finish.save, finish.list)),
        _ => return None,
    };
    let number = *numbers.get(random.below(numbers.len().max(1) as u64) as usize)?;
    freed.insert(random.below(freed.len() as u64 + 1) as usize, number);
    comparison.count(event);
    Some(freed)
}
