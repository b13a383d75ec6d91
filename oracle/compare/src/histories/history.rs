//! One store through its saves.

use super::{save::Open, Comparison, Event};
use crate::{
    saves::model::After,
    values::{
        case::Case,
        model::{differing, first_filled, last_size},
        DELETE, READ,
    },
};
use common::{Random, Store};
use mopsienna_sys::Form;
use nomt_plain::{State, Values};
use std::{io, rc::Rc};

/// How many pages a store can have, and the bump past which a history ends.
const MOST_PAGES: usize = 1 << 17;
const MOST_BUMP: u32 = 60_000;

/// With more values than these, saves mostly delete.
const MANY_VALUES: usize = 6;

/// A value that was written.
pub struct Value {
    pub cell: Vec<u8>,
    pub numbers: Vec<u32>,
    pub bytes: Vec<u8>,
}

pub struct History<R: Values> {
    pub form: Form,
    pub rust: R,
    /// What holds after the last save that was not given up.
    pub state: State,
    head: u32,
    values: Vec<Rc<Value>>,
    /// The store, as long as its recorded length, with the cell that is looked at.
    pub case: Case,
}

impl<R: Values> History<R> {
    /// An empty store.
    pub fn new(form: Form) -> io::Result<History<R>> {
        let state = State {
            bump: 1,
            length: 0,
            list: vec![],
        };
        let mut store = Store::new(MOST_PAGES * R::PAGE_SIZE)?;
        store.set_length(0)?;
        Ok(History {
            form,
            rust: R::open(&state)?,
            state,
            head: 0,
            values: vec![],
            case: Case::of_store(R::PAGE_SIZE, store),
        })
    }

    /// Makes up to so many saves. Tells how many there were.
    pub fn run(
        &mut self,
        comparison: &mut Comparison,
        most: u64,
        random: &mut Random,
    ) -> io::Result<u64> {
        for saves in 0..most {
            if self.state.bump > MOST_BUMP {
                return Ok(saves);
            }
            self.save(comparison, random)?;
        }
        Ok(most)
    }

    /// Makes a save, ends it and reads all back.
    fn save(&mut self, comparison: &mut Comparison, random: &mut Random) -> io::Result<()> {
        let mut values = self.values.clone();
        let mut open = Open::start(self)?;
        for _ in 0..random.below(6) {
            let many = values.len() > MANY_VALUES;
            match random.below(if many { 3 } else { 8 }) {
                0 => open.spoil(self, comparison, random)?,
                1 | 2 if !values.is_empty() => {
                    let value = values.swap_remove(random.below(values.len() as u64) as usize);
                    let old = self.values.iter().any(|other| Rc::ptr_eq(other, &value));
                    open.delete(self, comparison, &value, old)?;
                }
                _ => {
                    let size = any_size(R::PAGE_SIZE, random);
                    values.extend(open.write(self, comparison, size, random)?);
                }
            }
        }
        comparison.count(Event::Saved);
        self.end(comparison, open, values, random)?;
        self.read_values(comparison)
    }

    /// Takes the save over with its values, or gives it up, before its finish or after it.
    fn end(
        &mut self,
        comparison: &mut Comparison,
        open: Open<R>,
        values: Vec<Rc<Value>>,
        random: &mut Random,
    ) -> io::Result<()> {
        match random.below(16) {
            0 => {
                comparison.count(Event::GivenUp);
                drop(open);
                self.reopen(comparison)?;
            }
            1 => {
                let after = open.finish(self, comparison, random)?;
                self.write_some(&after.written, random);
                comparison.count(Event::GivenUpFinished);
                self.reopen(comparison)?;
            }
            way => {
                let after = open.finish(self, comparison, random)?;
                self.look_up(comparison, &after.written, random)?;
                self.write(&after.written);
                comparison
                    .saves
                    .read_back::<R>(self.form, &self.case.store, &after)?;
                (self.head, self.state, self.values) = (after.head, after.state, values);
                if way < 5 {
                    self.reopen(comparison)?;
                }
            }
        }
        Ok(())
    }

    /// Gives the store as many pages as the recorded length says.
    pub fn set_length(&mut self, pages: u32) -> io::Result<()> {
        self.case.store.set_length(pages as usize * R::PAGE_SIZE)
    }

    pub fn write(&mut self, pages: &[(u32, Vec<u8>)]) {
        for (page, bytes) in pages {
            let at = *page as usize * R::PAGE_SIZE;
            self.case.store.bytes_mut()[at..][..R::PAGE_SIZE].copy_from_slice(bytes);
        }
    }

    /// Writes some of the pages, as a power cut may let through.
    fn write_some(&mut self, pages: &[(u32, Vec<u8>)], random: &mut Random) {
        for page in pages {
            if random.below(2) == 0 {
                self.write(std::slice::from_ref(page));
            }
        }
    }

    /// Opens the store again from its bytes, on the Rust's side, with the last head that was taken.
    /// The recorded length is then the file's.
    fn reopen(&mut self, comparison: &mut Comparison) -> io::Result<()> {
        comparison.count(Event::Reopened);
        let after = After {
            head: self.head,
            state: self.state.clone(),
            written: vec![],
        };
        comparison
            .saves
            .read_back::<R>(self.form, &self.case.store, &after)?;
        let store = &self.case.store;
        self.state.list = R::read(store.file(), self.head)?.list;
        self.state.length = (store.bytes().len() / R::PAGE_SIZE) as u32;
        self.rust = R::open(&self.state)?;
        Ok(())
    }

    /// Looks pages up while those of a finish are pending: one of them, and any.
    fn look_up(
        &self,
        comparison: &mut Comparison,
        pending: &[(u32, Vec<u8>)],
        random: &mut Random,
    ) -> io::Result<()> {
        let numbers: Vec<u32> = pending.iter().map(|(page, _)| *page).collect();
        let bytes = R::PAGE_SIZE * numbers.len();
        let any = random.below(self.state.bump.into()) as u32;
        let some = numbers.get(random.below(1 + numbers.len() as u64) as usize);
        for page in some.copied().into_iter().chain([any]) {
            let store = &self.case.store;
            comparison
                .values
                .lookup::<R>(self.form, &numbers, bytes, store, page)?;
        }
        Ok(())
    }

    /// Reads every value back, and looks what deleting it would free.
    fn read_values(&mut self, comparison: &mut Comparison) -> io::Result<()> {
        for value in self.values.clone() {
            self.look_at(comparison, &value)?;
            comparison.count(Event::ReadBack);
        }
        Ok(())
    }

    /// Reads and deletes a value on both sides, which have to give what was written; but the Rust does
    /// not know the new total.
    pub fn look_at(&mut self, comparison: &mut Comparison, value: &Value) -> io::Result<()> {
        let text = format!("value of {} bytes in a history", value.bytes.len());
        self.case.look_at(&value.cell, text);
        let found = comparison.values.check::<R>(self.form, &self.case)?;
        let reports = &mut comparison.values.reports;
        if found.value.as_ref() != Some(&value.bytes) {
            reports[READ].disagree_at_call("not the value written", || self.case.to_string());
        }
        if found.freed.as_ref() != Some(&value.numbers) {
            reports[DELETE].disagree_at_call("not the pages written", || self.case.to_string());
        }
        Ok(())
    }
}

/// Few pages mostly; more than a cell has numbers for; now and then a first page full of numbers, or a
/// size whose totals differ.
fn any_size(page_size: usize, random: &mut Random) -> usize {
    let (least, most) = match random.below(200) {
        0 => {
            let filled = first_filled(page_size);
            (filled - 2, filled + 3)
        }
        1 => return differing(page_size, 1),
        2..=40 => (10, 24),
        _ => (0, 3),
    };
    let least = last_size(page_size, least);
    least + 1 + random.below((last_size(page_size, most) - least) as u64) as usize
}
