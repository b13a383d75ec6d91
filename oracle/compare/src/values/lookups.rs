//! Page lookup. The Rust has none; where a page lies in the store, its `Store::query` has to read
//! the bytes that the answer names.

use super::{lent::numbers_text, model, Comparison, LOOKUP};
use crate::{
    panics::unless_panic,
    record::{Kind, Line},
};
use common::{Random, Store};
use mopsienna_sys::{Form, Reply};
use nomt_plain::Values;
use std::io;

/// Passes on lookups that are the same in every run, in stores of some lengths.
pub fn fixed<R: Values>(comparison: &mut Comparison, form: Form) -> io::Result<()> {
    let page = R::PAGE_SIZE;
    let most = u32::MAX as usize;
    let pending: [&[u32]; 8] = [
        &[],
        &[0],
        &[1],
        &[5],
        &[5, 5],
        &[4, 5, 5, 0],
        &[u32::MAX],
        &[3, u32::MAX, 2, 1, 3],
    ];
    let lengths = [
        0,
        page - 1,
        page,
        4 * page + 3,
        6 * page,
        (most - 1) * page,
        most * page,
        (most + 1) * page,
        (most + 1) * page + 1,
    ];
    for length in lengths {
        let mut store = Store::new(length)?;
        if length < 100 * page {
            Random::new(length as u64).fill(store.bytes_mut());
        }
        for numbers in pending {
            let exact = page * numbers.len();
            for bytes in [exact, exact.saturating_sub(1), exact + page - 1, 0] {
                for number in [0, 1, 3, 4, 5, 6, u32::MAX - 2, u32::MAX - 1, u32::MAX] {
                    comparison.lookup::<R>(form, numbers, bytes, &store, number)?;
                }
            }
        }
    }
    Ok(())
}

/// Passes on so many random lookups, ten of them in each store.
pub fn random<R: Values>(
    comparison: &mut Comparison,
    form: Form,
    random: &mut Random,
    count: u64,
) -> io::Result<()> {
    for _ in 0..count.div_ceil(10) {
        let page_count = random.below(12);
        let part = random.pick(&[0, 1, R::PAGE_SIZE - 1]);
        let mut store = Store::new(page_count as usize * R::PAGE_SIZE + part)?;
        random.fill(store.bytes_mut());
        for _ in 0..10 {
            let any = |random: &mut Random| {
                let far = random.bits() as u32;
                let near = random.below(page_count + 4) as u32;
                random.pick(&[near, near, near, near, far])
            };
            let numbers: Vec<u32> = (0..random.below(9)).map(|_| any(random)).collect();
            let exact = R::PAGE_SIZE * numbers.len();
            let more = random.below(2 * R::PAGE_SIZE as u64) as usize;
            let bytes = random.pick(&[exact, exact, exact + more, exact.saturating_sub(1 + more)]);
            let page = any(random);
            comparison.lookup::<R>(form, &numbers, bytes, &store, page)?;
        }
    }
    Ok(())
}

impl Comparison<'_> {
    /// Looking a page up, with so many bytes of pending pages.
    pub fn lookup<R: Values>(
        &mut self,
        form: Form,
        numbers: &[u32],
        pending: usize,
        store: &Store,
        page: u32,
    ) -> io::Result<()> {
        let length = store.bytes().len();
        let text = || {
            format!(
                "page size {}, pending {} and {pending} bytes, store of {} pages, page {page}",
                R::PAGE_SIZE,
                numbers_text(numbers),
                length / R::PAGE_SIZE,
            )
        };
        let expected = model::lookup(R::PAGE_SIZE, numbers, pending, length, page);
        let in_store = expected.number == 0 && expected.out[0] == 1;
        let past_store = expected.number == model::PAST_STORE;
        if in_store || past_store {
            let query = unless_panic(|| R::query(store.file(), page)).transpose()?;
            self.query::<R>(&expected, query.as_deref(), store, text);
        }
        let bytes = vec![0x5A; pending];
        let place = match (expected.number, expected.out[0]) {
            (0, 0) => "pending",
            (0, _) => "store",
            _ => "nowhere",
        };
        let class = format!("{} {place}", R::PAGE_SIZE);
        self.recorder.keep(8, class, pending + length, || {
            Line::new(Kind::Lookup)
                .number(R::PAGE_SIZE as u64)
                .number(page)
                .array(numbers)
                .array(&bytes)
                .array(store.bytes())
                .reply(&expected)
                .long((place != "nowhere").then(|| format!("{} {place}", R::PAGE_SIZE)))
        });
        let reply = self
            .library
            .lookup(form, numbers, &bytes, store.bytes(), page);
        self.reports[LOOKUP].compare(&expected, &reply, true, text);
        Ok(())
    }

    /// What the Rust's query gave, beside where the page lies.
    fn query<R: Values>(
        &mut self,
        expected: &Reply,
        query: Option<&[u8]>,
        store: &Store,
        text: impl Fn() -> String,
    ) {
        if expected.number == model::PAST_STORE {
            let does = match query {
                Some(_) => "reads it",
                None => "panics",
            };
            return self.reports[LOOKUP].class(model::PAST_STORE, does, text);
        }
        let at = expected.out[1] as usize;
        let bytes = &store.bytes()[at..][..R::PAGE_SIZE];
        if query != Some(bytes) {
            self.reports[LOOKUP].disagree_at_call("the Rust reads other bytes", text);
        }
    }
}
