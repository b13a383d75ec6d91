//! Calls of the library beside what is expected of them: handing out, and reading a list back.

use super::{
    lent::{lent, list_text, put_list, Room},
    model::{self, After},
    Comparison, Form, Library, Linked, FINISH, HAND_OUT, READ_BACK,
};
use crate::{
    map,
    record::{Kind, Line},
    report::difference,
};
use mopsienna_sys::{Lent, Reply, Save};
use nomt_plain::{Held, Rust};
use std::io;

impl Comparison<'_> {
    /// Numbers past the greatest page size, which stand for it; the least and the greatest page size.
    /// What is expected is made by the library itself, whatever `self.library` changes.
    pub fn page_sizes(&mut self) {
        let save = Save {
            bump: 30,
            length: 8192,
            pages: 0,
            entries: 0,
            count: 0,
        };
        let greatest = Form::Sized(65_536);
        for size in [65_540, 1 << 32, u64::MAX] {
            let form = Form::Sized(size);
            let text = || format!("page size {size}");
            let expected = Linked.hand_out(greatest, &save, &[], &[]);
            let got = self.library.hand_out(form, &save, &[], &[]);
            self.reports[HAND_OUT].compare(&expected, &got, true, text);
            let room = Room {
                pages: 3,
                entries: 3,
                bytes: greatest.page_size(),
                numbers: 3,
                map: 4,
            };
            let finish = |library: &dyn Library, form| {
                let mut lent = lent(&vec![], room);
                lent.map.fill(0xA5);
                let reply = library.finish(form, &save, &[2], &mut lent);
                (reply, lent)
            };
            let (expected, got) = (finish(&Linked, greatest), finish(self.library, form));
            self.reports[FINISH].compare(&expected.0, &got.0, expected.1 == got.1, text);
            // The page that is written is page 1, and page 2 is its entry.
            let other = vec![0; greatest.page_size()];
            let store = [&other[..], &expected.1.buffer, &other].concat();
            let read = |library: &dyn Library, form| {
                let mut lent = lent(&vec![], Room::tables(2, 2));
                lent.map = vec![0xA5; 2];
                let (pages, entries, map) = (&mut lent.pages, &mut lent.entries, &mut lent.map);
                let reply = library.read_list(form, &store, 1, pages, entries, map);
                (reply, lent)
            };
            let (expected, got) = (read(&Linked, greatest), read(self.library, form));
            self.reports[READ_BACK].compare(&expected.0, &got.0, expected.1 == got.1, text);
        }
        for size in [16, 65_536] {
            let reply = self.library.hand_out(Form::Sized(size), &save, &[], &[]);
            let answer = Reply::answer(&[30, 1, 8192]);
            self.reports[HAND_OUT].compare(&answer, &reply, true, || format!("page size {size}"));
        }
    }

    /// Handing out beside the Rust's number and recorded length, or beside a refusal.
    pub fn hand_out<R: Rust>(
        &mut self,
        form: Form,
        save: &Save,
        pages: &[u32],
        entries: &[u32],
        rust: impl FnOnce() -> io::Result<(u32, u32)>,
    ) -> io::Result<()> {
        let expected = match model::hand_out(R::CAPACITY, save, pages, entries) {
            Some(refusal) => refusal,
            None => {
                let (number, length) = rust()?;
                Reply::answer(&[number.into(), save.count + 1, length.into()])
            }
        };
        let past = save.count >= save.entries;
        let most = if expected.number == 0 { 40 } else { 3 };
        let full = expected.number == 0 && entries.len() >= R::CAPACITY;
        self.recorder.keep(
            most,
            format!("{} {past}", R::PAGE_SIZE),
            pages.len() + entries.len(),
            || {
                Line::new(Kind::HandOut)
                    .save(R::PAGE_SIZE, save)
                    .length(pages)
                    .places(pages, save.pages as usize)
                    .length(entries)
                    .places(entries, save.entries as usize)
                    .reply(&expected)
                    .long(full.then(|| format!("{} {past}", R::PAGE_SIZE)))
            },
        );
        let reply = self.library.hand_out(form, save, pages, entries);
        self.reports[HAND_OUT].compare(&expected, &reply, true, || {
            format!(
                "page size {}, {save:?}, tables of {} and {}, the last entries {:?}",
                R::PAGE_SIZE,
                pages.len(),
                entries.len(),
                &entries[entries.len().saturating_sub(8)..],
            )
        });
        Ok(())
    }

    /// Reads the list that a save made back from the store, on both sides; now and then first with a map
    /// that is too short.
    pub fn read_back<R: Rust>(
        &mut self,
        form: Form,
        store: &common::Store,
        after: &After,
    ) -> io::Result<()> {
        let list = &after.state.list;
        let (pages, entries) = model::size(list);
        let rust = R::read(store.file(), after.head)?;
        let held = Held {
            list: list.clone(),
            entries,
            fragmented: model::is_fragmented(R::CAPACITY, pages, entries),
        };
        if rust != held {
            self.reports[READ_BACK].disagree_at_call("the Rust reads another list", || {
                format!("page size {}, list {}", R::PAGE_SIZE, list_text(list))
            });
        }

        let bits = (store.bytes().len() / R::PAGE_SIZE) as u64;
        let enough = map::in_use(bits);
        let mut got = lent(&vec![], Room::tables(pages + 1, entries + 1));
        if enough > 0 && self.random.below(4) == 0 {
            got.map = map::dirty(enough - 1, &mut self.random);
            self.reading::<R>(form, store, after, bits, &mut got);
        }
        let more = self.random.pick(&[0, 0, 1, 7]);
        got.map = map::dirty(enough + more, &mut self.random);
        self.reading::<R>(form, store, after, bits, &mut got);
        Ok(())
    }

    /// Reads the list of a store of so many pages back into these tables, with this map; they then hold what
    /// they have to.
    fn reading<R: Rust>(
        &mut self,
        form: Form,
        store: &common::Store,
        after: &After,
        bits: u64,
        got: &mut Lent,
    ) {
        let list = &after.state.list;
        let (pages, entries) = model::size(list);
        let mut expected_lent = got.clone();
        let too_short = map::is_too_short(got.map.len(), bits);
        let (expected, kept) = if too_short {
            (Reply::refusal(map::TOO_SHORT, &[]), (0, 0))
        } else {
            put_list(&mut expected_lent, list);
            let answer = Reply::answer(&[pages as u64, entries as u64]);
            (answer, (pages, entries))
        };
        let cleared = map::cleared_by(&expected, bits);
        expected_lent.map[..cleared].fill(0);
        let most = if too_short { 3 } else { 12 };
        self.recorder
            .keep(most, R::PAGE_SIZE.to_string(), store.bytes().len(), || {
                Line::new(Kind::ReadList)
                    .number(R::PAGE_SIZE as u64)
                    .number(after.head)
                    .array(store.bytes())
                    .length(&expected_lent.pages)
                    .length(&expected_lent.entries)
                    .length(&expected_lent.map)
                    .reply(&expected)
                    .places(&expected_lent.pages, kept.0)
                    .places(&expected_lent.entries, kept.1)
                    .map(expected_lent.map.len(), cleared)
            });
        let reply = self.library.read_list(
            form,
            store.bytes(),
            after.head,
            &mut got.pages,
            &mut got.entries,
            &mut got.map,
        );
        let same = *got == expected_lent;
        self.reports[READ_BACK].compare(&expected, &reply, same, || {
            format!(
                "page size {}, list {}{}{}{}",
                R::PAGE_SIZE,
                list_text(list),
                difference("pages", &expected_lent.pages, &got.pages),
                difference("entries", &expected_lent.entries, &got.entries),
                difference("map", &expected_lent.map, &got.map),
            )
        });
        *got = expected_lent;
    }
}
