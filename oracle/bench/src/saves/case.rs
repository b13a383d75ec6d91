//! A save with all its numbers, and what is done with it on each side.

use super::{Layout, HANDED_OUT};
use crate::{
    maps, numbers,
    timing::{measured, Ours, Work},
};
use common::{lists::CAPACITY, memory_file, Random};
use mopsienna_sys::{Form, Lent, Out, Reply, Save, UNTOUCHED};
use nomt_4096::{
    beatree::allocator::{
        probe::{
            self,
            free_list::{from_portions, portions, FreeList},
        },
        PageNumber,
    },
    io::{page_pool::FatPage, PagePool, PAGE_SIZE},
};
use std::{hint::black_box, io, mem, rc::Rc, sync::Arc};

/// A list, of which the top page is half full, and numbers to be freed.
pub struct Case {
    pub list: FreeList,
    pub pages: Vec<u32>,
    pub entries: Vec<u32>,
    pub freed: Vec<u32>,
    pub bump: u32,
}

impl Case {
    pub fn new(list_pages: usize, freed: usize, layout: Layout) -> Case {
        let counts = (1..=list_pages).map(|page| match page == list_pages {
            true => CAPACITY / 2,
            false => CAPACITY,
        });
        let all = list_pages + counts.clone().sum::<usize>() + freed;
        let bump = layout.bump.unwrap_or(all as u32 + 1);
        let numbers = match layout.shuffled {
            true => numbers::scattered(all, bump, &mut Random::new(all as u64)),
            false => (1..=all as u32).collect(),
        };
        let mut numbers = numbers.into_iter();
        let list = counts
            .map(|count| {
                // There are as many numbers as are taken.
                let page = PageNumber(numbers.next().unwrap());
                (page, numbers.by_ref().take(count).map(PageNumber).collect())
            })
            .collect();
        let list = from_portions(list);
        let (pages, entries) = flat(&list);
        Case {
            list,
            pages,
            entries,
            freed: numbers.collect(),
            bump,
        }
    }

    pub fn save(&self) -> Save {
        Save {
            bump: self.bump,
            length: self.bump,
            pages: self.pages.len() as u64,
            entries: self.entries.len() as u64,
            count: 0,
        }
    }

    pub fn freed(&self) -> Vec<PageNumber> {
        self.freed.iter().copied().map(PageNumber).collect()
    }

    /// Room for any save here: each page that is written gets a new number, and old ones may join
    /// the list's entries. The map comes with the call.
    pub fn lent(&self, written: usize) -> Lent {
        Lent {
            pages: vec![0; self.pages.len() + written],
            entries: vec![0; self.entries.len() + self.freed.len() + self.pages.len()],
            buffer: vec![0; written * PAGE_SIZE],
            numbers: vec![0; written],
            map: vec![],
        }
    }

    /// Puts the list into the tables.
    fn restore(&self, lent: &mut Lent) {
        lent.pages[..self.pages.len()].copy_from_slice(&self.pages);
        lent.entries[..self.entries.len()].copy_from_slice(&self.entries);
    }

    /// Sees to it that both sides finish in the same way. Tells how many pages are written.
    pub fn check(&self) -> usize {
        let mut list = self.list.clone();
        let mut bump = PageNumber(self.bump);
        let written = list.commit(&PagePool, self.freed(), &mut bump);

        let mut lent = self.lent(written.len());
        self.restore(&mut lent);
        let reply = maps::lend(self.bump, |map| {
            let reply = self.finish(Form::Fixed, &mut lent, map);
            assert!(map.iter().all(|byte| *byte == 0));
            assert!(maps::all_differ(map, self.bump, self.numbers()));
            reply
        });
        check_finish(&reply, &lent, &list, bump, &written);
        written.len()
    }

    /// What must differ.
    fn numbers(&self) -> [&[u32]; 3] {
        [&self.pages, &self.entries, &self.freed]
    }

    fn finish(&self, form: Form, lent: &mut Lent, map: &mut Vec<u8>) -> Reply {
        mem::swap(&mut lent.map, map);
        let reply = form.finish(&self.save(), &self.freed, lent);
        mem::swap(&mut lent.map, map);
        reply
    }

    pub fn ours(self: &Rc<Case>, written: usize) -> Ours {
        let case = self.clone();
        let mut prepared = vec![];
        Ours::Any(Box::new(move |form, calls| {
            prepared.resize_with(calls, || case.lent(written));
            prepared.iter_mut().for_each(|lent| case.restore(lent));
            maps::lend(case.bump, |map| {
                measured(|| {
                    for lent in &mut prepared {
                        black_box(case.finish(form, lent, map));
                        black_box(lent);
                    }
                })
                .0
            })
        }))
    }

    pub fn map_alone(self: &Rc<Case>) -> Work {
        let case = self.clone();
        Box::new(move |calls| {
            maps::lend(case.bump, |map| {
                measured(|| {
                    for _ in 0..calls {
                        black_box(maps::all_differ(map, case.bump, case.numbers()));
                    }
                })
                .0
            })
        })
    }

    pub fn theirs(self: &Rc<Case>) -> Work {
        let case = self.clone();
        Box::new(move |calls| {
            let mut lists = vec![case.list.clone(); calls];
            let freed = vec![case.freed(); calls];
            let mut made = Vec::with_capacity(calls);
            measured(|| {
                for (list, freed) in lists.iter_mut().zip(freed) {
                    let mut bump = PageNumber(case.bump);
                    made.push(list.commit(&PagePool, freed, &mut bump));
                    black_box(bump);
                }
            })
            .0
        })
    }

    /// The next number by the library; the save goes on with its count and length.
    fn hand_out(&self, save: &mut Save, out: &mut Out) -> u64 {
        Form::Fixed.hand_out_into(save, &self.pages, &self.entries, out);
        save.count = out[1];
        save.length = out[2] as u32;
        out[0]
    }

    fn allocator(&self) -> io::Result<impl Fn() -> PageNumber> {
        let file = Arc::new(memory_file()?);
        let bump = PageNumber(self.bump);
        let store = probe::open(file, bump, bump, self.list.clone());
        let (allocator, finisher) = store.start_sync();
        Ok(move || {
            // The finisher stays, as it does in a save. Files in memory take any length.
            let _finisher = &finisher;
            allocator.allocate().unwrap()
        })
    }

    /// Sees to it that both sides hand out the same numbers.
    pub fn check_numbers(&self) -> io::Result<()> {
        let allocate = self.allocator()?;
        let mut save = self.save();
        let mut out = UNTOUCHED;
        for _ in 0..HANDED_OUT {
            assert_eq!(self.hand_out(&mut save, &mut out), allocate().0.into());
        }
        Ok(())
    }

    pub fn handing_out(self: &Rc<Case>) -> Work {
        let case = self.clone();
        Box::new(move |calls| {
            measured(|| {
                for _ in 0..calls {
                    let mut save = case.save();
                    let mut out = UNTOUCHED;
                    for _ in 0..HANDED_OUT {
                        black_box(case.hand_out(&mut save, &mut out));
                    }
                }
            })
            .0
        })
    }

    pub fn allocating(self: &Rc<Case>) -> Work {
        let case = self.clone();
        Box::new(move |calls| {
            let saves: Vec<_> = (0..calls).map(|_| case.allocator().unwrap()).collect();
            measured(|| {
                for allocate in &saves {
                    for _ in 0..HANDED_OUT {
                        black_box(allocate());
                    }
                }
            })
            .0
        })
    }
}

/// Sees to it that a finish by the library has given what the Rust's has.
pub fn check_finish(
    reply: &Reply,
    lent: &Lent,
    list: &FreeList,
    bump: PageNumber,
    written: &[(PageNumber, FatPage)],
) {
    let (pages, entries) = flat(list);
    assert_eq!(reply.number, 0);
    assert_eq!(reply.out[1], bump.0.into());
    assert_eq!(reply.out[5], written.len() as u64);
    assert!(lent.pages[..pages.len()] == pages);
    assert!(lent.entries[..entries.len()] == entries);
    let ours = lent.numbers.iter().zip(lent.buffer.chunks_exact(PAGE_SIZE));
    let theirs = written.iter().map(|(page, bytes)| (&page.0, &bytes[..]));
    assert!(ours.eq(theirs));
}

/// A list's page numbers and entries, from the bottom page up.
fn flat(list: &FreeList) -> (Vec<u32>, Vec<u32>) {
    let portions = portions(list);
    let entries = portions.iter().flat_map(|(_, entries)| entries);
    (
        portions.iter().map(|(page, _)| page.0).collect(),
        entries.map(|entry| entry.0).collect(),
    )
}
