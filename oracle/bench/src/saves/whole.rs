//! A whole save on each side, from reading the list on.

use super::{
    case::{check_finish, Case},
    SAVED, SHUFFLED,
};
use crate::{
    maps,
    timing::{measured, Ours, Work},
};
use common::{
    lists::{self, head},
    Store,
};
use mopsienna_sys::{Form, Lent, Reply, Save, UNTOUCHED};
use nomt_4096::{
    beatree::allocator::{
        self,
        probe::{free_list::portions, look_at_list},
        PageNumber, StoreMeta,
    },
    io::{page_pool::FatPage, PagePool, PAGE_SIZE},
};
use std::{fs::File, hint::black_box, io, mem, rc::Rc, sync::Arc};

/// The numbers of a save, and a store with its list.
pub struct Whole {
    case: Case,
    store: Store,
    file: Arc<File>,
}

/// What the Rust makes in a save.
struct Made {
    store: allocator::Store,
    numbers: Vec<PageNumber>,
    written: Vec<(PageNumber, FatPage)>,
    meta: StoreMeta,
}

impl Whole {
    pub fn new(list_pages: usize) -> io::Result<Whole> {
        let case = Case::new(list_pages, SAVED, SHUFFLED);
        let mut store = Store::new(case.bump as usize * PAGE_SIZE)?;
        lists::write(store.bytes_mut(), portions(&case.list));
        Ok(Whole {
            file: Arc::new(store.file().try_clone()?),
            case,
            store,
        })
    }

    fn head(&self) -> u32 {
        head(portions(&self.case.list))
    }

    /// The save by the library. The numbers handed out go to `numbers`.
    fn save(&self, form: Form, lent: &mut Lent, numbers: &mut [u32]) -> Reply {
        let (pages, entries, map) = (&mut lent.pages, &mut lent.entries, &mut lent.map);
        let list = form.read_list(self.store.bytes(), self.head(), pages, entries, map);
        let mut save = Save {
            pages: list.out[0],
            entries: list.out[1],
            ..self.case.save()
        };
        let mut out = UNTOUCHED;
        for number in numbers {
            form.hand_out_into(&save, &lent.pages, &lent.entries, &mut out);
            *number = out[0] as u32;
            save.count = out[1];
            save.length = out[2] as u32;
        }
        form.finish(&save, &self.case.freed, lent)
    }

    /// The save by the Rust.
    fn make(&self, freed: Vec<PageNumber>) -> io::Result<Made> {
        let (bump, head) = (PageNumber(self.case.bump), PageNumber(self.head()));
        let file = self.file.clone();
        let store = allocator::Store::open(&PagePool, file, bump, Some(head));
        let store = store.map_err(io::Error::other)?;
        let (allocator, finisher) = store.start_sync();
        let numbers: io::Result<_> = (0..SAVED).map(|_| allocator.allocate()).collect();
        drop(allocator);
        let (written, meta) = finisher.finish(&PagePool, freed)?;
        Ok(Made {
            store,
            numbers: numbers?,
            written,
            meta,
        })
    }

    /// Sees to it that both sides save in the same way. Tells how many pages are written.
    pub fn check(&self) -> io::Result<usize> {
        let made = self.make(self.case.freed())?;
        let mut lent = self.case.lent(made.written.len());
        let mut numbers = [0; SAVED];
        let reply = maps::lend(self.case.bump, |map| {
            mem::swap(&mut lent.map, map);
            let reply = self.save(Form::Fixed, &mut lent, &mut numbers);
            mem::swap(&mut lent.map, map);
            assert!(map.iter().all(|byte| *byte == 0));
            for numbers in self.numbers() {
                assert!(maps::all_differ(map, self.case.bump, numbers));
            }
            reply
        });
        look_at_list(&made.store, |list| {
            let bump = PageNumber(made.meta.bump);
            check_finish(&reply, &lent, list, bump, &made.written);
        });
        assert_eq!(reply.out[0], made.meta.freelist_pn.into());
        assert!(made.numbers.iter().map(|number| number.0).eq(numbers));
        Ok(made.written.len())
    }

    /// What must differ: in reading the list, and in finishing.
    fn numbers(&self) -> [[&[u32]; 3]; 2] {
        let Case {
            pages,
            entries,
            freed,
            ..
        } = &self.case;
        let left = &entries[..entries.len() - SAVED];
        [[pages, entries, &[]], [pages, left, freed]]
    }

    pub fn ours(self: &Rc<Whole>, written: usize) -> Ours {
        let whole = self.clone();
        let mut lent = whole.case.lent(written);
        let mut numbers = [0; SAVED];
        Ours::Any(Box::new(move |form, calls| {
            maps::lend(whole.case.bump, |map| {
                mem::swap(&mut lent.map, map);
                let (time, ()) = measured(|| {
                    for _ in 0..calls {
                        black_box(whole.save(form, &mut lent, &mut numbers));
                        black_box((&mut lent, &mut numbers));
                    }
                });
                mem::swap(&mut lent.map, map);
                time
            })
        }))
    }

    pub fn theirs(self: &Rc<Whole>) -> Work {
        let whole = self.clone();
        Box::new(move |calls| {
            let freed = vec![whole.case.freed(); calls];
            let mut made = Vec::with_capacity(calls);
            // The list was read before, and a file in memory takes any length.
            measured(|| made.extend(freed.into_iter().map(|freed| whole.make(freed).unwrap()))).0
        })
    }

    pub fn map_alone(self: &Rc<Whole>) -> Work {
        let whole = self.clone();
        Box::new(move |calls| {
            maps::lend(whole.case.bump, |map| {
                measured(|| {
                    for _ in 0..calls {
                        for numbers in whole.numbers() {
                            black_box(maps::all_differ(map, whole.case.bump, numbers));
                        }
                    }
                })
                .0
            })
        })
    }
}
