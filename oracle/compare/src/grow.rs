//! `grow`: the length in pages that a store is given so that it holds a page.
//!
//! The Rust's `grow` is private. It sets the length of the store's file, and it is called where a
//! page past the end is handed out and where a save finishes with its bump past the end. Both are
//! taken here, over an empty file, and the file's length is read.

use crate::{
    record::{Kind, Line},
    report::Report,
    Plan,
};
use common::{memory_file, Random};
use mopsienna_sys::Reply;
use nomt_4096::{
    beatree::allocator::{PageNumber, Store},
    io::{PagePool, PAGE_SIZE},
};
use std::{fs::File, io, sync::Arc};

/// Lengths are multiples of this.
const STEP: u32 = 8192;

/// The greatest page with a grown length that a page number can hold. Past it the Rust stops in a
/// debug build, and in a release build wraps and sets the length to 0 or 8,192 pages.
pub const LAST_PAGE: u32 = 4_294_950_913;

/// The refusal of pages past the last.
const PAST_LAST: u32 = 7;

/// Compares the library's `grow`.
pub fn compare(plan: &Plan, library: impl Fn(u32) -> Reply) -> io::Result<Report> {
    let rust = Rust::new()?;
    let mut report = Report::new("grow");
    let mut check = |page: u32| -> io::Result<()> {
        let text = || format!("page {page}");
        if page > LAST_PAGE {
            report.class(PAST_LAST, rust.past_last(page)?, text);
        }
        for expected in rust.expected(page)? {
            let rest = page % STEP;
            let at_a_step = rest < 2 || rest + 2 > STEP;
            plan.recorder.keep(
                20,
                format!("{} {at_a_step}", page > LAST_PAGE - 20_000),
                8,
                || Line::new(Kind::Grow).number(page).reply(&expected),
            );
            report.check(page.into(), &expected, &library(page), text);
        }
        Ok(())
    };

    (0..=20_000).try_for_each(&mut check)?;

    let stride = if plan.short { 256 } else { 1 };
    for multiple in (STEP..=LAST_PAGE).step_by(STEP as usize * stride) {
        (multiple - 2..=multiple + 2).try_for_each(&mut check)?;
    }

    (LAST_PAGE - 20_000..=u32::MAX).try_for_each(&mut check)?;

    let mut random = Random::new(plan.seed);
    for case in 0..plan.count {
        check(match case % 4 {
            0 => random.of_any_length(32) as u32,
            _ => random.bits() as u32,
        })?;
    }
    report.reached(&[0, PAST_LAST]);
    Ok(report)
}

/// The Rust's store over a file in memory.
struct Rust {
    pool: PagePool,
    file: Arc<File>,
}

impl Rust {
    fn new() -> io::Result<Rust> {
        Ok(Rust {
            pool: PagePool,
            file: Arc::new(memory_file()?),
        })
    }

    /// What the Rust does past the last page, where lengths wrap in its release build.
    fn past_last(&self, page: u32) -> io::Result<&'static str> {
        Ok(match self.length_after_allocate(page)? {
            0 => "cuts the store to 0 pages",
            8192 => "cuts the store to 8,192 pages",
            _ => "gives it another length",
        })
    }

    /// What a call should give, once for each way to the Rust's `grow`.
    fn expected(&self, page: u32) -> io::Result<Vec<Reply>> {
        if page > LAST_PAGE {
            return Ok(vec![Reply::refusal(PAST_LAST, &[])]);
        }
        let mut replies = vec![Reply::answer(&[self.length_after_allocate(page)?])];
        // A bump of 0 is not past the end of an empty file.
        if page > 0 {
            replies.push(Reply::answer(&[self.length_after_finish(page)?]));
        }
        Ok(replies)
    }

    /// Hands out the page.
    fn length_after_allocate(&self, page: u32) -> io::Result<u64> {
        let (allocator, _finisher) = self.open_empty(page)?.start_sync();
        assert_eq!(allocator.allocate()?, PageNumber(page));
        self.length()
    }

    /// Finishes a save that handed out and freed nothing.
    fn length_after_finish(&self, page: u32) -> io::Result<u64> {
        let (allocator, finisher) = self.open_empty(page)?.start_sync();
        drop(allocator);
        finisher.finish(&self.pool, vec![])?;
        self.length()
    }

    /// The store with the page as its bump, over the file cut to nothing.
    fn open_empty(&self, page: u32) -> io::Result<Store> {
        self.file.set_len(0)?;
        Store::open(&self.pool, self.file.clone(), PageNumber(page), None).map_err(io::Error::other)
    }

    fn length(&self) -> io::Result<u64> {
        Ok(self.file.metadata()?.len() / PAGE_SIZE as u64)
    }
}
