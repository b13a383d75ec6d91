//! Cases that are the same in every run, smaller ones first.

use super::case::{
    Case,
    Harm::{self, Count, Entry, Head, Length, Prev},
};
use common::lists::{Portions, CAPACITY as FULL};
use nomt_4096::{beatree::allocator::PageNumber, io::PAGE_SIZE as PAGE};
use std::io;

/// Passes on every case of the table.
pub fn each(check: &mut impl FnMut(&Case)) -> io::Result<()> {
    for (length, counts, harms) in TABLE {
        check(&Case::new(*length, in_order(*length, counts), harms)?);
    }
    Ok(())
}

/// The longest store of which all pages count.
pub const MOST: usize = u32::MAX as usize * PAGE;

/// A store's length, the counts of entries on its list's pages from the bottom up, and harms. The
/// list's pages are 1, 2 and so on, and its entries the pages behind them. Where the store has too few, the
/// entries go on from page 1, and numbers come twice.
const TABLE: &[(usize, &[usize], &[Harm])] = &[
    // The list is empty.
    (0, &[], &[]),
    (PAGE, &[], &[]),
    (3 * PAGE + 17, &[], &[]),
    // The store has no page at all.
    (0, &[], &[Head(1)]),
    (0, &[], &[Head(u32::MAX)]),
    (PAGE - 1, &[], &[Head(1)]),
    // A list page lies past the store.
    (PAGE, &[], &[Head(1)]),
    (2 * PAGE, &[1], &[Head(2)]),
    (2 * PAGE, &[1], &[Head(u32::MAX)]),
    (2 * PAGE, &[1], &[Prev(1, 2)]),
    (2 * PAGE, &[1], &[Prev(1, u32::MAX)]),
    (3 * PAGE - 1, &[1], &[Head(2)]),
    (4 * PAGE, &[FULL, 3], &[Prev(1, 4)]),
    (3 * PAGE, &[FULL, 1], &[Length(3 * PAGE - 1)]),
    // A count does not fit a page that is alone.
    (2 * PAGE, &[0], &[]),
    (2 * PAGE, &[1], &[Count(1, FULL as u16 + 1)]),
    (2 * PAGE, &[1], &[Count(1, u16::MAX)]),
    (2 * PAGE, &[0], &[Prev(1, 1)]),
    (2 * PAGE, &[0], &[Prev(1, 2)]),
    // An entry is 0 or past the store; what follows the entries does not matter.
    (2 * PAGE, &[1], &[Entry(1, 0, 0)]),
    (2 * PAGE, &[1], &[Entry(1, 0, 2)]),
    (2 * PAGE, &[1], &[Entry(1, 0, u32::MAX)]),
    (3 * PAGE, &[1], &[Entry(1, 1, 0)]),
    (3 * PAGE, &[1], &[Entry(1, 1, 2)]),
    (2 * PAGE, &[1], &[Entry(1, 0, 0), Prev(1, 1)]),
    (2 * PAGE, &[1], &[Entry(1, 0, 0), Prev(1, 2)]),
    (3 * PAGE - 1, &[1], &[Entry(1, 0, 2)]),
    (2 * PAGE, &[FULL], &[Entry(1, FULL - 1, 0)]),
    (2 * PAGE, &[FULL], &[Entry(1, FULL - 1, 2)]),
    (3 * PAGE, &[FULL, FULL], &[Entry(1, 500, 0)]),
    (3 * PAGE, &[FULL, FULL], &[Entry(1, 500, 3)]),
    // The pages go round, and full ones do not end; others do not fit.
    (2 * PAGE, &[FULL], &[Prev(1, 1)]),
    (2 * PAGE, &[1], &[Prev(1, 1)]),
    (3 * PAGE, &[FULL, FULL], &[Prev(1, 2)]),
    (3 * PAGE, &[FULL, 7], &[Prev(1, 1)]),
    (3 * PAGE, &[FULL, 1], &[Prev(1, 1)]),
    (3 * PAGE, &[FULL, 1], &[Prev(1, 2)]),
    (3 * PAGE, &[FULL - 1, 1], &[Prev(1, 1)]),
    (60 * PAGE, &[FULL, FULL], &[Prev(1, 2)]),
    (8 * PAGE, &[FULL; 7], &[Prev(1, 7)]),
    (8 * PAGE, &[FULL; 7], &[Prev(1, 1)]),
    // As long as a list can be.
    (7 * (FULL + 1) * PAGE + PAGE, &[FULL; 7], &[]),
    // A number comes twice: an entry on a page, on two pages, and a list page as an entry of its own, of
    // one above it and of one below it. Between them lie none, one and many.
    (2 * PAGE, &[1], &[]),
    (3 * PAGE, &[2], &[Entry(1, 1, 2)]),
    (4 * PAGE, &[2], &[Entry(1, 1, 1)]),
    (2000 * PAGE, &[3], &[Entry(1, 2, 2)]),
    (2000 * PAGE, &[FULL], &[Entry(1, FULL - 1, 2)]),
    (2000 * PAGE, &[FULL], &[Entry(1, FULL - 1, FULL as u32)]),
    (2000 * PAGE, &[FULL], &[Entry(1, 0, 1)]),
    (2000 * PAGE, &[FULL, 1], &[Entry(2, 0, 3)]),
    (2000 * PAGE, &[FULL, 1], &[Entry(2, 0, FULL as u32 + 2)]),
    (2000 * PAGE, &[FULL, 1], &[Entry(2, 0, 1)]),
    (2000 * PAGE, &[FULL, 1], &[Entry(2, 0, 2)]),
    (2000 * PAGE, &[FULL, 1], &[Entry(1, 500, 1)]),
    (2000 * PAGE, &[FULL, 1], &[Entry(1, 500, 2)]),
    (2000 * PAGE, &[FULL - 1, 1], &[Entry(1, 0, FULL as u32 + 2)]),
    (4000 * PAGE, &[FULL, FULL, 9], &[Entry(3, 8, 4)]),
    (4000 * PAGE, &[FULL, FULL, 9], &[Entry(1, 0, 3)]),
    (4000 * PAGE, &[FULL, FULL, 9], &[Entry(3, 0, 1)]),
    (8 * PAGE, &[FULL; 7], &[]),
    // The first and the last number that the map has a bit for, each once and twice.
    (8 * PAGE, &[2], &[Entry(1, 1, 7)]),
    (8 * PAGE, &[2], &[Entry(1, 0, 7), Entry(1, 1, 7)]),
    (9 * PAGE, &[2], &[Entry(1, 1, 8)]),
    (9 * PAGE, &[2], &[Entry(1, 0, 8), Entry(1, 1, 8)]),
    (10 * PAGE, &[2], &[Entry(1, 0, 9), Entry(1, 1, 9)]),
    (
        9 * PAGE,
        &[],
        &[Head(8), Prev(8, 0), Count(8, 1), Entry(8, 0, 1)],
    ),
    (
        9 * PAGE,
        &[],
        &[Head(8), Prev(8, 0), Count(8, 1), Entry(8, 0, 8)],
    ),
    // Other shapes.
    (3 * PAGE, &[1, 1], &[]),
    (3 * PAGE, &[0, 1], &[]),
    (3 * PAGE, &[FULL, 0], &[]),
    (3 * PAGE, &[FULL - 2, 1], &[]),
    (3 * PAGE, &[FULL - 1, 2], &[]),
    (3 * PAGE, &[FULL - 1, FULL], &[]),
    (3 * PAGE, &[FULL, 1], &[Count(1, FULL as u16 + 1)]),
    (4 * PAGE, &[1, FULL - 1, 1], &[]),
    (4 * PAGE, &[FULL - 1, FULL, 1], &[]),
    (4 * PAGE, &[FULL - 1, FULL - 1, 1], &[]),
    (4 * PAGE, &[FULL, FULL - 1, 2], &[]),
    // Two harms: page by page, and on a page the count first.
    (2 * PAGE, &[1], &[Count(1, 0), Entry(1, 0, 0)]),
    (2 * PAGE, &[1], &[Count(1, FULL as u16 + 1), Entry(1, 0, 0)]),
    (2 * PAGE, &[FULL], &[Entry(1, 0, 0), Prev(1, 1)]),
    (3 * PAGE, &[FULL, 1], &[Entry(2, 0, 0), Count(1, 0)]),
    (3 * PAGE, &[FULL, 1], &[Count(2, 0), Entry(1, 0, 0)]),
    (3 * PAGE, &[FULL, 1], &[Count(1, 0), Prev(1, 3)]),
    (3 * PAGE, &[FULL, 1], &[Entry(1, 0, 0), Prev(1, 3)]),
    (3 * PAGE, &[FULL, 1], &[Prev(2, 3), Count(1, 0)]),
    (3 * PAGE, &[FULL, 1], &[Prev(2, 3), Entry(2, 0, 3)]),
    // As many pages as count, and more.
    (MOST, &[1], &[Entry(1, 0, u32::MAX - 1)]),
    (MOST, &[1], &[Entry(1, 0, u32::MAX)]),
    (MOST, &[1], &[Head(u32::MAX - 1)]),
    (MOST, &[1], &[Head(u32::MAX)]),
    (MOST + PAGE, &[1], &[]),
    (MOST + PAGE, &[1], &[Entry(1, 0, u32::MAX)]),
    (MOST + PAGE, &[1], &[Head(u32::MAX)]),
    (MOST + 2 * PAGE, &[1], &[Entry(1, 0, u32::MAX - 1)]),
    // The same, with a number twice.
    (
        MOST,
        &[2],
        &[Entry(1, 0, u32::MAX - 1), Entry(1, 1, u32::MAX - 1)],
    ),
];

/// Passes on every shape that is accepted, up to some number of pages, in stores of some lengths.
pub fn each_healthy(short: bool, check: &mut impl FnMut(&Case)) -> io::Result<()> {
    let most_pages = if short { 4 } else { 40 };
    for whole in 0..most_pages {
        let mut heads = vec![1, 2, FULL / 2, FULL - 1, FULL];
        if whole == 0 && !short {
            heads = (1..=FULL).collect();
        }
        let mut shapes: Vec<Vec<usize>> = heads
            .into_iter()
            .map(|head| [vec![FULL; whole], vec![head]].concat())
            .collect();
        shapes.push([vec![FULL; whole], vec![FULL - 1, 1]].concat());
        for counts in shapes {
            let numbers = counts.len() + counts.iter().sum::<usize>();
            for more in [PAGE, 3 * PAGE - 1, 20 * PAGE + 1] {
                let length = numbers * PAGE + more;
                check(&Case::new(length, in_order(length, &counts), &[])?);
            }
        }
    }
    Ok(())
}

/// A list on pages 1, 2 and so on, with entries that go on behind them through all pages of the store.
fn in_order(length: usize, counts: &[usize]) -> Portions {
    let last_page = (length / PAGE).saturating_sub(1).min(u32::MAX as usize);
    let all = (1..=last_page as u32).cycle().map(PageNumber);
    let mut numbers = all.skip(counts.len());
    let entries = counts.iter().map(|n| numbers.by_ref().take(*n).collect());
    (1..).map(PageNumber).zip(entries).collect()
}
