//! Finishing saves, handing out numbers, and both after reading the list.
//!
//! `finish-FREED-PAGES` is a save that frees so many numbers over a list of so many pages, of which
//! the top one is half full; nothing was handed out. The numbers are those from 1 up, in this order,
//! and the bump is the next one. With `-shuffled` they are in random order. With `-10M` the bump is
//! ten million, and with `-most` the largest one, whose bit map has 512 MiB; shuffled numbers then lie
//! about everywhere below it.
//!
//! The library is lent tables, buffer, number list and a bit map of just the length that it needs, all
//! there already, and gets the old list back into its tables before the clock is started. The Rust's
//! side is its `FreeList::commit` on a copy of the list, with the pages that it makes and encodes;
//! copies and pages are dropped after the clock is stopped. The map alone is `maps::all_differ` over
//! the list and the freed numbers. A page counts as one that is written.
//!
//! `hand_out-NUMBERS-listed` and `-past` hand out so many numbers, one call for each, all from the
//! list or all past the bump. The Rust's side is its `SyncAllocator::allocate`; past the bump it
//! sets the length of a file in memory now and then. A page counts as one handed out.
//!
//! `save-PAGES` is a save as a host makes it, on a list of so many pages with the least bump and
//! shuffled numbers, so that the bump is about ten thousand for ten pages: the list is read from the
//! store, a thousand numbers are handed out, one call for each, and the save is finished with a
//! thousand freed numbers, which are none of the list's. The Rust's side is its `Store::open` on the
//! store's file, which is in memory, `SyncAllocator::allocate` and `SyncFinisher::finish`. The map
//! alone is `maps::all_differ` over the list as it is read, and then over what is left of it and the
//! freed numbers. A page counts as one handed out.

mod case;
mod whole;

use crate::timing::{Ours, Row};
use case::Case;
use std::{io, rc::Rc};
use whole::Whole;

/// How many numbers the rows of handing out go through.
const HANDED_OUT: usize = 1_000_000;

/// How many numbers a whole save is handed out, and how many it frees.
const SAVED: usize = 1000;

/// Where the numbers of a row stand.
#[derive(Clone, Copy)]
struct Layout {
    /// The end of the row's name.
    name: &'static str,
    /// The least one, where none is given.
    bump: Option<u32>,
    shuffled: bool,
}

impl Layout {
    const fn new(name: &'static str, bump: Option<u32>, shuffled: bool) -> Layout {
        Layout {
            name,
            bump,
            shuffled,
        }
    }
}

const TEN_MILLION: Option<u32> = Some(10_000_000);
const MOST: Option<u32> = Some(4_294_950_913);

const ASCENDING: Layout = Layout::new("", None, false);
const SHUFFLED: Layout = Layout::new("-shuffled", None, true);
const LOW_IN_TEN_MILLION: Layout = Layout::new("-10M", TEN_MILLION, false);
const SHUFFLED_IN_TEN_MILLION: Layout = Layout::new("-10M-shuffled", TEN_MILLION, true);
const LOW_IN_MOST: Layout = Layout::new("-most", MOST, false);
const SHUFFLED_IN_MOST: Layout = Layout::new("-most-shuffled", MOST, true);

/// The rows of finishing: how many numbers are freed, and how many pages the list has.
const FINISHES: [(usize, usize, Layout); 21] = [
    (10, 10, ASCENDING),
    (1_000, 10, ASCENDING),
    (100_000, 10, ASCENDING),
    (1_000_000, 10, ASCENDING),
    (10, 1500, ASCENDING),
    (1_000, 1500, ASCENDING),
    (100_000, 1500, ASCENDING),
    (1_000_000, 1500, ASCENDING),
    (10, 10, SHUFFLED),
    (1_000, 10, SHUFFLED),
    (1_000, 1500, SHUFFLED),
    (1_000_000, 1500, SHUFFLED),
    (10, 10, LOW_IN_TEN_MILLION),
    (1_000, 1500, LOW_IN_TEN_MILLION),
    (10, 10, SHUFFLED_IN_TEN_MILLION),
    (1_000, 1500, SHUFFLED_IN_TEN_MILLION),
    (1_000_000, 1500, SHUFFLED_IN_TEN_MILLION),
    (10, 10, LOW_IN_MOST),
    (1_000, 1500, LOW_IN_MOST),
    (10, 10, SHUFFLED_IN_MOST),
    (1_000, 1500, SHUFFLED_IN_MOST),
];

/// How many calls make a sample. A long list has to be copied for every call.
fn calls(pages: usize, freed: usize, layout: Layout) -> usize {
    match layout.bump {
        MOST => 1,
        _ if pages * freed > 10_000 => 1,
        _ => 20,
    }
}

/// The samples of a row with the largest map, which is cleared in each of them.
const FEW: usize = 11;

/// The rows that are taken, by their names.
pub fn rows(takes: &dyn Fn(&str) -> bool) -> io::Result<Vec<Row>> {
    let mut rows = vec![];
    for (freed, pages, layout) in FINISHES {
        let name = format!("finish-{freed}-{pages}{}", layout.name);
        if !takes(&name) {
            continue;
        }
        let case = Rc::new(Case::new(pages, freed, layout));
        let written = case.check();
        rows.push(Row {
            name,
            pages: written,
            calls: calls(pages, freed, layout),
            ours: case.ours(written),
            theirs: case.theirs(),
            copy: None,
            fill: None,
            map: Some(case.map_alone()),
            rounds: (layout.bump == MOST).then_some(FEW),
        });
    }
    for (name, pages) in [("listed", 1500), ("past", 0)] {
        let name = format!("hand_out-{HANDED_OUT}-{name}");
        if !takes(&name) {
            continue;
        }
        let case = Rc::new(Case::new(pages, 0, ASCENDING));
        case.check_numbers()?;
        rows.push(Row {
            name,
            pages: HANDED_OUT,
            calls: 1,
            ours: Ours::This(case.handing_out()),
            theirs: case.allocating(),
            copy: None,
            fill: None,
            map: None,
            rounds: None,
        });
    }
    for pages in [10, 1500] {
        let name = format!("save-{pages}");
        if !takes(&name) {
            continue;
        }
        let whole = Rc::new(Whole::new(pages)?);
        let written = whole.check()?;
        rows.push(Row {
            name,
            pages: SAVED,
            calls: calls(pages, SAVED, SHUFFLED),
            ours: whole.ours(written),
            theirs: whole.theirs(),
            copy: None,
            fill: None,
            map: Some(whole.map_alone()),
            rounds: None,
        });
    }
    Ok(rows)
}
