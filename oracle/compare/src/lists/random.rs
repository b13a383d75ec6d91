//! Random lists in random stores.

use super::{
    case::{
        Case,
        Harm::{self, Byte, Count, Entry, Head, Length, Prev},
    },
    fixed::MOST,
};
use crate::numbers::Numbers;
use common::{
    lists::{self, Portions, CAPACITY as FULL},
    Random,
};
use nomt_4096::{beatree::allocator::PageNumber, io::PAGE_SIZE as PAGE};
use std::io;

/// Passes on so many cases; longer lists come later.
pub fn each(seed: u64, count: u64, check: &mut impl FnMut(&Case)) -> io::Result<()> {
    let mut random = Random::new(seed);
    for case in 0..count {
        check(&random_case(case, &mut random)?);
    }
    Ok(())
}

/// What kind of store a list is in.
#[derive(Clone, Copy, PartialEq)]
enum Kind {
    /// It has a few pages beside the list's, so that entries mostly come twice.
    Narrow,
    /// It has more pages than the list has numbers, and these all differ.
    Wide,
    /// The same, with as many pages as count.
    Largest,
}

/// A list with up to three harms.
fn random_case(case: u64, random: &mut Random) -> io::Result<Case> {
    let kind = match random.below(64) {
        0 => Kind::Largest,
        1..=20 => Kind::Narrow,
        _ => Kind::Wide,
    };
    let list_pages = random.below(2 + u64::from((case + 1).ilog2() / 2)) as usize;
    let counts = random_counts(list_pages, random);
    let numbers = list_pages + counts.iter().sum::<usize>();
    let length = match kind {
        Kind::Narrow => (list_pages + 1 + random.of_any_length(5) as usize) * PAGE,
        Kind::Wide => (numbers + 1 + random.of_any_length(22) as usize) * PAGE,
        Kind::Largest => MOST,
    };
    let partial = match kind {
        Kind::Largest => 0,
        _ => random.pick(&[0, 1, PAGE - 1]),
    };
    let mut list = distinct_list(&counts, length / PAGE, random);
    if kind == Kind::Narrow {
        for entry in list.iter_mut().flat_map(|(_, entries)| entries) {
            entry.0 = 1 + random.below((length / PAGE) as u64 - 1) as u32;
        }
    }
    let length = length + partial;
    let mut harms = vec![];
    for _ in 0..random.below(4) {
        harms.extend(random_harm(&list, length, kind, random));
    }
    Case::new(length, list, &harms)
}

/// How many entries are on each page, from the bottom page up.
fn random_counts(list_pages: usize, random: &mut Random) -> Vec<usize> {
    let mut counts = vec![FULL; list_pages];
    if let [.., under, head] = counts.as_mut_slice() {
        if random.below(4) == 0 {
            (*under, *head) = (FULL - 1, 1);
            return counts;
        }
    }
    if let [.., head] = counts.as_mut_slice() {
        let any = 1 + random.below(FULL as u64) as usize;
        *head = random.pick(&[1, 2, any, any, FULL]);
    }
    counts
}

/// A list of pages of the store, of which none comes twice if there are enough of them.
fn distinct_list(counts: &[usize], store_pages: usize, random: &mut Random) -> Portions {
    let range = 1..store_pages.max(2) as u64;
    let mut numbers = Numbers::new(range, random).map(PageNumber);
    let pages: Vec<PageNumber> = numbers.by_ref().take(counts.len()).collect();
    let entries = counts.iter().map(|n| numbers.by_ref().take(*n).collect());
    pages.into_iter().zip(entries).collect()
}

/// Only a narrow store gets a harm that could lead round in it: in others that would take too long.
fn random_harm(list: &Portions, length: usize, kind: Kind, random: &mut Random) -> Option<Harm> {
    let pages: Vec<u32> = list.iter().map(|(page, _)| page.0).collect();
    let store_pages = (length / PAGE) as u32;
    let of_the_list = pages
        .get(random.below(1 + pages.len() as u64) as usize)
        .copied();
    let any = random.bits() as u32;
    let number = random.pick(&[
        0,
        1,
        store_pages - 1,
        store_pages,
        any % store_pages,
        any,
        of_the_list.unwrap_or(2),
    ]);
    if random.below(8) == 0 {
        return (kind != Kind::Largest).then(|| match random.below(2) {
            0 => Head(number),
            _ => Length(random.below(length as u64 + 1) as usize),
        });
    }

    let page = of_the_list?;
    let at = pages.iter().position(|other| *other == page)?;
    let place = random.below(list[at].1.len() as u64) as usize;
    let kinds = if kind == Kind::Narrow { 9 } else { 6 };
    Some(match random.below(kinds) {
        0 => {
            let full = FULL as u16;
            let counts = [0, 1, 2, full - 2, full - 1, full, full + 1, any as u16];
            Count(page, random.pick(&counts))
        }
        1 | 2 => Entry(page, place, number),
        3 => {
            let (_, entries) = &list[random.below(list.len() as u64) as usize];
            let other = entries[random.below(entries.len() as u64) as usize];
            Entry(page, place, other.0)
        }
        4 => {
            let byte = lists::entry_at(place) + random.below(4) as usize;
            Byte(page as usize * PAGE + byte, any as u8)
        }
        5 => Prev(page, random.pick(&[0, store_pages, u32::MAX])),
        6 => Prev(page, number),
        7 => Prev(pages[0], page),
        _ => Byte(page as usize * PAGE + random.below(6) as usize, any as u8),
    })
}
