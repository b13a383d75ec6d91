//! Saves in which a number occurs twice or lies past the bump, in every way, with others beside them that
//! come near to it.

use super::{
    after,
    model::{self, Finish},
    open_save, Comparison, Form,
};
use nomt_plain::{List, Rust, State};
use std::io;

/// How many numbers are freed, if any are.
const FREED: usize = 3;

/// So many numbers below the bump are neither in use nor free.
const UNUSED: u32 = 2;

/// One of a save's numbers, by its place: a list page, an entry from the bottom up, or one that is freed.
#[derive(Clone, Copy)]
enum Place {
    Page(usize),
    Entry(usize),
    Freed(usize),
}

/// The numbers of a save, before and at its finish.
#[derive(Clone)]
struct Numbers {
    list: List,
    freed: Vec<u32>,
    bump: u32,
}

impl Numbers {
    /// A list of so many entries on each page, from the bottom page up, and all numbers in order from 1 up:
    /// each page is followed by its entries, and those freed come last.
    fn in_order(counts: &[usize]) -> Numbers {
        let mut numbers = 1..;
        let mut list: List = vec![];
        for count in counts {
            // The range does not end.
            let page = numbers.next().unwrap();
            list.push((page, numbers.by_ref().take(*count).collect()));
        }
        let freed = numbers.by_ref().take(FREED).collect();
        Numbers {
            list,
            freed,
            bump: numbers.start + UNUSED,
        }
    }

    /// The same with another number in some places.
    fn with(&self, changes: &[(Place, u32)]) -> Numbers {
        let mut numbers = self.clone();
        for (place, number) in changes {
            *numbers.place(*place) = *number;
        }
        numbers
    }

    fn place(&mut self, place: Place) -> &mut u32 {
        match place {
            Place::Page(at) => &mut self.list[at].0,
            Place::Entry(at) => {
                let mut entries = self.list.iter_mut().flat_map(|(_, entries)| entries);
                // There are as many.
                entries.nth(at).unwrap()
            }
            Place::Freed(at) => &mut self.freed[at],
        }
    }
}

/// Finishes saves of lists of many shapes, or of those few that are enough to see every way.
pub fn each<R: Rust>(comparison: &mut Comparison, form: Form, few: bool) -> io::Result<()> {
    let full = R::CAPACITY;
    let shapes: &[&[usize]] = match few {
        true => &[&[], &[full, full, 2]],
        false => &[
            &[],
            &[1],
            &[full],
            &[full - 1, 1],
            &[full, 1],
            &[full, full, 2],
            &[full, full, full],
        ],
    };
    for counts in shapes {
        let entries: usize = counts.iter().sum();
        let mut handed = vec![
            0,
            1,
            2,
            3,
            full,
            full + 2,
            entries,
            entries + 1,
            entries + 9,
        ];
        handed.sort_unstable();
        handed.dedup();
        let freeing = Numbers::in_order(counts);
        let mut freeing_none = freeing.clone();
        freeing_none.freed.clear();
        for count in handed {
            for numbers in [&freeing, &freeing_none] {
                for changed in changed(numbers, count) {
                    one::<R>(comparison, form, &changed, count)?;
                }
            }
        }
    }
    Ok(())
}

/// The save as it is, and changed in one way or two.
fn changed(numbers: &Numbers, count: usize) -> Vec<Numbers> {
    let (pages, entries) = model::size(&numbers.list);
    let left = entries - count.min(entries);
    let limit = numbers.bump + (count - count.min(entries)) as u32;
    // The entries at both ends of what is left and of what was handed out.
    let mut ends: Vec<usize> = [
        0,
        1,
        left.wrapping_sub(1),
        left,
        left + 1,
        entries.wrapping_sub(1),
    ]
    .into_iter()
    .filter(|at| *at < entries)
    .collect();
    ends.sort_unstable();
    ends.dedup();
    let mut list: Vec<Place> = (0..pages).map(Place::Page).collect();
    list.extend(ends.into_iter().map(Place::Entry));
    let freed: Vec<Place> = (0..numbers.freed.len()).map(Place::Freed).collect();
    let places = [&list[..], &freed].concat();

    let mut all = vec![numbers.clone()];
    for (at, one) in places.iter().enumerate() {
        for other in &places[..at] {
            let number = *numbers.clone().place(*one);
            let twice = numbers.with(&[(*other, number)]);
            // A freed number that is none comes first.
            all.extend(freed.first().map(|first| twice.with(&[(*first, 0)])));
            all.push(twice);
        }
    }
    for (at, place) in list.iter().enumerate() {
        for number in [0, limit - 1, limit, limit + 1, limit + 999, u32::MAX] {
            all.push(numbers.with(&[(*place, number)]));
        }
        for other in &list[..at] {
            all.push(numbers.with(&[(*place, 0), (*other, 0)]));
        }
    }
    // Numbers that were handed out past the list, if there are any: freed once and twice.
    if let [first, second, ..] = freed[..] {
        for number in [numbers.bump, limit - 1] {
            all.push(numbers.with(&[(second, number)]));
            all.push(numbers.with(&[(first, number), (second, number)]));
        }
    }
    all
}

/// Finishes one save, with all room and with too little.
fn one<R: Rust>(
    comparison: &mut Comparison,
    form: Form,
    numbers: &Numbers,
    count: usize,
) -> io::Result<()> {
    let state = State {
        bump: numbers.bump,
        length: numbers.bump,
        list: numbers.list.clone(),
    };
    let rust = R::open(&state)?;
    let after = after(&rust, R::finish(rust.start(count), &numbers.freed)?);
    let save = open_save(&state, count as u64);
    let finish = Finish::new(form, &save, &state.list, &numbers.freed, &after);
    comparison.finishes_in_order::<R>(&finish);
    Ok(())
}
