//! Random states: any bump, recorded length, list and count, standing or not, up to the limits. Mostly
//! all numbers differ and lie below the bump.

use super::{
    after,
    lent::{lent, Room},
    model, Comparison, Form, FINISH,
};
use crate::{
    numbers::Numbers,
    record::{Kind, Line},
};
use common::Random;
use mopsienna_sys::{Lent, Reply, Save};
use nomt_plain::{List, Rust, State};
use std::io;

use model::{Finish, LAST_BUMP};

pub fn each<R: Rust>(
    comparison: &mut Comparison,
    form: Form,
    seed: u64,
    count: u64,
) -> io::Result<()> {
    let mut random = Random::new(seed ^ 0x5AFE);
    for _ in 0..count {
        one::<R>(comparison, form, &mut random)?;
    }
    Ok(())
}

/// Hands out from one state, and finishes it.
fn one<R: Rust>(comparison: &mut Comparison, form: Form, random: &mut Random) -> io::Result<()> {
    let counts = any_counts(R::CAPACITY, random);
    let (pages, entries) = (counts.len(), counts.iter().sum());
    let mut save = Save {
        bump: any_bump(random),
        length: any_length(random),
        pages: pages as u64,
        entries: entries as u64,
        count: 0,
    };
    save.count = any_count(&save, random);
    // What freed numbers have to be below, unless the save is refused anyhow.
    let past = save.count.saturating_sub(save.entries);
    let limit = u64::from(save.bump).saturating_add(past).min(LAST_BUMP);
    let mut numbers = Numbers::new(random.below(2).min(limit - 1)..limit, random);
    let mut list = list_of(&counts, &mut numbers);
    let mut freed: Vec<u32> = numbers
        .take(any_freed(R::CAPACITY, random))
        .filter(|number| *number != 0)
        .collect();
    if random.below(3) == 0 {
        for _ in 0..1 + random.below(2) {
            twist(&mut list, &mut freed, limit, random);
        }
    }
    let mut room = Room {
        pages,
        entries,
        bytes: 3 * R::PAGE_SIZE,
        numbers: 3,
        map: random.below(40) as usize,
    };
    if random.below(4) == 0 {
        unsettle(R::CAPACITY, &mut save, &mut room, random);
    }

    let mut tables = lent(&list, room);
    random.fill(&mut tables.map);
    let state = State {
        bump: save.bump,
        length: save.length,
        list,
    };
    // The Rust opens only what stands.
    comparison.hand_out::<R>(form, &save, &tables.pages, &tables.entries, || {
        R::hand_out(&R::open(&standing::<R>(&state, &save))?.start(save.count as usize))
    })?;

    let refusal = model::finish_at_once(R::CAPACITY, &save, &tables.pages, &tables.entries);
    if let Some(refusal) = refusal {
        refused::<R>(
            comparison,
            form,
            &save,
            &state.list,
            &tables,
            &freed,
            &refusal,
        );
        return Ok(());
    }
    let state = standing::<R>(&state, &save);
    let rust = R::open(&state)?;
    let finished = R::finish(rust.start(save.count as usize), &freed)?;
    let after = after(&rust, finished);
    let finish = Finish::new(form, &save, &state.list, &freed, &after);
    comparison.finishes::<R>(&finish, random);
    Ok(())
}

/// A finish that is refused whatever is freed, and leaves all that is lent.
fn refused<R: Rust>(
    comparison: &mut Comparison,
    form: Form,
    save: &Save,
    list: &List,
    tables: &Lent,
    freed: &[u32],
    refusal: &Reply,
) {
    let places = tables.entries.len() + freed.len() + tables.map.len();
    comparison
        .recorder
        .keep(4, R::PAGE_SIZE.to_string(), places, || {
            let (pages, entries) = model::size(list);
            Line::new(Kind::Finish)
                .save(R::PAGE_SIZE, save)
                .tables(tables, (pages, entries))
                .array(freed)
                .length(&tables.buffer)
                .length(&tables.numbers)
                .length(&tables.map)
                .reply(refusal)
                .places(&tables.pages, pages)
                .places(&tables.entries, entries)
                .places(&tables.buffer, 0)
                .places(&tables.numbers, 0)
                .map(tables.map.len(), 0)
        });
    let mut got = tables.clone();
    let reply = comparison.library.finish(form, save, freed, &mut got);
    comparison.reports[FINISH].compare(refusal, &reply, got == *tables, || {
        let (pages, entries) = (tables.pages.len(), tables.entries.len());
        format!(
            "page size {}, {save:?}, tables of {pages} and {entries}, {} freed",
            R::PAGE_SIZE,
            freed.len()
        )
    });
}

/// The state with just as much list as the save says, in the shape that this has.
fn standing<R: Rust>(state: &State, save: &Save) -> State {
    let pages = state.list.iter().map(|(page, _)| *page);
    let mut entries = state.list.iter().flat_map(|(_, entries)| entries).copied();
    let counts = model::counts(R::CAPACITY, save.pages as usize, save.entries as usize);
    let list = pages
        .zip(counts)
        .map(|(page, count)| (page, entries.by_ref().take(count).collect()))
        .collect();
    State {
        list,
        ..state.clone()
    }
}

/// How many entries are on each page of a list of any accepted shape, from the bottom page up.
fn any_counts(full: usize, random: &mut Random) -> Vec<usize> {
    let pages = random.below(5) as usize;
    let fragmented = pages >= 2 && random.below(4) == 0;
    let entries = match pages {
        0 => 0,
        _ if fragmented => full * (pages - 1),
        _ => full * (pages - 1) + 1 + random.below(full as u64) as usize,
    };
    model::counts(full, pages, entries)
}

/// A list with so many entries on each page, of the next numbers.
fn list_of(counts: &[usize], numbers: &mut Numbers) -> List {
    let mut page = |count: &usize| {
        let number = numbers.next()?;
        Some((number, numbers.take(*count).collect()))
    };
    counts.iter().map_while(&mut page).collect()
}

/// Puts another number in one place of the list, or of the freed numbers: one that is there already, one
/// near the limit, 0 or any.
fn twist(list: &mut List, freed: &mut [u32], limit: u64, random: &mut Random) {
    let on_list = list
        .iter_mut()
        .flat_map(|(page, entries)| [page].into_iter().chain(entries));
    let mut places: Vec<&mut u32> = on_list.chain(freed).collect();
    let Some(other) = places.len().checked_sub(1) else {
        return;
    };
    let mut place = || random.below(other as u64 + 1) as usize;
    let (from, to) = (place(), place());
    let near = (limit - 1)
        .saturating_add(random.below(4))
        .min(u32::MAX.into()) as u32;
    *places[to] = match random.below(8) {
        0..=3 => *places[from],
        4 | 5 => near,
        6 => 0,
        _ => random.of_any_length(32) as u32,
    };
}

fn any_bump(random: &mut Random) -> u32 {
    match random.below(8) {
        0 => LAST_BUMP as u32 - random.below(12) as u32,
        1 => 1 + random.below(LAST_BUMP) as u32,
        2 => 1 + random.below(20) as u32,
        _ => 1 + random.below(20_000) as u32,
    }
}

fn any_length(random: &mut Random) -> u32 {
    match random.below(3) {
        0 => 0,
        1 => 8192 * random.below(524_287) as u32,
        _ => random.of_any_length(32) as u32,
    }
}

/// Any count, often at the list's length or where the bump comes to its limit.
fn any_count(save: &Save, random: &mut Random) -> u64 {
    let entries = save.entries;
    match random.below(8) {
        0 => 0,
        1 => random.below(entries + 1),
        2 => entries,
        3 => entries + random.below(20_000),
        4 => entries + random.below(20),
        5 => {
            let limit = entries + LAST_BUMP - u64::from(save.bump);
            (limit + random.below(5)).saturating_sub(random.below(5))
        }
        6 => u64::MAX - random.below(3),
        _ => random.of_any_length(64),
    }
}

/// Makes the state one that need not stand: its bump, its shape or its tables.
fn unsettle(full: usize, save: &mut Save, room: &mut Room, random: &mut Random) {
    let full = full as u64;
    match random.below(9) {
        0 => save.bump = 0,
        1 => save.bump = (LAST_BUMP + 1 + random.below(3)) as u32,
        2 => save.bump = u32::MAX - random.below(3) as u32,
        3 => save.pages = save.pages.wrapping_add(1 + random.below(2)),
        4 => save.pages = save.pages.saturating_sub(1 + random.below(2)),
        5 => save.entries = (full * save.pages + 1).wrapping_add(random.below(2)),
        6 => {
            save.pages = random.bits();
            save.entries = match random.below(3) {
                0 => save.pages.wrapping_mul(full),
                1 => save.pages.wrapping_sub(1).wrapping_mul(full),
                _ => random.bits(),
            };
        }
        7 => room.pages = room.pages.saturating_sub(1),
        _ => room.entries = room.entries.saturating_sub(1),
    }
}

/// How many numbers are freed.
fn any_freed(full: usize, random: &mut Random) -> usize {
    match random.below(4) {
        0 => 0,
        1 => 1 + random.below(3) as usize,
        _ => random.below(4 * full as u64) as usize,
    }
}
