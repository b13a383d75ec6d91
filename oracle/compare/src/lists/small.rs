//! Lists in small stores, at small page sizes, and some at 1,024 and at 4,096 bytes. They are recorded too.

use super::{expected, model, Comparison, Room};
use crate::{
    map,
    numbers::Numbers,
    record::{Kind, Line},
    Plan,
};
use common::{lists::Portions, Random, Store};
use mopsienna_sys::Form;
use nomt_plain::{List, Rust};
use std::io;

/// There is one list at each small page size for so many random cases of other operations, and fewer at
/// 1,024 and at 4,096 bytes; but as many as these where they are recorded.
const SHARE: u64 = 100;
const RECORDED: u64 = 4000;
const PANEL_SHARE: u64 = 4;
const LARGE_SHARE: u64 = 40;

/// Stores of pages like these have only a few of them, so that a line that is recorded is not too long.
const LARGE: usize = 1000;
const MOST_BYTES: usize = 30_000;

pub(super) fn each(plan: &Plan, comparison: &mut Comparison) -> io::Result<()> {
    let recorded = plan.recorder.is_on();
    let lists = if recorded {
        RECORDED
    } else {
        plan.count / SHARE
    };
    at::<nomt_16::Plain>(plan, comparison, Form::Sized(16), lists)?;
    at::<nomt_20::Plain>(plan, comparison, Form::Sized(20), lists)?;
    at::<nomt_24::Plain>(plan, comparison, Form::Sized(24), lists)?;
    at::<nomt_28::Plain>(plan, comparison, Form::Sized(28), lists)?;
    at::<nomt_32::Plain>(plan, comparison, Form::Sized(32), lists)?;
    at::<nomt_1024::Plain>(plan, comparison, Form::Panel, lists / PANEL_SHARE)?;
    let large = lists / LARGE_SHARE;
    at::<nomt_4096::Plain>(plan, comparison, Form::Sized(4096), large)
}

fn at<R: Rust>(plan: &Plan, comparison: &mut Comparison, form: Form, lists: u64) -> io::Result<()> {
    let mut random = Random::new(plan.seed);
    for list in 0..lists {
        let most_pages = 1 + u64::from((list + 1).ilog2() / 2);
        let counts = random_counts::<R>(most_pages, &mut random);
        // Mostly there are pages enough for numbers that all differ.
        let entries = match random.below(4) {
            0 => 0,
            _ => counts.iter().sum(),
        };
        let most_entries = (MOST_BYTES / R::PAGE_SIZE).saturating_sub(counts.len() + 3);
        let pages = counts.len() + entries.min(most_entries) + 1 + random.below(3) as usize;
        let partial = random.pick(&[0, 0, 1, R::PAGE_SIZE - 1]);
        let mut store = Store::new(pages * R::PAGE_SIZE + partial)?;
        fill::<R>(store.bytes_mut(), &counts, &mut random);
        if random.below(3) == 0 {
            let place = random.below(store.bytes().len() as u64) as usize;
            store.bytes_mut()[place] = random.below(4) as u8;
        }
        let cut = random.below(store.bytes().len() as u64) as usize;
        if random.below(20) == 0 {
            store.cut(cut)?;
        }
        let head = match random.below(8) {
            0 => cut as u32 % 9,
            _ => counts.len() as u32,
        };
        one::<R>(plan, comparison, form, &store, head, &mut random)?;
    }
    Ok(())
}

/// How many entries are on each page of a list, from the bottom page up. Where a page holds many, there are
/// often only a few.
fn random_counts<R: Rust>(most_pages: u64, random: &mut Random) -> Vec<usize> {
    let pages = random.below(1 + most_pages) as usize;
    if pages == 1 && R::PAGE_SIZE > LARGE && random.below(2) == 0 {
        return vec![1 + random.below(4) as usize];
    }
    let mut counts = vec![R::CAPACITY; pages];
    match counts.as_mut_slice() {
        [.., under, head] if random.below(4) == 0 => (*under, *head) = (R::CAPACITY - 1, 1),
        [.., head] => *head = 1 + random.below(R::CAPACITY as u64) as usize,
        [] => (),
    }
    counts
}

/// Writes a list with so many entries on each page to the pages from 1 up. The entries are pages of the
/// store in any order, those behind the list mostly.
fn fill<R: Rust>(store: &mut [u8], counts: &[usize], random: &mut Random) {
    let page_count = (store.len() / R::PAGE_SIZE) as u64;
    let behind = counts.len() as u64 + 1;
    let least = match random.below(4) {
        0 => 1,
        _ => behind.min(page_count - 1).max(1),
    };
    let mut numbers = Numbers::new(least..page_count.max(2), random);
    for (below, count) in counts.iter().enumerate() {
        let bytes = &mut store[(below + 1) * R::PAGE_SIZE..][..R::PAGE_SIZE];
        bytes[0] = below as u8;
        bytes[4..6].copy_from_slice(&(*count as u16).to_le_bytes());
        for (place, entry) in bytes[6..]
            .chunks_exact_mut(4)
            .zip(numbers.by_ref().take(*count))
        {
            place.copy_from_slice(&entry.to_le_bytes());
        }
    }
}

/// Compares the reading of a list, with room near to what it needs, and records it.
fn one<R: Rust>(
    plan: &Plan,
    comparison: &mut Comparison,
    form: Form,
    store: &Store,
    head: u32,
    random: &mut Random,
) -> io::Result<()> {
    let model = model::read(R::PAGE_SIZE, store.bytes(), head);
    let text = || {
        format!(
            "page size {}, head {head}, store {:?}",
            R::PAGE_SIZE,
            store.bytes()
        )
    };
    let (page_count, entry_count) = match &model.list {
        Ok(list) => {
            let rust = R::read(store.file(), head)?.list;
            if rust != plain(list) {
                comparison
                    .report
                    .disagree_at_call("the Rust reads another list", text);
            }
            model::size(list)
        }
        Err(_) => (0, 0),
    };
    let room = Room {
        pages: any_room(page_count, random),
        entries: any_room(entry_count, random),
        map: any_room(map::in_use(model.bits), random),
    };
    comparison.check_library(form, store.bytes(), head, &model, room, text);

    let (reply, tables) = expected(&model, room);
    let (most, kept) = match reply.number {
        0 => (44, (page_count, entry_count)),
        map::REPEAT => (12, (0, 0)),
        _ => (4, (0, 0)),
    };
    let bytes = store.bytes();
    let class = format!("{} harmed", R::PAGE_SIZE);
    let found = matches!(reply.number, 0 | map::REPEAT);
    let large = R::PAGE_SIZE > LARGE;
    let long = found && (page_count > 1 || large && page_count > 0);
    let fragmented = page_count > 1 && entry_count == R::CAPACITY * (page_count - 1);
    let told_apart = page_count.min(if large { 2 } else { 4 });
    let shape = format!("{} {told_apart} {fragmented}", R::PAGE_SIZE);
    plan.recorder.keep(most, class, bytes.len(), || {
        Line::new(Kind::ReadList)
            .number(R::PAGE_SIZE as u64)
            .number(head)
            .array(bytes)
            .length(&tables.pages)
            .length(&tables.entries)
            .number(room.map as u64)
            .reply(&reply)
            .places(&tables.pages, kept.0)
            .places(&tables.entries, kept.1)
            .map(room.map, map::cleared_by(&reply, model.bits))
            .long(long.then_some(shape))
    });
    Ok(())
}

fn plain(list: &Portions) -> List {
    let entries = list.iter().map(|(_, entries)| entries);
    let entries = entries.map(|entries| entries.iter().map(|entry| entry.0).collect());
    list.iter().map(|(page, _)| page.0).zip(entries).collect()
}

/// A length for so many places: just so many, more, or one less.
fn any_room(length: usize, random: &mut Random) -> usize {
    match random.below(8) {
        0 => length.saturating_sub(1),
        1 => length + 1,
        2 => length + 3,
        _ => length,
    }
}
