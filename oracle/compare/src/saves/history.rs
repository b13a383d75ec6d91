//! Histories: save after save over one store of the Rust, whose list pages are written and read
//! back after every save.

use super::{
    after,
    lent::{lent, Room},
    model::{self, Finish},
    open_save, released, Comparison, Form,
};
use common::{Random, Store};
use nomt_plain::{List, Rust, State};
use std::io;

/// How many pages the stores of histories can have.
const MOST_PAGES: usize = 1 << 23;

/// A history ends when its bump passes this. Small list pages take up numbers so fast that lists
/// would grow without end, and the library takes some stack for each whole page that comes to the
/// top.
const fn most_bump(full: usize) -> u32 {
    4000 + 400 * full as u32
}

/// Goes on with further histories until so many saves were made. Later ones are longer.
pub fn each<R: Rust>(
    comparison: &mut Comparison,
    form: Form,
    seed: u64,
    saves: u64,
) -> io::Result<()> {
    let mut random = Random::new(seed);
    let mut made = 0;
    while made < saves {
        let bump = 1 + random.below(40) as u32;
        let length = random.pick(&[0, bump - 1, bump, bump + 1, 8192]);
        let state = State {
            bump,
            length,
            list: vec![],
        };
        let mut history = History::<R>::new(form, &state, (1..bump).collect())?;
        let most_saves = 1 + random.below(2 + 5 * u64::from((made + 1).ilog2()));
        for _ in 0..most_saves {
            if history.state.bump > most_bump(R::CAPACITY) {
                break;
            }
            let count = any_count(R::CAPACITY, &history.state.list, &mut random);
            history.hand_out(comparison, count)?;
            let freed = any_freed(&history, count, &mut random);
            let freed = history.take_used(freed, &mut random);
            history.finish(comparison, freed, &mut random)?;
            made += 1;
        }
    }
    Ok(())
}

/// One save for every shape of a list of up to so many pages, every count of numbers handed out up
/// to two past the list, and every count of numbers freed up to what so many pages hold.
pub fn every<R: Rust>(
    comparison: &mut Comparison,
    form: Form,
    most_pages: usize,
    random: &mut Random,
) -> io::Result<()> {
    let full = R::CAPACITY;
    for pages in 0..=most_pages {
        for entries in 0..=full * pages {
            if !model::is_shape(full, pages as u64, entries as u64) {
                continue;
            }
            for count in 0..=entries + 2 {
                for freed in 0..=full * most_pages {
                    let state = in_order(&model::counts(full, pages, entries), freed as u32);
                    let used = (state.bump - freed as u32..state.bump).collect();
                    let mut history = History::<R>::new(form, &state, used)?;
                    history.write_list(&state.list);
                    history.hand_out(comparison, count)?;
                    let freed = history.used[..freed].to_vec();
                    history.finish(comparison, freed, random)?;
                }
            }
        }
    }
    Ok(())
}

/// A state with so many entries on each page, from the bottom page up, and so many numbers in use:
/// each page is followed by its entries, and the numbers in use come last.
fn in_order(counts: &[usize], used: u32) -> State {
    let mut numbers = 1..;
    let mut list: List = vec![];
    for count in counts {
        // The range does not end.
        let page = numbers.next().unwrap();
        list.push((page, numbers.by_ref().take(*count).collect()));
    }
    let bump = numbers.start + used;
    State {
        bump,
        length: bump,
        list,
    }
}

/// A history over a list of more pages than a page has places, in which so many numbers are freed
/// that more new pages are needed than the top page has entries. With `few` on the top page even
/// the page under it, which is full, is used up.
pub fn long<R: Rust>(
    comparison: &mut Comparison,
    form: Form,
    few: bool,
    random: &mut Random,
) -> io::Result<()> {
    let full = R::CAPACITY;
    let list_pages = full + 1 + random.below(4) as usize;
    let mut counts = vec![full; list_pages];
    if few {
        counts[list_pages - 1] = 1 + random.below(8) as usize;
    }
    let used = (full * (full + 40)) as u32;
    let state = in_order(&counts, used);
    let (_, entries) = model::size(&state.list);
    let used = (state.bump - used..state.bump).collect();
    let mut history = History::<R>::new(form, &state, used)?;
    history.write_list(&state.list);

    // Whole pages come to the top; the list is left fragmented, and then mended; more than all of
    // it is handed out; as many numbers are freed again, in two saves.
    for (count, freed) in [
        (0, full * (full + 20)),
        (random.below(3 * full as u64) as usize, full),
        (0, full),
        (0, 2 * full),
        (entries + full * full, 0),
        (1, entries),
        (full / 2, full * full),
    ] {
        history.hand_out(comparison, count)?;
        let most = freed.min(history.used.len());
        let freed = match random.below(3) {
            0 => most,
            _ if freed == 0 => 0,
            _ => history.forced(count, most / (full + 1)),
        };
        let freed = history.take_used(freed, random);
        history.finish(comparison, freed, random)?;
    }
    Ok(())
}

struct History<R: Rust> {
    form: Form,
    rust: R,
    /// The Rust's save, and how many numbers it handed out.
    open: Option<(R::Save, u64)>,
    /// The state before the save that is open.
    state: State,
    /// Numbers that were handed out and not freed.
    used: Vec<u32>,
    /// The store from which lists are read back; it has as many pages as the bump says.
    store: Store,
}

impl<R: Rust> History<R> {
    fn new(form: Form, state: &State, used: Vec<u32>) -> io::Result<History<R>> {
        Ok(History {
            form,
            rust: R::open(state)?,
            open: None,
            state: state.clone(),
            used,
            store: Store::new(MOST_PAGES * R::PAGE_SIZE)?,
        })
    }

    /// Opens a save and hands out so many numbers on both sides.
    fn hand_out(&mut self, comparison: &mut Comparison, count: usize) -> io::Result<()> {
        let (pages, entries) = model::size(&self.state.list);
        let tables = lent(&self.state.list, Room::tables(pages + 2, entries + 5));
        let open = self.rust.start(0);
        let mut save = open_save(&self.state, 0);
        for handed in 0..count {
            let (more_pages, more_entries) = if handed % 2 == 0 { (2, 5) } else { (0, 0) };
            let mut got = (0, 0);
            comparison.hand_out::<R>(
                self.form,
                &save,
                &tables.pages[..pages + more_pages],
                &tables.entries[..entries + more_entries],
                || {
                    got = R::hand_out(&open)?;
                    Ok(got)
                },
            )?;
            self.used.push(got.0);
            save.count += 1;
            save.length = got.1;
        }
        // The finish is given the length that the last number left.
        self.state.length = save.length;
        self.open = Some((open, count as u64));
        Ok(())
    }

    /// Finishes the open save on both sides, writes the pages and reads the list back.
    fn finish(
        &mut self,
        comparison: &mut Comparison,
        freed: Vec<u32>,
        random: &mut Random,
    ) -> io::Result<()> {
        // A save was opened before.
        let (open, count) = self.open.take().unwrap();
        let after = after(&self.rust, R::finish(open, &freed)?);
        let save = open_save(&self.state, count);
        let list = &self.state.list;
        let finish = Finish::new(self.form, &save, list, &freed, &after);
        comparison.finishes::<R>(&finish, random);
        comparison.kind::<R>(&finish);

        self.store
            .set_length(after.state.bump as usize * R::PAGE_SIZE)?;
        for (page, bytes) in &after.written {
            self.store.bytes_mut()[*page as usize * R::PAGE_SIZE..][..R::PAGE_SIZE]
                .copy_from_slice(bytes);
        }
        comparison.read_back::<R>(self.form, &self.store, &after)?;
        self.state = after.state;
        Ok(())
    }

    /// Writes a list to the store, for a history that does not start with an empty one.
    fn write_list(&mut self, list: &List) {
        let mut previous = 0;
        for (page, entries) in list {
            let bytes = &mut self.store.bytes_mut()[*page as usize * R::PAGE_SIZE..];
            bytes[..4].copy_from_slice(&u32::to_le_bytes(previous));
            bytes[4..6].copy_from_slice(&(entries.len() as u16).to_le_bytes());
            for (place, entry) in bytes[6..].chunks_exact_mut(4).zip(entries) {
                place.copy_from_slice(&entry.to_le_bytes());
            }
            previous = *page;
        }
    }

    /// How many freed numbers leave, behind so many handed out, just one number too few places
    /// once `more` pages were popped: the page that is popped then gets a single entry.
    fn forced(&self, handed: usize, more: usize) -> usize {
        let full = R::CAPACITY;
        let list = &self.state.list;
        let (pages, entries) = model::size(list);
        let popped = handed.min(entries);
        let released = released(list, popped);
        let counts = model::counts(full, pages, entries);
        let below: usize = counts[..pages - released].iter().sum();
        let top = match (pages - released).checked_sub(1) {
            Some(top) => counts[top] - (below - (entries - popped)),
            None => 0,
        };
        let room = match top {
            _ if popped == 0 && model::is_fragmented(full, pages, entries) => 0,
            0 => 0,
            1 => full,
            _ => full - (top - 1),
        };
        (room + more * (full + 1)).saturating_sub(released)
    }

    /// Takes so many numbers out of those in use, in any order.
    fn take_used(&mut self, count: usize, random: &mut Random) -> Vec<u32> {
        (0..count.min(self.used.len()))
            .map(|_| {
                let place = random.below(self.used.len() as u64) as usize;
                self.used.swap_remove(place)
            })
            .collect()
    }
}

/// How many numbers to hand out: none, few, many, all of the list and more, and so many that few
/// are left on the top page.
fn any_count(full: usize, list: &List, random: &mut Random) -> usize {
    let (_, entries) = model::size(list);
    let mut below = |limit: usize| random.below(limit as u64) as usize;
    match below(11) {
        0..=2 => 0,
        3 => 1 + below(3),
        4 => below(entries + 1),
        5 => entries,
        6 => entries + 1 + below(2),
        7 => below(2 * full + 2),
        8 => entries + below(3 * full + 1),
        _ => {
            let top = list.last().map_or(0, |(_, entries)| entries.len());
            (top + full * below(list.len().min(2) + 1)).saturating_sub(1 + below(3))
        }
    }
}

/// How many numbers to free: none, few, many, all, and as many as fit a page's edge.
fn any_freed<R: Rust>(history: &History<R>, handed: usize, random: &mut Random) -> usize {
    let full = R::CAPACITY;
    let used = history.used.len();
    let mut below = |limit: usize| random.below(limit as u64) as usize;
    match below(9) {
        0 | 1 => 0,
        2 => 1 + below(3),
        3 => below(2 * full),
        4 => used,
        5 => below(used + 1),
        _ => {
            let more = below(1 + used / (full + 1));
            (history.forced(handed, more) + below(3)).saturating_sub(1)
        }
    }
}
