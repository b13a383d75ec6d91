//! The refusals of handing out and finishing, written from the documents' words and from neither
//! side's code. What a save that is not refused gives comes from the Rust.

use super::released;
use crate::map;
use mopsienna_sys::{Form, Lent, Reply, Save};
use nomt_plain::{List, Rust, State};

/// Refusals, by document 01's numbers; those of the bit map are document 02's.
pub const STATE: u32 = 1;
pub const TABLES: u32 = 6;
pub const LIMIT: u32 = 7;
pub const FREED: u32 = 8;
pub const BUFFER: u32 = 9;

/// The greatest bump, and one more than the greatest number that is handed out past the list.
pub const LAST_BUMP: u64 = 4_294_950_913;

/// What the Rust makes of a save.
pub struct After {
    pub head: u32,
    pub state: State,
    /// Pages to be written, each with its number, in the order encoded.
    pub written: Vec<(u32, Vec<u8>)>,
}

/// A finish, and what the Rust makes of it.
#[derive(Clone, Copy)]
pub struct Finish<'a> {
    pub form: Form,
    pub save: &'a Save,
    pub list: &'a List,
    pub freed: &'a [u32],
    /// What the Rust makes of as many freed numbers, whatever they are.
    pub after: &'a After,
    /// Whether a number is left that cannot be, or one occurs twice.
    pub repeats: bool,
}

impl<'a> Finish<'a> {
    pub fn new(
        form: Form,
        save: &'a Save,
        list: &'a List,
        freed: &'a [u32],
        after: &'a After,
    ) -> Finish<'a> {
        Finish {
            form,
            save,
            list,
            freed,
            after,
            repeats: repeats(save, list, freed),
        }
    }

    /// How many bits the map has to have.
    pub fn bits(&self) -> u64 {
        limit(self.save)
    }

    /// Its refusal, if it is refused, with these places lent and a map of so many bytes.
    pub fn refusal<R: Rust>(&self, lent: &Lent, map: usize) -> Option<Reply> {
        let refused = |number| Some(Reply::refusal(number, &[]));
        let at_once = finish_at_once(R::CAPACITY, self.save, &lent.pages, &lent.entries);
        if at_once.is_some() {
            return at_once;
        }
        if u64::from(self.after.state.bump) > LAST_BUMP {
            return refused(LIMIT);
        }
        if let Some(place) = bad_place(self.save, self.freed) {
            return Some(Reply::refusal(FREED, &[place as u64]));
        }
        if map::is_too_short(map, self.bits()) {
            return refused(map::TOO_SHORT);
        }
        if self.repeats {
            return refused(map::REPEAT);
        }
        let (pages, entries) = size(&self.after.state.list);
        if lent.pages.len() < pages || lent.entries.len() < entries {
            return refused(TABLES);
        }
        let written = self.after.written.len();
        if lent.buffer.len() < R::PAGE_SIZE * written || lent.numbers.len() < written {
            return refused(BUFFER);
        }
        None
    }
}

/// Whether an accepted list can have so many pages and entries.
pub fn is_shape(capacity: usize, pages: u64, entries: u64) -> bool {
    let [capacity, pages, entries] = [capacity as u128, pages.into(), entries.into()];
    match (pages, entries) {
        (0, 0) => true,
        (0, _) | (_, 0) => false,
        _ => capacity * (pages - 1) <= entries && entries <= capacity * pages,
    }
}

/// Whether an accepted list of so many pages and entries is fragmented.
pub fn is_fragmented(capacity: usize, pages: usize, entries: usize) -> bool {
    pages >= 2 && entries == capacity * (pages - 1)
}

/// How many entries stand on each page of such a list, from the bottom page up.
pub fn counts(capacity: usize, pages: usize, entries: usize) -> Vec<usize> {
    let mut counts = vec![capacity; pages];
    if is_fragmented(capacity, pages, entries) {
        counts[pages - 1] = 1;
        counts[pages - 2] = capacity - 1;
    } else if pages > 0 {
        counts[pages - 1] = entries - capacity * (pages - 1);
    }
    counts
}

/// How many pages and entries a list has.
pub fn size(list: &List) -> (usize, usize) {
    let entries = list.iter().map(|(_, entries)| entries.len()).sum();
    (list.len(), entries)
}

/// How many of the numbers handed out come from past the list.
fn past(save: &Save) -> u64 {
    save.count - save.count.min(save.entries)
}

/// What freed numbers have to be below, and the list's pages and the entries that are left: the bump,
/// and one more for each number handed out past the list. A map has a bit for each number below it.
pub fn limit(save: &Save) -> u64 {
    u64::from(save.bump) + past(save)
}

/// The entries that were not handed out, from the bottom up.
pub fn left(save: &Save, list: &List) -> Vec<u32> {
    let left = save.entries - save.count.min(save.entries);
    let entries = list.iter().flat_map(|(_, entries)| entries);
    entries.take(left as usize).copied().collect()
}

/// Whether a number is left that cannot be, or occurs twice: among all list pages, the entries left and
/// the freed numbers together. List pages and entries have to be below the limit.
fn repeats(save: &Save, list: &List, freed: &[u32]) -> bool {
    let mut numbers = left(save, list);
    numbers.extend(list.iter().map(|(page, _)| page));
    if numbers
        .iter()
        .any(|number| u64::from(*number) >= limit(save))
    {
        return true;
    }
    numbers.extend(freed);
    map::repeats(numbers)
}

/// What [`repeats`] finds: list pages and entries past the limit, numbers that occur twice on the list and
/// among the freed ones, and freed list pages, freed pages that this save has emptied and freed entries.
pub fn repeat_kind(save: &Save, list: &List, freed: &[u32]) -> String {
    let left = left(save, list);
    let pages: Vec<u32> = list.iter().map(|(page, _)| *page).collect();
    let popped = save.count.min(save.entries) as usize;
    let (kept, emptied) = pages.split_at(list.len() - released(list, popped));
    let is_past = |number: &u32| u64::from(*number) >= limit(save);
    let is_freed = |number: &u32| freed.contains(number);
    let kinds = [
        pages.iter().any(is_past),
        left.iter().any(is_past),
        map::repeats([&pages[..], &left].concat()),
        map::repeats(freed.to_vec()),
        kept.iter().any(is_freed),
        emptied.iter().any(is_freed),
        left.iter().any(is_freed),
    ];
    format!("{kinds:?}")
}

/// The place of the first freed number that is none, if there is one.
pub fn bad_place(save: &Save, freed: &[u32]) -> Option<usize> {
    let bad = |number: &u32| *number == 0 || u64::from(*number) >= limit(save);
    freed.iter().position(bad)
}

/// Whether all numbers of a state's list differ and lie below its bump.
pub fn is_sound(state: &State) -> bool {
    let pages = state.list.iter().map(|(page, _)| page);
    let entries = state.list.iter().flat_map(|(_, entries)| entries);
    let numbers: Vec<u32> = pages.chain(entries).copied().collect();
    numbers.iter().all(|number| *number < state.bump) && !map::repeats(numbers)
}

fn stands(capacity: usize, save: &Save, pages: &[u32], entries: &[u32]) -> bool {
    (1..=LAST_BUMP).contains(&save.bump.into())
        && is_shape(capacity, save.pages, save.entries)
        && pages.len() as u64 >= save.pages
        && entries.len() as u64 >= save.entries
}

/// The refusal of handing out a number, if it is refused.
pub fn hand_out(capacity: usize, save: &Save, pages: &[u32], entries: &[u32]) -> Option<Reply> {
    if !stands(capacity, save, pages, entries) {
        return Some(Reply::refusal(STATE, &[]));
    }
    let number = u128::from(save.bump) + u128::from(past(save));
    let limit = save.count >= save.entries && number > u128::from(LAST_BUMP - 1);
    limit.then(|| Reply::refusal(LIMIT, &[]))
}

/// The refusal of a finish, if it is refused before anything of the Rust's answer matters.
pub fn finish_at_once(
    capacity: usize,
    save: &Save,
    pages: &[u32],
    entries: &[u32],
) -> Option<Reply> {
    if !stands(capacity, save, pages, entries) {
        return Some(Reply::refusal(STATE, &[]));
    }
    let bump = u128::from(save.bump) + u128::from(past(save));
    (bump > LAST_BUMP.into()).then(|| Reply::refusal(LIMIT, &[]))
}
