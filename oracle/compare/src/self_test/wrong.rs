//! The library, wrong in one way about its bit map or about numbers that occur twice. Where its number is
//! another than the library's, it does nothing else.

use crate::{
    lists,
    map::{in_use, is_cleared_by, is_too_short, repeats, REPEAT, TOO_SHORT},
    saves::{self, model::counts},
};
use mopsienna_sys::{Form, Lent, Reply, Save};

use Fault::*;

#[derive(Clone, Copy, Debug)]
pub enum Fault {
    /// The map is not cleared by a call that gives this number.
    KeepsMap(u32),
    /// The map is cleared by a call that gives this number, which has to leave it.
    ClearsMap(u32),
    /// A byte past those in use is cleared too.
    ClearsAByteMore,
    /// That the map is too short comes before the refusal of this number.
    MapBefore(u32),
    /// A number that occurs twice comes before a map that is too short.
    RepeatBeforeMap,
    /// A number that occurs twice comes after the refusal of this number.
    RepeatAfter(u32),
    /// Of reading: list pages are left out; of each page the entries are compared among themselves alone;
    /// entries of one page are not compared.
    WithoutListPages,
    OnOnePage,
    OnTwoPages,
    /// Of finishing: list pages that the save has emptied are left out; freed numbers are compared among
    /// themselves alone; they are not compared among themselves.
    WithoutEmptied,
    FreedAlone,
    FreedNot,
    /// An entry or a list page may lie at the bump that the numbers handed out past the list have raised.
    EntryAtBump,
    PageAtBump,
    /// They have to lie below the bump before that.
    BelowFirstBump,
    /// Entries that were handed out count too.
    HandedOut,
    /// Zeros are left out; there may be none.
    WithoutZeros,
    NoZero,
    /// Where nothing was popped and nothing is freed, numbers are not looked at; or the map is not, there
    /// and where the list is empty.
    NoRepeatUnchanged,
    NoMapUnchanged,
}

/// The faults that reading a list may have.
pub const OF_LISTS: [Fault; 13] = [
    KeepsMap(0),
    KeepsMap(REPEAT),
    KeepsMap(6),
    ClearsMap(TOO_SHORT),
    ClearsMap(5),
    ClearsAByteMore,
    MapBefore(5),
    RepeatBeforeMap,
    RepeatAfter(6),
    WithoutListPages,
    OnOnePage,
    OnTwoPages,
    NoMapUnchanged,
];

/// The faults that finishing a save may have.
pub const OF_FINISHES: [Fault; 23] = [
    KeepsMap(0),
    KeepsMap(REPEAT),
    KeepsMap(6),
    KeepsMap(9),
    ClearsMap(TOO_SHORT),
    ClearsMap(1),
    ClearsMap(8),
    ClearsAByteMore,
    MapBefore(8),
    RepeatBeforeMap,
    RepeatAfter(6),
    RepeatAfter(9),
    WithoutEmptied,
    FreedAlone,
    FreedNot,
    EntryAtBump,
    PageAtBump,
    BelowFirstBump,
    HandedOut,
    WithoutZeros,
    NoZero,
    NoRepeatUnchanged,
    NoMapUnchanged,
];

pub struct Wrong(pub Fault);

/// What matters of a call that the library has made.
struct Call {
    /// The number that it gave.
    number: u32,
    bits: u64,
    /// Whether a number occurs twice by the rules, and by those of the fault.
    repeats: bool,
    repeats_wrongly: bool,
    /// What it would have given if no number occurred twice, and the map were long enough.
    otherwise: u32,
    /// Whether there was nothing to be changed.
    unchanged: bool,
}

/// Maps of more bytes are none of the faults' concern.
const MOST_MAP: usize = 1 << 20;

impl Wrong {
    /// The number that the wrong library gives, if it is another one. The map was this before the call, and
    /// is left as the wrong library leaves it.
    fn number(&self, call: &Call, before: &[u8], map: &mut [u8]) -> Option<u32> {
        let is = |number| call.number == number;
        let cleared = is_cleared_by(call.number);
        match self.0 {
            KeepsMap(number) if is(number) => map.copy_from_slice(before),
            ClearsMap(number) if is(number) => map.fill(0),
            ClearsAByteMore if cleared => {
                if let Some(byte) = map.get_mut(in_use(call.bits)) {
                    *byte = 0;
                }
            }
            MapBefore(number) if is(number) && is_too_short(map.len(), call.bits) => {
                return Some(TOO_SHORT)
            }
            RepeatBeforeMap if is(TOO_SHORT) && call.repeats => return Some(REPEAT),
            RepeatAfter(number) if is(REPEAT) && call.otherwise == number => return Some(number),
            NoMapUnchanged if is(TOO_SHORT) && call.unchanged => return Some(call.otherwise),
            _ if cleared && call.repeats != call.repeats_wrongly => {
                return Some(match call.repeats {
                    true => call.otherwise,
                    false => REPEAT,
                });
            }
            _ => (),
        }
        None
    }

    /// Whether a number of a list that is read occurs twice by the rules of the fault.
    fn repeats_on(&self, list: &[(u32, Vec<u32>)]) -> bool {
        let mut numbers: Vec<u32> = match self.0 {
            OnOnePage => return list.iter().any(|(_, entries)| repeats(entries.clone())),
            WithoutListPages => vec![],
            _ => list.iter().map(|(page, _)| *page).collect(),
        };
        for (_, entries) in list {
            numbers.extend(match self.0 {
                OnTwoPages => once_each(entries),
                _ => entries.clone(),
            });
        }
        repeats(numbers)
    }

    /// Whether a number of a finish occurs twice by the rules of the fault.
    fn repeats_among(&self, numbers: &Numbers) -> bool {
        let Numbers {
            kept,
            emptied,
            left,
            handed,
            freed,
            bump,
            limit,
        } = numbers;
        let pages = [&kept[..], emptied].concat();
        let (pages_below, entries_below) = match self.0 {
            BelowFirstBump => (*bump, *bump),
            PageAtBump => (limit + 1, *limit),
            EntryAtBump => (*limit, limit + 1),
            _ => (*limit, *limit),
        };
        let is_past = |numbers: &[u32], limit| numbers.iter().any(|n| u64::from(*n) >= limit);
        let list = [&pages[..], left].concat();
        match self.0 {
            NoRepeatUnchanged if numbers.unchanged() => return false,
            NoZero if list.contains(&0) => return true,
            _ if is_past(&pages, pages_below) || is_past(left, entries_below) => return true,
            _ => (),
        }
        match self.0 {
            WithoutEmptied => repeats([&kept[..], left, freed].concat()),
            FreedAlone => repeats(list) || repeats(freed.clone()),
            FreedNot => repeats([list, once_each(freed)].concat()),
            HandedOut => repeats([&list[..], handed, freed].concat()),
            WithoutZeros => {
                let all = [&list[..], freed].concat();
                repeats(all.into_iter().filter(|number| *number != 0).collect())
            }
            _ => repeats([&list[..], freed].concat()),
        }
    }
}

/// The numbers of a finish.
struct Numbers {
    kept: Vec<u32>,
    emptied: Vec<u32>,
    left: Vec<u32>,
    handed: Vec<u32>,
    freed: Vec<u32>,
    bump: u64,
    limit: u64,
}

impl Numbers {
    /// Those of a save that stands.
    fn of(form: Form, save: &Save, freed: &[u32], lent: &Lent) -> Numbers {
        let (pages, entries) = (save.pages as usize, save.entries as usize);
        let popped = save.count.min(save.entries);
        let (left, handed) = lent.entries[..entries].split_at(entries - popped as usize);
        // Pages are emptied from the top down.
        let mut kept = 0;
        let mut below = 0;
        for count in counts((form.page_size() - 6) / 4, pages, entries) {
            kept += usize::from(below < left.len());
            below += count;
        }
        let (kept, emptied) = lent.pages[..pages].split_at(kept);
        let bump = u64::from(save.bump);
        Numbers {
            kept: kept.to_vec(),
            emptied: emptied.to_vec(),
            left: left.to_vec(),
            handed: handed.to_vec(),
            freed: freed.to_vec(),
            bump,
            limit: bump + save.count - popped,
        }
    }

    fn unchanged(&self) -> bool {
        self.handed.is_empty() && self.freed.is_empty()
    }
}

impl saves::Library for Wrong {
    fn read_list(
        &self,
        form: Form,
        store: &[u8],
        head: u32,
        pages: &mut [u32],
        entries: &mut [u32],
        map: &mut [u8],
    ) -> Reply {
        if map.len() > MOST_MAP {
            return form.read_list(store, head, pages, entries, map);
        }
        let (before, pages_before, entries_before) =
            (map.to_vec(), pages.to_vec(), entries.to_vec());
        let reply = form.read_list(store, head, pages, entries, map);
        let model = lists::model::read(form.page_size(), store, head);
        let list: Vec<(u32, Vec<u32>)> = model
            .list
            .iter()
            .flatten()
            .map(|(page, entries)| (page.0, entries.iter().map(|entry| entry.0).collect()))
            .collect();
        let right = Wrong(KeepsMap(u32::MAX));
        let call = Call {
            number: reply.number,
            bits: model.bits,
            repeats: right.repeats_on(&list),
            repeats_wrongly: self.repeats_on(&list),
            otherwise: match list.iter().map(|(_, entries)| entries.len()).sum::<usize>() {
                count if count > entries.len() || list.len() > pages.len() => 6,
                _ => 0,
            },
            unchanged: list.is_empty(),
        };
        match self.number(&call, &before, map) {
            Some(number) => {
                pages.copy_from_slice(&pages_before);
                entries.copy_from_slice(&entries_before);
                Reply::refusal(number, &[])
            }
            None => reply,
        }
    }

    fn hand_out(&self, form: Form, save: &Save, pages: &[u32], entries: &[u32]) -> Reply {
        form.hand_out(save, pages, entries)
    }

    fn finish(&self, form: Form, save: &Save, freed: &[u32], lent: &mut Lent) -> Reply {
        if lent.map.len() > MOST_MAP {
            return form.finish(save, freed, lent);
        }
        let before = lent.clone();
        let reply = form.finish(save, freed, lent);
        let call = match reply.number {
            // A save that does not stand, or goes past the limit, may have no such numbers.
            1 | 7 => Call {
                number: reply.number,
                bits: 0,
                repeats: false,
                repeats_wrongly: false,
                otherwise: reply.number,
                unchanged: false,
            },
            number => {
                let numbers = Numbers::of(form, save, freed, &before);
                Call {
                    number,
                    bits: numbers.limit,
                    repeats: Wrong(KeepsMap(u32::MAX)).repeats_among(&numbers),
                    repeats_wrongly: self.repeats_among(&numbers),
                    otherwise: otherwise(form, save, freed.len(), &before),
                    unchanged: numbers.unchanged(),
                }
            }
        };
        match self.number(&call, &before.map, &mut lent.map) {
            Some(number) => {
                let map = std::mem::take(&mut lent.map);
                *lent = Lent { map, ..before };
                Reply::refusal(number, &[])
            }
            None => reply,
        }
    }
}

/// What the library gives to a finish of such a save with so many numbers freed, if all numbers differ and
/// the map is long enough.
fn otherwise(form: Form, save: &Save, freed: usize, lent: &Lent) -> u32 {
    let (pages, entries) = (save.pages as usize, save.entries as usize);
    let mut numbers = 1..;
    let mut lent = lent.clone();
    let in_list = lent.pages[..pages]
        .iter_mut()
        .chain(&mut lent.entries[..entries]);
    for (place, number) in in_list.zip(&mut numbers) {
        *place = number;
    }
    let freed: Vec<u32> = numbers.by_ref().take(freed).collect();
    // Of what is past the list there is no need.
    let count = save.count.min(save.entries);
    let save = Save {
        bump: numbers.start,
        count,
        ..*save
    };
    lent.map = vec![0; in_use(numbers.start.into())];
    form.finish(&save, &freed, &mut lent).number
}

/// The numbers without those that are there already.
fn once_each(numbers: &[u32]) -> Vec<u32> {
    let mut numbers = numbers.to_vec();
    numbers.sort_unstable();
    numbers.dedup();
    numbers
}
