//! Histories of saves, each cut in many ways.

use crate::{
    disk::{Disk, Write},
    save::{next, Finished, Load, State},
};
use mopsienna_sys::Form;
use random::Random;
use std::fmt;

/// Saves of up to so many writes are cut in every way.
const ALL_SUBSETS: usize = 12;

/// What is done to the finish's pages before they are written, to see that it is noticed.
#[derive(Clone, Copy, PartialEq)]
pub enum Harm {
    None,
    /// A list page goes to a number that this save frees.
    FreedReused,
    /// A list page goes to the number of the old head.
    HeadInPlace,
}

#[derive(Default)]
pub struct Tally {
    pub saves: u64,
    pub cuts: u64,
    pub in_every_way: u64,
    pub most_writes: usize,
    pub lost: u64,
    /// The first loss: its save and which of the writes came through.
    pub first_loss: Option<String>,
}

impl fmt::Display for Tally {
    fn fmt(&self, f: &mut fmt::Formatter<'_>) -> fmt::Result {
        write!(
            f,
            "{} saves, {} of them cut in every way, up to {} writes; {} cuts, {} lost",
            self.saves, self.in_every_way, self.most_writes, self.cuts, self.lost
        )
    }
}

pub struct Plan {
    pub form: Form,
    pub saves: u64,
    /// Random cuts of a save that is too long to be cut in every way.
    pub cuts: u64,
    pub harm: Harm,
}

/// Makes a history of saves from an empty store and cuts each of them.
pub fn run(plan: &Plan, seed: u64) -> Tally {
    let size = plan.form.page_size();
    let mut random = Random::new(seed);
    let mut disk = Disk::new(size, 1);
    let mut state = State::empty();
    let mut tally = Tally::default();
    for number in 0..plan.saves {
        let load = load(size, state.values.len(), &mut random);
        let finished = next(plan.form, &state, &disk, &load, &mut random);
        let writes = harmed(plan.harm, &state, &finished);
        tally.saves += 1;
        tally.most_writes = tally.most_writes.max(writes.len());
        cut(
            plan,
            &state,
            &writes,
            &mut disk,
            &mut random,
            &mut tally,
            number,
        );
        go_on(plan.form, &mut state, finished, &mut disk, &mut random);
    }
    tally
}

/// Small saves mostly, and now and then a long recording.
fn load(size: usize, values: usize, random: &mut Random) -> Load {
    let body = size - 4;
    let long = random.below(24) == 0;
    let largest = match (long, random.below(3)) {
        (true, _) => 400 * body,
        (_, 0) => 20 * body,
        _ => 3 * body,
    };
    Load {
        values: random.below(3),
        largest,
        deleted: if values > 5 { 3 } else { random.below(3) },
        spoilt: random.below(6) / 4,
    }
}

/// The writes of the save, with the harm done to the first list page among them.
fn harmed(harm: Harm, state: &State, finished: &Finished) -> Vec<Write> {
    let mut writes = finished.writes.clone();
    let first = writes.len() - finished.list_pages;
    let number = match harm {
        Harm::None => None,
        Harm::FreedReused => finished.freed.first().copied(),
        Harm::HeadInPlace => Some(state.head).filter(|head| *head != 0),
    };
    if let (Some(number), Some(write)) = (number, writes.get_mut(first)) {
        write.number = number;
    }
    writes
}

/// Tries cuts of the save: after each one the state reads as before.
fn cut(
    plan: &Plan,
    state: &State,
    writes: &[Write],
    disk: &mut Disk,
    random: &mut Random,
    tally: &mut Tally,
    save: u64,
) {
    let size = plan.form.page_size();
    let every = writes.len() <= ALL_SUBSETS;
    tally.in_every_way += u64::from(every);
    let count = if every { 1 << writes.len() } else { plan.cuts };
    for index in 0..count {
        let chosen = if every {
            subset(writes, index)
        } else {
            some(writes, random)
        };
        let order = shuffled(chosen, random);
        let mut extra = vec![0; random.below(3 * size as u64) as usize];
        random.fill(&mut extra);
        let undo = disk.cut(&extra, &order);
        tally.cuts += 1;
        if !state.reads(plan.form, &disk.store) {
            tally.lost += 1;
            let numbers: Vec<u32> = order.iter().map(|write| write.number).collect();
            tally.first_loss.get_or_insert_with(|| {
                format!("page size {size}, save {save}, pages written: {numbers:?}")
            });
        }
        disk.take_back(undo);
    }
}

/// Those of the writes whose bits are set.
fn subset(writes: &[Write], bits: u64) -> Vec<&Write> {
    let chosen = |place: usize| bits >> place & 1 == 1;
    (0..writes.len())
        .filter(|place| chosen(*place))
        .map(|place| &writes[place])
        .collect()
}

/// A random part of the writes: few of them, about half, or nearly all.
fn some<'a>(writes: &'a [Write], random: &mut Random) -> Vec<&'a Write> {
    let share = random.pick(&[1, 8, 15, 16]);
    writes.iter().filter(|_| random.below(16) < share).collect()
}

fn shuffled<'a>(mut writes: Vec<&'a Write>, random: &mut Random) -> Vec<&'a Write> {
    for last in (1..writes.len()).rev() {
        writes.swap(last, random.below(last as u64 + 1) as usize);
    }
    writes
}

/// Goes on from the old head after a cut, or from the new one after all is written.
fn go_on(form: Form, state: &mut State, finished: Finished, disk: &mut Disk, random: &mut Random) {
    let back = random.below(4) == 0;
    let order = if back {
        shuffled(some(&finished.writes, random), random)
    } else {
        shuffled(finished.writes.iter().collect(), random)
    };
    disk.cut(&[], &order);
    if back {
        return;
    }
    // The host makes the store as long as recorded, so that freed numbers past its end are pages of it.
    let recorded = form.page_size() * finished.next.bump as usize;
    if disk.store.len() < recorded {
        disk.store.resize(recorded, 0);
    }
    *state = finished.next;
    assert!(
        state.reads(form, &disk.store),
        "a save that was written whole reads"
    );
}
