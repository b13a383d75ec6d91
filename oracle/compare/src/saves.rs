//! `hand_out` and `finish`: the numbers that a save hands out, and its end with a new list, at
//! several page sizes.
//!
//! The Rust's `SyncAllocator` hands out from the same state, and its `SyncFinisher` finishes. Where
//! a call is refused comes from a model of the documents; the Rust has no refusals. Lists that saves
//! made are read back by both sides.

mod calls;
mod differences;
mod finishes;
mod fixed;
mod history;
mod kinds;
mod large;
pub mod lent;
mod library;
pub mod model;
mod repeats;
mod states;

use crate::{map, record::Recorder, report::Report, Plan};
use common::Random;
use kinds::KINDS;
use model::After;
use mopsienna_sys::{Form, Save};
use nomt_plain::{Finished, List, Rust, State};
use std::{collections::BTreeMap, io};

pub use library::{Library, Linked};

/// There are so many saves in random histories, and as many random states, for this many random
/// cases of other operations, at each of the small page sizes.
pub const RANDOM_SHARE: u64 = 10;

/// The reports, in this order.
pub const HAND_OUT: usize = 0;
pub const FINISH: usize = 1;
pub const READ_BACK: usize = 2;

pub const OPERATIONS: [&str; 3] = ["hand_out", "finish", "read_list after a save"];

/// Compares the library's `hand_out` and `finish`, and its `read_list` of what they made.
pub fn compare(plan: &Plan, library: &dyn Library) -> io::Result<[Report; 3]> {
    let mut comparison = Comparison::new(library, &plan.recorder, OPERATIONS);
    comparison.page_sizes();
    comparison.group = "document 01".into();
    fixed::each::<nomt_4096::Plain>(&mut comparison, Form::Fixed)?;
    fixed::each::<nomt_4096::Plain>(&mut comparison, Form::Sized(4096))?;
    differences::each::<nomt_4096::Plain>(&mut comparison, Form::Fixed)?;
    comparison.repeats::<nomt_4096::Plain>(Form::Fixed, plan.short)?;
    comparison.repeats::<nomt_1024::Plain>(Form::Panel, plan.short)?;
    comparison.group = "large maps".into();
    large::each::<nomt_4096::Plain>(&mut comparison, Form::Fixed, plan, &[0, 2])?;
    large::each::<nomt_16::Plain>(&mut comparison, Form::Sized(16), plan, &[4])?;

    let most_pages = match (plan.short, plan.count) {
        (true, 0..=10_000) => 1,
        (true, _) => 4,
        _ => 7,
    };
    let saves = plan.count / RANDOM_SHARE;
    let seed = plan.seed;
    comparison.small::<nomt_16::Plain>(16, most_pages, seed, saves)?;
    comparison.small::<nomt_20::Plain>(20, most_pages, seed, saves)?;
    comparison.small::<nomt_24::Plain>(24, most_pages, seed, saves)?;
    comparison.small::<nomt_28::Plain>(28, most_pages, seed, saves)?;
    comparison.small::<nomt_32::Plain>(32, most_pages, seed, saves)?;
    comparison.random::<nomt_1024::Plain>(Form::Panel, seed, saves / 20)?;
    comparison.random::<nomt_1024::Plain>(Form::Sized(1024), seed, saves / 100)?;
    comparison.random::<nomt_4096::Plain>(Form::Sized(4096), seed, saves / 100)?;
    comparison.random::<nomt_4096::Plain>(Form::Fixed, seed, saves / 50)?;
    comparison.most_map = LONG_MAP;
    comparison.long::<nomt_4096::Plain>(Form::Fixed, seed, long_histories(plan))?;
    comparison.long::<nomt_1024::Plain>(Form::Panel, seed, long_histories(plan))?;
    Ok(comparison.finish(REPLIES))
}

/// How many histories go over lists of more pages than a page holds entries.
fn long_histories(plan: &Plan) -> u64 {
    match (plan.short, plan.count) {
        (true, 0..=10_000) => 0,
        (true, _) => 2,
        _ => 20,
    }
}

/// Maps up to so many bytes are lent to every finish; longer ones only to those of `large.rs`, and to
/// the others one that is too short. Those of long lists are longer.
const MOST_MAP: usize = 1 << 17;
const LONG_MAP: usize = 1 << 21;

pub struct Comparison<'a> {
    library: &'a dyn Library,
    recorder: &'a Recorder,
    pub reports: [Report; 3],
    /// What maps hold before a call.
    random: Random,
    large: map::Large,
    most_map: usize,
    /// What the saves at hand are called.
    pub group: String,
    /// By group: how many saves, and how many were of each kind that has a way of its own through
    /// the finish.
    kinds: BTreeMap<String, (u64, [u64; KINDS.len()])>,
}

/// The replies that have to be reached, and no others, by report.
const REPLIES: [&[u32]; 3] = [
    &[0, model::STATE, model::LIMIT],
    &[
        0,
        model::STATE,
        model::TABLES,
        model::LIMIT,
        model::FREED,
        model::BUFFER,
        map::TOO_SHORT,
        map::REPEAT,
    ],
    &[0, map::TOO_SHORT],
];

impl<'a> Comparison<'a> {
    pub fn new(
        library: &'a dyn Library,
        recorder: &'a Recorder,
        operations: [&'static str; 3],
    ) -> Comparison<'a> {
        Comparison {
            library,
            recorder,
            reports: operations.map(Report::new),
            random: Random::new(0),
            large: map::Large::default(),
            most_map: MOST_MAP,
            group: String::new(),
            kinds: BTreeMap::new(),
        }
    }

    /// At a small page size also every save up to some size.
    fn small<R: Rust>(
        &mut self,
        size: u64,
        most_pages: usize,
        seed: u64,
        saves: u64,
    ) -> io::Result<()> {
        let form = Form::Sized(size);
        self.group = format!("{form}, every save up to {most_pages} pages");
        let mut random = Random::new(seed);
        history::every::<R>(self, form, most_pages, &mut random)?;
        self.repeats::<R>(form, most_pages == 1)?;
        self.random::<R>(form, seed, saves)
    }

    /// Saves with numbers that occur twice.
    fn repeats<R: Rust>(&mut self, form: Form, few: bool) -> io::Result<()> {
        self.group = format!("{form}, numbers twice");
        repeats::each::<R>(self, form, few)
    }

    /// Random histories of so many saves altogether, and as many random states.
    fn random<R: Rust>(&mut self, form: Form, seed: u64, saves: u64) -> io::Result<()> {
        self.group = format!("{form}, random");
        history::each::<R>(self, form, seed, saves)?;
        states::each::<R>(self, form, seed, saves)
    }

    /// So many histories over long lists.
    fn long<R: Rust>(&mut self, form: Form, seed: u64, histories: u64) -> io::Result<()> {
        self.group = format!("{form}, long lists");
        for long in 0..histories {
            let mut random = Random::new(seed + long);
            history::long::<R>(self, form, long % 2 == 0, &mut random)?;
        }
        Ok(())
    }

    /// Adds what was reached, and a disagreement if it is not just these replies, and for each kind
    /// that was not.
    pub fn finish(mut self, replies: [&[u32]; 3]) -> [Report; 3] {
        for (report, numbers) in self.reports.iter_mut().zip(replies) {
            report.reached(numbers);
        }
        for (at, kind) in KINDS.into_iter().enumerate() {
            if self.kinds.values().all(|(_, kinds)| kinds[at] == 0) {
                self.reports[FINISH].disagree(u64::MAX, || format!("no save with {kind}"));
            }
        }
        let heading = format!("saves: all; {}", KINDS.join("; "));
        self.reports[FINISH].note(heading);
        for (group, (saves, kinds)) in &self.kinds {
            let kinds = kinds.map(|saves| saves.to_string()).join("; ");
            self.reports[FINISH].note(format!("{group}: {saves}; {kinds}"));
        }
        self.reports
    }
}

/// What the Rust's finish gave, with the state that the store has after it.
pub fn after<R: Rust>(store: &R, finished: Finished) -> After {
    let state = store.state();
    assert_eq!(state.bump, finished.bump);
    After {
        head: finished.head,
        state,
        written: finished.written,
    }
}

/// A save of a store in this state.
pub fn open_save(state: &State, count: u64) -> Save {
    let (pages, entries) = model::size(&state.list);
    Save {
        bump: state.bump,
        length: state.length,
        pages: pages as u64,
        entries: entries as u64,
        count,
    }
}

/// How many pages are emptied by so many pops.
fn released(list: &List, mut popped: usize) -> usize {
    let mut released = 0;
    for (_, entries) in list.iter().rev() {
        if popped < entries.len() {
            break;
        }
        popped -= entries.len();
        released += 1;
    }
    released
}
