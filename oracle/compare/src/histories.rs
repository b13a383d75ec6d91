//! Histories of saves with values, at several page sizes. A save deletes some values, writes others
//! and finishes; then the list and every value are read back from the store's bytes. Some saves are
//! given up, and the history goes on from the list before them.
//!
//! Both sides go through all of it, and what they give is compared as for saves and values alone.
//! The Rust writes values within its own save, which hands out their numbers. Some values are by the new
//! total where that is another: to these the Rust hands out numbers, and their pages are the model's.

mod history;
mod save;

use crate::{
    map,
    record::Recorder,
    report::Report,
    saves::{self, model as save_model},
    values::{self, model as value_model},
    Plan,
};
use common::Random;
use history::History;
use mopsienna_sys::Form;
use nomt_plain::Values;
use std::{collections::BTreeMap, io};

/// There is one save for so many random cases of other operations, at each of the small page sizes;
/// but as many as reach all that has to be.
pub const RANDOM_SHARE: u64 = 100;
const LEAST_SAVES: u64 = 200;

pub const SAVES: [&str; 3] = [
    "hand_out in histories",
    "finish in histories",
    "read_list in histories",
];

pub const VALUES: [&str; 8] = [
    "write_value_page in histories",
    "encode_cell in histories",
    "decode_cell in histories",
    "read_value in histories",
    "delete_value in histories",
    "lookup in histories",
    "total in histories",
    "write_old_value_page in histories",
];

/// The replies that have to be reached, and no others, by report: those of a host that lends too
/// little, or frees what is none or is not to be freed.
const SAVE_REPLIES: [&[u32]; 3] = [
    &[0],
    &[
        0,
        save_model::STATE,
        save_model::TABLES,
        save_model::FREED,
        save_model::BUFFER,
        map::TOO_SHORT,
        map::REPEAT,
    ],
    &[0, map::TOO_SHORT],
];
const WRITTEN: &[u32] = &[0, value_model::BUFFER, value_model::INDEX];
const VALUE_REPLIES: [&[u32]; 8] = [
    WRITTEN,
    &[0, value_model::ROOM],
    &[0],
    &[0, value_model::ROOM],
    &[0, value_model::ROOM],
    &[0],
    &[0],
    WRITTEN,
];

/// What happens in histories; all of it has to.
#[derive(Clone, Copy)]
enum Event {
    Saved,
    AtLast,
    FreedTwice,
    FreedListPage,
    FreedEntry,
    GivenUp,
    GivenUpFinished,
    Reopened,
    Written,
    NumbersOnPages,
    PageOfNumbers,
    APageLess,
    Deleted,
    DeletedAtOnce,
    Spoilt,
    ReadBack,
}

const EVENTS: [&str; 16] = [
    "saves",
    "finished after a map too short",
    "and after a number freed twice",
    "and after a list page freed",
    "and after a free number freed",
    "given up before the finish",
    "given up after it",
    "stores opened again",
    "values written",
    "with numbers on pages",
    "with a page of numbers alone",
    "with a page less than the Rust takes",
    "deleted",
    "written and deleted in one save",
    "pages handed out and freed in one save",
    "values read back",
];

/// Compares the library over histories. Gives the reports of saves and those of values.
pub fn compare(
    plan: &Plan,
    saves: &dyn saves::Library,
    values: &dyn values::Library,
) -> io::Result<([Report; 3], [Report; 8])> {
    let recorder = Recorder::default();
    let mut comparison = Comparison {
        saves: saves::Comparison::new(saves, &recorder, SAVES),
        values: values::Comparison::new(values, &recorder, VALUES),
        events: BTreeMap::new(),
    };
    let (seed, saves) = (plan.seed, (plan.count / RANDOM_SHARE).max(LEAST_SAVES));
    comparison.at::<nomt_4096::Plain>(Form::Fixed, seed, saves / 20)?;
    comparison.at::<nomt_16::Plain>(Form::Sized(16), seed, saves)?;
    comparison.at::<nomt_20::Plain>(Form::Sized(20), seed, saves)?;
    comparison.at::<nomt_24::Plain>(Form::Sized(24), seed, saves)?;
    comparison.at::<nomt_28::Plain>(Form::Sized(28), seed, saves)?;
    comparison.at::<nomt_32::Plain>(Form::Sized(32), seed, saves)?;
    comparison.at::<nomt_1024::Plain>(Form::Panel, seed, saves / 10)?;
    comparison.at::<nomt_1024::Plain>(Form::Sized(1024), seed, saves / 50)?;
    comparison.at::<nomt_4096::Plain>(Form::Sized(4096), seed, saves / 50)?;
    Ok(comparison.finish())
}

struct Comparison<'a> {
    saves: saves::Comparison<'a>,
    values: values::Comparison<'a>,
    /// By group: how often each of the events happened.
    events: BTreeMap<String, [u64; EVENTS.len()]>,
}

impl Comparison<'_> {
    /// Histories of so many saves altogether. Later ones are longer.
    fn at<R: Values>(&mut self, form: Form, seed: u64, saves: u64) -> io::Result<()> {
        let group = format!("{form}, histories");
        self.saves.group.clone_from(&group);
        self.values.group = group;
        let mut random = Random::new(seed ^ 0x415);
        let mut made = 0;
        while made < saves {
            let mut history = History::<R>::new(form)?;
            let most = (made / 2).clamp(20, 500).min(saves - made);
            made += history.run(self, most, &mut random)?;
        }
        Ok(())
    }

    fn count(&mut self, event: Event) {
        let group = self.events.entry(self.saves.group.clone()).or_default();
        group[event as usize] += 1;
    }

    /// Adds what was reached, and a disagreement for everything that was not.
    fn finish(self) -> ([Report; 3], [Report; 8]) {
        let mut saves = self.saves.finish(SAVE_REPLIES);
        let report = &mut saves[saves::FINISH];
        for (at, event) in EVENTS.into_iter().enumerate() {
            if self.events.values().all(|events| events[at] == 0) {
                report.disagree(u64::MAX, || format!("no {event}"));
            }
        }
        report.note(format!("histories: {}", EVENTS.join("; ")));
        for (group, events) in self.events {
            let events = events.map(|count| count.to_string()).join("; ");
            report.note(format!("{group}: {events}"));
        }
        (saves, self.values.finish(VALUE_REPLIES))
    }
}
