//! Values: writing their pages and cells, reading and deleting them; and page lookup, at several page
//! sizes.
//!
//! What stands on a page and in a cell comes from the Rust, and so does what the pages leave, which
//! `total` has to tell; but where the new total is not the Rust's, the pages come from a model of the
//! documents. The Rust stops in other ways than the library, so what to expect of reading and deleting
//! comes from that model too. What it reads or deletes by the Rust's total the Rust has to read or delete
//! in the same way; what the Rust does with the rest is counted.

pub mod calls;
pub mod case;
mod cells;
mod chains;
mod damage;
mod decided;
mod fixed;
mod largest;
mod lent;
mod library;
mod lookups;
pub mod model;
mod walks;
pub mod written;

use crate::{record::Recorder, report::Report, Plan};
use common::Random;
use mopsienna_sys::Form;
use nomt_plain::Values;
use std::{collections::BTreeMap, io};

pub use library::{Library, Linked};
use model::Writer;

/// There is one random value of each kind for so many random cases of other operations, at each of
/// the small page sizes.
pub const RANDOM_SHARE: u64 = 50;

/// The reports, in this order.
pub const WRITE: usize = 0;
pub const ENCODE: usize = 1;
pub const DECODE: usize = 2;
pub const READ: usize = 3;
pub const DELETE: usize = 4;
pub const LOOKUP: usize = 5;
pub const TOTAL: usize = 6;
pub const WRITE_OLD: usize = 7;

/// The report of writing pages by one of the totals.
pub fn write(writer: Writer) -> usize {
    match writer {
        Writer::New => WRITE,
        Writer::Old => WRITE_OLD,
    }
}

pub const OPERATIONS: [&str; 8] = [
    "write_value_page",
    "encode_cell",
    "decode_cell",
    "read_value",
    "delete_value",
    "lookup",
    "total of a written value",
    "write_old_value_page",
];

/// How much is compared.
#[derive(Clone, Copy, PartialEq)]
pub enum Extent {
    /// As little as reaches every reply.
    Least,
    Short,
    Long,
}

/// Compares the library's functions of values and of page lookup.
pub fn compare(plan: &Plan, library: &dyn Library) -> io::Result<[Report; 8]> {
    let extent = match (plan.short, plan.count) {
        (true, 0..=10_000) => Extent::Least,
        (true, _) => Extent::Short,
        _ => Extent::Long,
    };
    let cases = plan.count / RANDOM_SHARE;
    let seed = plan.seed;
    let mut comparison = Comparison::new(library, &plan.recorder, OPERATIONS);
    comparison.page_sizes();
    // libmopsienna comes first, so that the first case of a kind is at its page size.
    comparison.at::<nomt_4096::Plain>(Form::Fixed, extent, seed, cases / 10)?;
    comparison.at::<nomt_1024::Plain>(Form::Panel, extent, seed, cases / 5)?;
    largest::one_more::<nomt_1024::Plain>(&mut comparison, Form::Panel)?;
    comparison.small::<nomt_16::Plain>(16, extent, seed, cases)?;
    if extent == Extent::Least {
        return Ok(comparison.finish(REPLIES));
    }
    comparison.small::<nomt_20::Plain>(20, extent, seed, cases)?;
    comparison.small::<nomt_24::Plain>(24, extent, seed, cases)?;
    comparison.small::<nomt_28::Plain>(28, extent, seed, cases)?;
    comparison.small::<nomt_32::Plain>(32, extent, seed, cases)?;
    comparison.at::<nomt_1024::Plain>(Form::Sized(1024), Extent::Least, seed, cases / 50)?;
    comparison.at::<nomt_4096::Plain>(Form::Sized(4096), Extent::Least, seed, cases / 50)?;
    let random = &mut Random::new(seed);
    largest::largest::<nomt_1024::Plain>(&mut comparison, Form::Panel, random)?;
    if extent == Extent::Long {
        largest::largest::<nomt_4096::Plain>(&mut comparison, Form::Fixed, random)?;
        largest::one_more::<nomt_4096::Plain>(&mut comparison, Form::Fixed)?;
    }
    Ok(comparison.finish(REPLIES))
}

pub struct Comparison<'a> {
    library: &'a dyn Library,
    recorder: &'a Recorder,
    pub reports: [Report; 8],
    /// What the cases at hand are called.
    pub group: String,
    /// By group: how many cases were read and deleted on both sides, and how many of them are a
    /// value that is read, and one that is deleted.
    groups: BTreeMap<String, [u64; 3]>,
}

/// The replies of writing a page, by either total.
const WRITTEN: &[u32] = &[0, model::BUFFER, model::SIZE, model::INDEX];

/// The replies that have to be reached, and no others, by report.
const REPLIES: [&[u32]; 8] = [
    WRITTEN,
    &[0, model::SIZE, model::ROOM],
    &[0, model::SIZE, model::CELL],
    &[
        0,
        model::SIZE,
        model::CELL,
        model::ROOM,
        model::UNKNOWN,
        model::PAST_STORE,
        model::PAGE,
        model::NUMBERS,
        model::BYTES,
        model::EMPTY,
    ],
    // Deleting goes on only past pages with numbers, so it never comes to one that is not known.
    &[
        0,
        model::SIZE,
        model::CELL,
        model::ROOM,
        model::PAST_STORE,
        model::PAGE,
        model::NUMBERS,
        model::EMPTY,
    ],
    &[0, model::BUFFER, model::PAST_STORE],
    &[0],
    WRITTEN,
];

impl<'a> Comparison<'a> {
    pub fn new(
        library: &'a dyn Library,
        recorder: &'a Recorder,
        operations: [&'static str; 8],
    ) -> Comparison<'a> {
        Comparison {
            library,
            recorder,
            reports: operations.map(Report::new),
            group: String::new(),
            groups: BTreeMap::new(),
        }
    }

    /// Everything at one page size, with so many random cases of each kind.
    fn at<R: Values>(
        &mut self,
        form: Form,
        extent: Extent,
        seed: u64,
        cases: u64,
    ) -> io::Result<()> {
        let mut random = Random::new(seed);
        self.group = format!("{form}, harmed");
        fixed::each::<R>(self, form, extent)?;
        damage::random::<R>(self, form, &mut random, cases)?;
        self.group = format!("{form}, written");
        written::each::<R>(self, form, extent, &mut random, cases)?;
        written::left_bytes::<R>(self)?;
        self.group = format!("{form}, decided");
        decided::each::<R>(self, form, extent, &mut random)?;
        self.group = format!("{form}, other chains");
        chains::each::<R>(self, form, chains::without_empty, &mut random, cases)?;
        self.group = format!("{form}, empty pages");
        chains::each::<R>(self, form, chains::with_empty, &mut random, cases / 2)?;
        if R::PAGE_SIZE < 100 {
            self.group = format!("{form}, either total");
            chains::each::<R>(self, form, chains::of_either_total, &mut random, cases)?;
        }
        self.group = format!("{form}, any pages");
        chains::tangles::<R>(self, form, &mut random, cases)?;
        cells::each::<R>(self, form, &mut random, cases);
        lookups::fixed::<R>(self, form)?;
        lookups::random::<R>(self, form, &mut random, 10 * cases)
    }

    /// At a small page size also every harm of some kinds.
    fn small<R: Values>(
        &mut self,
        size: u64,
        extent: Extent,
        seed: u64,
        cases: u64,
    ) -> io::Result<()> {
        let form = Form::Sized(size);
        let mut random = Random::new(seed);
        self.group = format!("{form}, every harm");
        damage::every::<R>(self, form, extent, &mut random)?;
        self.at::<R>(form, extent, seed, cases)
    }

    /// Adds what was reached, and a disagreement if it is not just these replies.
    pub fn finish(mut self, replies: [&[u32]; 8]) -> [Report; 8] {
        for (report, numbers) in self.reports.iter_mut().zip(replies) {
            report.reached(numbers);
        }
        self.reports[READ].note("cases on both sides: all; read; deleted".into());
        for (group, [cases, read, deleted]) in &self.groups {
            self.reports[READ].note(format!("{group}: {cases}; {read}; {deleted}"));
        }
        self.reports
    }
}
