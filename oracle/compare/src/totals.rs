//! `total`: how many pages a value of some size takes, how many of their numbers are in its cell,
//! how many bytes of the pages are neither header nor number nor value, and how many places a reader's
//! number table has to have; at several page sizes.
//!
//! There are two totals. That of the Rust is the old one, which the room of a number table goes by; the
//! new one, which all else goes by, is sought by its definition in document 02's request Nine.

use crate::{
    panics::unless_panic,
    record::{Kind, Line},
    report::Report,
    values::model::{self, PANEL},
    Plan,
};
use common::Random;
use mopsienna_sys::{Form, Reply};
use nomt_4096::beatree::leaf::node::{MAX_OVERFLOW_CELL_NODE_POINTERS, MAX_OVERFLOW_VALUE_SIZE};
use nomt_plain::Values;

/// The greatest size.
pub const fn max_size(page_size: usize) -> u64 {
    model::max_size(page_size) as u64
}

/// That of the Rust, which is the same at all page sizes.
const RUST_MAX_SIZE: u64 = MAX_OVERFLOW_VALUE_SIZE as u64;
const _: () = assert!(max_size(4096) == RUST_MAX_SIZE);

const CELL_NUMBERS: u64 = MAX_OVERFLOW_CELL_NODE_POINTERS as u64;

/// Every size up to this is taken, at every page size.
const SMALL: u64 = 200_000;

/// The refusal of size 0 and of sizes above the greatest.
const SIZE_REFUSED: u32 = 10;

/// Where the new total and the room of a number table stand in an answer.
const TOTAL: usize = 0;
const ROOM: usize = 3;

/// With libsized, sizes around one random change of the total are taken for so many random cases.
const CHANGES_SHARE: u64 = 10;

/// Compares the library's `total`.
pub fn compare(plan: &Plan, library: impl Fn(Form, u64) -> Reply) -> Report {
    let mut comparison = Comparison {
        plan,
        library,
        report: Report::new("total"),
    };
    // libmopsienna comes first, so that the first case of a kind is at its page size.
    comparison.at::<nomt_4096::Plain>(Form::Fixed);
    comparison.at::<nomt_1024::Plain>(Form::Panel);
    comparison.at::<nomt_16::Plain>(Form::Sized(16));
    comparison.at::<nomt_20::Plain>(Form::Sized(20));
    comparison.at::<nomt_24::Plain>(Form::Sized(24));
    comparison.at::<nomt_28::Plain>(Form::Sized(28));
    comparison.at::<nomt_32::Plain>(Form::Sized(32));
    comparison.at::<nomt_1024::Plain>(Form::Sized(1024));
    comparison.at::<nomt_4096::Plain>(Form::Sized(4096));
    comparison.report.reached(&[0, SIZE_REFUSED]);
    comparison.report
}

struct Comparison<'a, L> {
    plan: &'a Plan,
    library: L,
    report: Report,
}

impl<L: Fn(Form, u64) -> Reply> Comparison<'_, L> {
    /// Everything at one page size.
    fn at<R: Values>(&mut self, form: Form) {
        let plan = self.plan;
        let mut random = Random::new(plan.seed);
        let mut check = |size| self.check::<R>(form, size);

        (0..=SMALL).for_each(&mut check);

        // Around every size at which the raw pages change, and every one at which a total does; with
        // libsized, around random ones.
        let body = R::BODY_SIZE as u64;
        let max = max_size(R::PAGE_SIZE);
        let most_pages = max.div_ceil(body);
        let mut around = |raw_pages: u64| {
            let size = raw_pages * body;
            (size - 3..=size + 3).for_each(&mut check);
            changes::<R>(size - body + 1, size + 1, &mut |change| {
                (change - 3..=change + 3).for_each(&mut check)
            });
        };
        match form {
            Form::Sized(_) => (0..plan.count / CHANGES_SHARE)
                .for_each(|_| around(1 + random.of_any_length(64) % most_pages)),
            _ => (1..=most_pages).for_each(around),
        }

        // Here the old total is one more than the new one, if pages have 4,096 bytes.
        (4_243_402..=4_243_405).for_each(&mut check);

        (max - 3..=max + 3).for_each(&mut check);
        [RUST_MAX_SIZE, 1 << 32, 1 << 63, u64::MAX]
            .into_iter()
            .for_each(&mut check);

        for case in 0..plan.count {
            check(match case % 4 {
                0 => random.of_any_length(64),
                _ => 1 + random.below(max),
            });
        }

        if !plan.short && !matches!(form, Form::Sized(_)) {
            (1..=max).for_each(&mut check);
        }
        self.written_down::<R>(form);
        self.seek_from_one::<R>(form);
    }

    /// Totals that are written down: the one that is sought and the Rust's have to be these.
    fn written_down<R: Values>(&mut self, form: Form) {
        for (size, written) in written_down(R::PAGE_SIZE) {
            if totals::<R>(*size) != *written {
                let text = || format!("{form}, size {size}: the totals are {written:?}");
                self.report.disagree(*size, text);
            }
            self.check::<R>(form, *size);
        }
    }

    /// The new total of small sizes, sought from 1 up: it never falls as sizes rise.
    fn seek_from_one<R: Values>(&mut self, form: Form) {
        let mut total = 1;
        for size in 1..=SMALL {
            while spare_room(R::BODY_SIZE as u64, total, size).is_none() {
                total += 1;
            }
            if new_total::<R>(size) != total {
                let text = || format!("{form}, size {size}: the least total is {total}");
                self.report.disagree(size, text);
            }
        }
    }

    fn check<R: Values>(&mut self, form: Form, size: u64) {
        let expected = expected::<R>(size);
        let recorder = &self.plan.recorder;
        if form == Form::Fixed && recorder.is_on() {
            let (most, class) = recorded::<R>(size);
            recorder.keep(most, class.into(), 8, || {
                Line::new(Kind::Total).number(size).reply(&expected)
            });
        }
        let text = || format!("{form}, size {size}");
        if expected.number != 0 {
            let does = match unless_panic(|| R::total(size)) {
                Some(_) => "computes a total",
                None => "panics",
            };
            self.report.class(SIZE_REFUSED, does, text);
        }
        if expected.number == 0 && expected.out[TOTAL] != expected.out[ROOM] {
            let does = match expected.out[ROOM] - expected.out[TOTAL] {
                1 => "counts a page more",
                _ => "counts more pages",
            };
            self.report.class(0, does, text);
        }
        let got = (self.library)(form, size);
        self.report.check(size, &expected, &got, text);
    }
}

fn expected<R: Values>(size: u64) -> Reply {
    if !(1..=max_size(R::PAGE_SIZE)).contains(&size) {
        return Reply::refusal(SIZE_REFUSED, &[]);
    }
    let total = new_total::<R>(size);
    let spare = spare_room(R::BODY_SIZE as u64, total, size)
        .expect("the pages have room for the value and their numbers");
    Reply::answer(&[total, total.min(CELL_NUMBERS), spare, R::total(size)])
}

/// The least total whose pages have room, sought from the old one on: each page more is more room, so
/// where a total has room and the one before it has none, it is the least.
fn new_total<R: Values>(size: u64) -> u64 {
    let has_room = |total| spare_room(R::BODY_SIZE as u64, total, size).is_some();
    let mut total = R::total(size);
    while !has_room(total) {
        total += 1;
    }
    while has_room(total - 1) {
        total -= 1;
    }
    total
}

/// The spare room as document 02's request One has it: body × total − size − 4 × (total − 15) where
/// the total is above 15, and body × total − size up to 15. Where that is less than nothing, the pages
/// have no room for the value and their numbers.
fn spare_room(body: u64, total: u64, size: u64) -> Option<u64> {
    let numbers = 4 * total.saturating_sub(CELL_NUMBERS);
    (body * total).checked_sub(size + numbers)
}

/// Some sizes with their totals, the new one and the old one: at 4,096 bytes those of the documents, for
/// the panel what comes out by their rules.
fn written_down(page_size: usize) -> &'static [(u64, [u64; 2])] {
    match page_size {
        4096 => &[
            (61_380, [15, 15]),
            (61_381, [16, 16]),
            (65_468, [16, 16]),
            (65_469, [17, 17]),
            (4_243_402, [1038, 1038]),
            (4_243_403, [1038, 1039]),
            (4_243_404, [1038, 1039]),
            (1 << 29, [131_329, 131_329]),
        ],
        PANEL => &[
            (15_300, [15, 15]),
            (15_301, [16, 16]),
            (16_317, [17, 17]),
            (274_379, [270, 271]),
            (1 << 20, [1033, 1033]),
        ],
        _ => &[],
    }
}

/// How many lines are recorded of sizes like this, and what these are called.
fn recorded<R: Values>(size: u64) -> (usize, &'static str) {
    const SAMPLES: [u64; 11] = [
        1,
        61_380,
        61_381,
        65_468,
        65_469,
        4_243_402,
        4_243_403,
        4_243_404,
        4_243_405,
        max_size(4096) - 1,
        max_size(4096),
    ];
    let inside = (2..max_size(4096)).contains(&size);
    let changes = inside
        && [size - 1, size + 1]
            .into_iter()
            .any(|other| totals::<R>(other) != totals::<R>(size));
    match size {
        _ if SAMPLES.contains(&size) => (SAMPLES.len(), "samples"),
        0..=SMALL if changes => (120, "first changes"),
        _ if changes => (60, "changes"),
        _ if inside => (110, "others"),
        _ => (6, "none"),
    }
}

/// Finds the sizes above `low` and up to `high` of which a total is not that of the size before,
/// halving the range until it is one size; totals never fall as sizes rise.
fn changes<R: Values>(low: u64, high: u64, found: &mut impl FnMut(u64)) {
    if totals::<R>(low) == totals::<R>(high) {
        return;
    }
    if low + 1 == high {
        return found(high);
    }
    let middle = (low + high) / 2;
    changes::<R>(low, middle, found);
    changes::<R>(middle, high, found);
}

/// The new total and the old one.
fn totals<R: Values>(size: u64) -> [u64; 2] {
    [new_total::<R>(size), R::total(size)]
}
