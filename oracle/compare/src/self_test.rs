//! Shows that the comparisons can fail: each is run with one reply of the library changed, or one
//! place of what it is lent, and has to report a disagreement there; and those of lists, of finishes and of
//! columns and rows with libraries that are wrong in one way throughout.

mod changed;
mod wrong;
mod wrong_columns;

use crate::{
    columns::{self, WAYS},
    grow, histories, lists,
    report::Report,
    saves::{self, FINISH, HAND_OUT, READ_BACK},
    totals::{self, max_size},
    values::{self, DECODE, DELETE, ENCODE, LOOKUP, READ, TOTAL, WRITE, WRITE_OLD},
    Plan,
};
use changed::Changed;
use mopsienna_sys::{self as library, Form, Reply};
use std::{fmt::Debug, io, ops::Range};
use wrong::Wrong;

/// The parts of a reply: its places, and its number after them.
const PARTS: usize = library::UNTOUCHED.len() + 1;

/// The number alone.
const NUMBER: Range<usize> = PARTS - 1..PARTS;

/// Runs every comparison with every part of a reply changed, at an answer and at a refusal.
/// Tells whether all changes were caught.
pub fn run(plan: &Plan) -> io::Result<bool> {
    let mut tally = Tally::default();
    numbers(plan, &mut tally)?;
    tally.each_part(READ_BACK, LIST_PARTS, |changed| {
        lists::compare(plan, changed)
    })?;
    for (operation, parts) in SAVE_PARTS {
        tally.each_part(operation, parts.clone(), |changed| {
            Ok(at(operation, saves::compare(plan, changed)?))
        })?;
        tally.each_part(operation, parts, |changed| {
            let (saves, _) = histories::compare(plan, changed, &values::Linked)?;
            Ok(at(operation, saves))
        })?;
    }
    for (operation, parts) in VALUE_PARTS {
        tally.each_part(operation, parts.clone(), |changed| {
            Ok(at(operation, values::compare(plan, changed)?))
        })?;
        tally.each_part(operation, parts, |changed| {
            let (_, values) = histories::compare(plan, &saves::Linked, changed)?;
            Ok(at(operation, values))
        })?;
    }
    for fault in wrong::OF_LISTS {
        tally.fault(fault, &lists::compare(plan, &Wrong(fault))?);
    }
    for fault in wrong::OF_FINISHES {
        tally.fault(fault, &at(FINISH, saves::compare(plan, &Wrong(fault))?));
    }
    rearranged(plan, &mut tally)?;
    let Tally { changes, missed } = tally;
    println!("self-test: {changes} changes, {missed} not caught");
    Ok(missed == 0)
}

/// Changes the operations that take a number.
fn numbers(plan: &Plan, tally: &mut Tally) -> io::Result<()> {
    for part in 0..PARTS {
        for input in [8_193, grow::LAST_PAGE, grow::LAST_PAGE + 1] {
            let report = grow::compare(plan, |page| {
                changed_if(page == input, part, library::grow(page))
            })?;
            tally.count(input.into(), part, &report);
        }
        for (form, input) in TOTALS {
            let report = totals::compare(plan, |at, size| {
                changed_if((at, size) == (form, input), part, at.total(size))
            });
            tally.count(input, part, &report);
        }
    }
    Ok(())
}

/// Changes columns and rows.
fn rearranged(plan: &Plan, tally: &mut Tally) -> io::Result<()> {
    for way in WAYS {
        tally.each_part(way as usize, COLUMNS_PARTS, |changed| {
            Ok(at(way as usize, columns::compare(plan, changed)?))
        })?;
    }
    for report in columns::compare(plan, &wrong_columns::Wrong(None))? {
        tally.no_fault(&report);
    }
    for fault in wrong_columns::FAULTS {
        for report in columns::compare(plan, &wrong_columns::Wrong(Some(fault)))? {
            tally.fault(fault, &report);
        }
    }
    Ok(())
}

/// The totals that are changed: of libmopsienna around its limits, at both its page sizes, of libsized one
/// at each page size; of both one where the old total is not the new one.
const TOTALS: [(Form, u64); 15] = [
    (Form::Fixed, 4_243_403),
    (Form::Sized(16), 203),
    (Form::Fixed, 61_381),
    (Form::Fixed, max_size(4096)),
    (Form::Fixed, max_size(4096) + 1),
    (Form::Panel, 274_379),
    (Form::Panel, max_size(1024)),
    (Form::Panel, max_size(1024) + 1),
    (Form::Sized(16), max_size(16)),
    (Form::Sized(20), 61_381),
    (Form::Sized(24), 61_381),
    (Form::Sized(28), 61_381),
    (Form::Sized(32), 61_381),
    (Form::Sized(1024), max_size(1024) + 1),
    (Form::Sized(4096), 61_381),
];

/// The parts that are changed of reading a list: of the two tables and of the map, the first and the last
/// place.
const LIST_PARTS: Range<usize> = 0..PARTS + 6;

/// The parts that are changed of each function of saves: of what is lent, the first and the last
/// place of each.
const SAVE_PARTS: [(usize, Range<usize>); 3] = [
    (HAND_OUT, 0..PARTS),
    (FINISH, 0..PARTS + 10),
    (READ_BACK, LIST_PARTS),
];

/// The parts that are changed of each function of values. Writing pages and cells gives a number
/// alone; of what is lent, it is the first and the last place of each.
const VALUE_PARTS: [(usize, Range<usize>); 8] = [
    (WRITE, PARTS - 1..PARTS + 2),
    (ENCODE, PARTS - 1..PARTS + 2),
    (DECODE, 0..PARTS + 2),
    (READ, 0..PARTS + 4),
    (DELETE, 0..PARTS + 2),
    (LOOKUP, 0..PARTS),
    (TOTAL, 0..PARTS),
    (WRITE_OLD, PARTS - 1..PARTS + 2),
];

/// The parts that are changed of columns and rows. They give a number alone; of the second buffer it is
/// every place.
const COLUMNS_PARTS: Range<usize> = PARTS - 1..PARTS + changed::BUFFER;

/// How many changes were made, and how many of them were not caught.
#[derive(Default)]
struct Tally {
    changes: u64,
    missed: u64,
}

impl Tally {
    /// Counts a change of a part at an input: the report has to disagree there and nowhere else.
    fn count(&mut self, input: u64, part: usize, report: &Report) {
        self.changes += 1;
        if !report.disagrees_only_at(input) {
            self.missed += 1;
            let operation = report.operation();
            println!("{operation}: part {part} changed at {input}, and not caught");
        }
    }

    /// Counts a fault: the report has to disagree.
    fn fault(&mut self, fault: impl Debug, report: &Report) {
        self.changes += 1;
        if report.agrees() {
            self.missed += 1;
            println!("{}: {fault:?}, and not caught", report.operation());
        }
    }

    /// Counts what has faults without one: the report has to agree, so that a fault is all that is caught.
    fn no_fault(&mut self, report: &Report) {
        self.changes += 1;
        if !report.agrees() {
            self.missed += 1;
            println!("{}: no fault, and one reported", report.operation());
        }
    }

    /// Finds the first call of an operation that gives each number, and makes the comparison with
    /// each part of these calls changed. Of the first such calls in the panel's form it is the number alone.
    fn each_part(
        &mut self,
        operation: usize,
        parts: Range<usize>,
        compare: impl Fn(&Changed) -> io::Result<Report>,
    ) -> io::Result<()> {
        let unchanged = Changed::new(operation, None);
        compare(&unchanged)?;
        for ((panel, _), call) in unchanged.first.into_inner() {
            let parts = if panel { NUMBER } else { parts.clone() };
            for part in parts {
                let changed = Changed::new(operation, Some((call, part)));
                self.count(call, part, &compare(&changed)?);
            }
        }
        Ok(())
    }
}

/// The operation's report.
fn at<const N: usize>(operation: usize, reports: [Report; N]) -> Report {
    // There is one for each operation.
    reports.into_iter().nth(operation).unwrap()
}

/// The reply, with one bit of the part changed if it is to be.
fn changed_if(change: bool, part: usize, mut reply: Reply) -> Reply {
    if change {
        match reply.out.get_mut(part) {
            Some(place) => *place ^= 1,
            None => reply.number ^= 1,
        }
    }
    reply
}
