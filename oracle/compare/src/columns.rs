//! `columns` and `rows`: a batch recording's rows of readings rearranged into columns of differences, and
//! back.
//!
//! The Rust has no such operation, so what to expect comes from a model of the documents alone, which has
//! each of the two by itself. Besides, each has to turn back what the other one gave.

mod cases;
pub mod model;
mod written;

use crate::{
    map::dirty,
    record::{Kind, Line, Recorder},
    report::{difference, Report},
    Plan,
};
use common::Random;
use model::{LENGTH, ROOM, ROW};
use mopsienna_sys::Reply;
use std::io;

/// The two functions. The reports are in this order.
#[derive(Clone, Copy)]
pub enum Way {
    Columns,
    Rows,
}

pub const WAYS: [Way; 2] = [Way::Columns, Way::Rows];

impl Way {
    fn name(self) -> &'static str {
        match self {
            Way::Columns => "columns",
            Way::Rows => "rows",
        }
    }

    fn kind(self) -> Kind {
        match self {
            Way::Columns => Kind::Columns,
            Way::Rows => Kind::Rows,
        }
    }

    fn back(self) -> Way {
        match self {
            Way::Columns => Way::Rows,
            Way::Rows => Way::Columns,
        }
    }

    fn model(self, from: &[u8]) -> Vec<u8> {
        match self {
            Way::Columns => model::columns(from),
            Way::Rows => model::rows(from),
        }
    }
}

pub trait Library {
    fn rearrange(&self, way: Way, from: &[u8], to: &mut [u8]) -> Reply;
}

/// The library as it is.
pub struct Linked;

impl Library for Linked {
    fn rearrange(&self, way: Way, from: &[u8], to: &mut [u8]) -> Reply {
        match way {
            Way::Columns => mopsienna_sys::columns(from, to),
            Way::Rows => mopsienna_sys::rows(from, to),
        }
    }
}

/// Compares the library's `columns` and `rows`.
pub fn compare(plan: &Plan, library: &dyn Library) -> io::Result<[Report; 2]> {
    let mut comparison = Comparison {
        library,
        recorder: &plan.recorder,
        reports: WAYS.map(|way| Report::new(way.name())),
        random: Random::new(plan.seed),
    };
    comparison.each(plan)?;
    let mut reports = comparison.reports;
    for report in &mut reports {
        report.reached(&[0, LENGTH, ROOM]);
        report.note("the Rust has no such operation".into());
    }
    Ok(reports)
}

struct Comparison<'a> {
    library: &'a dyn Library,
    recorder: &'a Recorder,
    reports: [Report; 2],
    random: Random,
}

impl Comparison<'_> {
    /// Both functions over these bytes with a second buffer of so many, beside the model; and where that
    /// refuses nothing, each turned back by the other.
    fn check(&mut self, from: &[u8], room: usize) {
        for way in WAYS {
            let expected = match model::refusal(from.len(), room) {
                Some(number) => Err(number),
                None => Ok(way.model(from)),
            };
            self.keep(way, from, room, &expected);
            let got = self.call(way, from, room, expected.as_deref(), "");
            if expected.is_ok() {
                let between = &got[..from.len()];
                self.call(way.back(), between, room, Ok(from), ", turned back");
            }
        }
    }

    /// One call, which is expected to put these bytes at the start of the second buffer, or to refuse.
    /// Gives what is then in this buffer.
    fn call(
        &mut self,
        way: Way,
        from: &[u8],
        room: usize,
        expected: Result<&[u8], &u32>,
        which: &str,
    ) -> Vec<u8> {
        let mut got = dirty(room, &mut self.random);
        let mut buffer = got.clone();
        let reply = match expected {
            Ok(bytes) => {
                buffer[..bytes.len()].copy_from_slice(bytes);
                Reply::answer(&[])
            }
            Err(number) => Reply::refusal(*number, &[]),
        };
        let got_reply = self.library.rearrange(way, from, &mut got);
        let same = got == buffer;
        self.reports[way as usize].compare(&reply, &got_reply, same, || {
            format!(
                "{}{which}, buffer of {room}{}",
                bytes_text(from),
                difference("buffer", &buffer, &got)
            )
        });
        got
    }

    /// Keeps a call with what the model gives.
    fn keep(&self, way: Way, from: &[u8], room: usize, expected: &Result<Vec<u8>, u32>) {
        let rows = from.len() / ROW;
        let (number, kept) = match expected {
            Ok(bytes) => (0, &bytes[..]),
            Err(number) => (*number, &[][..]),
        };
        let (most, class) = recorded(number, from.len(), room);
        self.recorder
            .keep(most, class.into(), from.len() + room, || {
                let mut buffer = kept.to_vec();
                buffer.resize(room, 0);
                let long = number == 0 && LONG_LINES.contains(&rows);
                Line::new(way.kind())
                    .array(from)
                    .length(&buffer)
                    .status(&Reply::refusal(number, &[]))
                    .places(&buffer, kept.len())
                    .long(long.then(|| format!("{rows} rows")))
            });
    }
}

/// How many lines are recorded of calls like this, and what these are called.
fn recorded(number: u32, length: usize, room: usize) -> (usize, &'static str) {
    match (number, length / ROW) {
        (LENGTH, _) if room < length => (4, "a short buffer too"),
        (LENGTH, _) => (4, "room enough"),
        (ROOM, _) => (6, "a short buffer"),
        (_, 0) => (2, "nothing"),
        (_, 1) => (4, "a row"),
        (_, 3) => (4, "three rows"),
        _ => (8, "rows"),
    }
}

/// Long lines are recorded of so many rows.
const LONG_LINES: [usize; 5] = [8, 12, 16, 20, cases::LONG[0]];

/// The bytes, or of many only the first ones and how many there are.
fn bytes_text(bytes: &[u8]) -> String {
    match bytes.len() {
        0..=64 => format!("{bytes:?}"),
        many => format!("{many} bytes from {:?}", &bytes[..ROW]),
    }
}
