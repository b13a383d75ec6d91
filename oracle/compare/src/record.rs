//! Keeps some of the calls with what is expected of them, as the lines that crates/replay reads: the
//! Rust's answers, and the model's refusals.

use common::Random;
use mopsienna_sys::{Lent, Reply, Save, UNTOUCHED};
use std::{cell::RefCell, collections::BTreeMap, fs, io};

/// What stands in the places that a call is lent and does not write, in all tables and in `out`.
const FILLER: u64 = 9;

/// Lines with more characters are long ones.
const MOST_CHARACTERS: usize = 400;

/// Lines with more characters than this are left out.
const MOST_LONG: usize = 65_536;

/// The kinds of lines, as crates/replayed numbers them.
#[derive(Clone, Copy)]
pub enum Kind {
    Grow = 1,
    Total = 2,
    ReadList = 3,
    HandOut = 4,
    Finish = 5,
    WritePage = 6,
    EncodeCell = 7,
    DecodeCell = 8,
    ReadValue = 9,
    DeleteValue = 10,
    Lookup = 11,
    WriteOldPage = 12,
    Columns = 13,
    Rows = 14,
}

/// One call.
pub struct Line {
    kind: Kind,
    numbers: Vec<u64>,
    number: u32,
    long: Option<String>,
}

impl Line {
    pub fn new(kind: Kind) -> Line {
        Line {
            kind,
            numbers: vec![kind as u64],
            number: 0,
            long: None,
        }
    }

    pub fn number(mut self, number: impl Into<u64>) -> Line {
        self.numbers.push(number.into());
        self
    }

    /// The length and the elements.
    pub fn array<T: Copy + Into<u64>>(self, array: &[T]) -> Line {
        self.length(array).places(array, array.len())
    }

    pub fn length<T>(self, array: &[T]) -> Line {
        self.number(array.len() as u64)
    }

    /// The elements, of which so many hold something.
    pub fn places<T: Copy + Into<u64>>(self, array: &[T], kept: usize) -> Line {
        let kept_elements = array.iter().take(kept).map(|element| (*element).into());
        let fillers = std::iter::repeat_n(FILLER, array.len().saturating_sub(kept));
        kept_elements.chain(fillers).fold(self, Line::number)
    }

    /// The bytes of a map, of which so many are cleared.
    pub fn map(self, length: usize, cleared: usize) -> Line {
        self.places(&vec![0u8; length], cleared)
    }

    /// The page size, and an open save.
    pub fn save(self, page_size: usize, save: &Save) -> Line {
        self.number(page_size as u64)
            .number(save.bump)
            .number(save.length)
            .number(save.pages)
            .number(save.entries)
            .number(save.count)
    }

    /// Both tables, of which so many places hold something.
    pub fn tables(self, lent: &Lent, (pages, entries): (usize, usize)) -> Line {
        self.length(&lent.pages)
            .places(&lent.pages, pages)
            .length(&lent.entries)
            .places(&lent.entries, entries)
    }

    pub fn status(mut self, reply: &Reply) -> Line {
        self.number = reply.number;
        self.number(reply.number)
    }

    /// The status and every place of `out`.
    pub fn reply(self, reply: &Reply) -> Line {
        let places = reply.out.iter().zip(UNTOUCHED);
        places.fold(self.status(reply), |line, (value, untouched)| {
            line.number(if *value == untouched { FILLER } else { *value })
        })
    }

    /// What sets it apart from other long lines, if it may be one.
    pub fn long(mut self, class: Option<String>) -> Line {
        self.long = class;
        self
    }

    fn text(&self) -> String {
        let numbers: Vec<String> = self.numbers.iter().map(u64::to_string).collect();
        numbers.join(" ")
    }
}

/// Lines of one class: how many there were, and those that are kept.
#[derive(Default)]
struct Class {
    seen: u64,
    lines: Vec<String>,
}

impl Class {
    /// Keeps the line, or not: at most so many.
    fn keep(&mut self, most: usize, line: String) {
        self.seen += 1;
        if self.lines.contains(&line) {
            return;
        }
        if self.lines.len() < most {
            self.lines.push(line);
            return;
        }
        let place = Random::new(self.seen).below(self.seen) as usize;
        if (1..most).contains(&place) {
            self.lines[place] = line;
        }
    }
}

/// Keeps lines by class: the first of a class, which is about the smallest, and random ones. Of long
/// lines only the first of a class.
#[derive(Default)]
pub struct Recorder {
    on: bool,
    /// By the kind of call, the status and what else the caller tells apart.
    classes: RefCell<BTreeMap<(u32, u32, String), Class>>,
}

impl Recorder {
    pub fn on() -> Recorder {
        Recorder {
            on: true,
            ..Recorder::default()
        }
    }

    pub fn is_on(&self) -> bool {
        self.on
    }

    /// Keeps the line, or not: of a class at most so many. `lent` is how many places are lent.
    pub fn keep(&self, most: usize, class: String, lent: usize, line: impl FnOnce() -> Line) {
        if !self.on || lent > MOST_LONG / 2 {
            return;
        }
        let line = line();
        let key = |class| (line.kind as u32, line.number, class);
        let mut classes = self.classes.borrow_mut();
        let long = line.long.as_ref().map(|class| key(format!("long {class}")));
        let wanted = long.filter(|key| !classes.contains_key(key));
        if wanted.is_none() && line.numbers.len() > MOST_CHARACTERS / 2 {
            return;
        }
        let text = line.text();
        match wanted {
            _ if text.len() <= MOST_CHARACTERS => {
                classes.entry(key(class)).or_default().keep(most, text);
            }
            Some(key) if text.len() <= MOST_LONG => {
                classes.entry(key).or_default().keep(1, text);
            }
            _ => {}
        }
    }

    /// Writes all that was kept, and tells how many lines there are of each kind and status.
    pub fn write(&self, path: &str, seed: u64, count: u64) -> io::Result<String> {
        let mut text = format!(
            "# Made by oracle/compare --record, seed {seed}, count {count}: status 0 is what the Rust gave, any other a refusal of the documents \
             that the model in oracle/compare gives. Page lookup, kind 11, and columns and rows, kinds 13 and 14, are the model's alone, and so are \
             values by a new total that is not the Rust's; kind 12 is writing by the Rust's.\n"
        );
        let mut counts: BTreeMap<(u32, u32), usize> = BTreeMap::new();
        for ((kind, number, _), class) in self.classes.borrow().iter() {
            *counts.entry((*kind, *number)).or_default() += class.lines.len();
            for line in &class.lines {
                text += line;
                text.push('\n');
            }
        }
        fs::write(path, &text)?;
        let total: usize = counts.values().sum();
        let mut report = format!("{total} calls, {} bytes; by kind and status:", text.len());
        for ((kind, number), lines) in counts {
            report += &format!(" {kind}/{number}: {lines}");
        }
        Ok(report)
    }
}
