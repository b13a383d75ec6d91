//! Counts an operation's calls and keeps its smallest disagreements.

use mopsienna_sys::Reply;
use std::{
    collections::{BTreeMap, BTreeSet},
    fmt,
};

/// How many disagreements are kept and shown.
const KEPT: usize = 10;

pub struct Report {
    operation: &'static str,
    calls: u64,
    /// How many calls should give 0 and each refusal.
    replies: BTreeMap<u32, u64>,
    /// By reply and by what the Rust does there: how many cases, and the first.
    classes: BTreeMap<(u32, &'static str), (u64, String)>,
    disagreements: u64,
    /// Those with the smallest inputs, each with the text that tells of it.
    smallest: BTreeSet<(u64, String)>,
    notes: Vec<String>,
}

impl Report {
    pub fn new(operation: &'static str) -> Report {
        Report {
            operation,
            calls: 0,
            replies: BTreeMap::new(),
            classes: BTreeMap::new(),
            disagreements: 0,
            smallest: BTreeSet::new(),
            notes: vec![],
        }
    }

    /// Counts a call whose input is a number, and compares what it gave, every place of it. `text`
    /// tells what went in.
    pub fn check(
        &mut self,
        input: u64,
        expected: &Reply,
        got: &Reply,
        text: impl FnOnce() -> String,
    ) {
        self.count(input, expected, got == expected, || {
            format!("{}: expected {expected}, got {got}", text())
        });
    }

    /// Counts a call and compares what it gave. `same` tells whether all that was lent is as
    /// expected, and `text` what went in; as its input stands its place among all calls.
    pub fn compare(
        &mut self,
        expected: &Reply,
        got: &Reply,
        same: bool,
        text: impl FnOnce() -> String,
    ) {
        let call = self.calls;
        self.count(call, expected, same && got == expected, || {
            format!("call {call}, {}: expected {expected}, got {got}", text())
        });
    }

    fn count(&mut self, input: u64, expected: &Reply, agrees: bool, text: impl FnOnce() -> String) {
        self.calls += 1;
        *self.replies.entry(expected.number).or_default() += 1;
        if !agrees {
            self.disagree(input, text);
        }
    }

    /// Keeps a disagreement of the Rust with what is expected, about the next call.
    pub fn disagree_at_call(&mut self, what: &str, text: impl FnOnce() -> String) {
        self.disagree(self.calls, || format!("{}: {what}", text()));
    }

    /// Counts what the Rust does where the library gives this reply and it does something else.
    pub fn class(&mut self, number: u32, does: &'static str, text: impl FnOnce() -> String) {
        let class = self.classes.entry((number, does));
        class.or_insert_with(|| (0, text())).0 += 1;
    }

    /// Adds what was reached, and a disagreement for each of these replies that was not, and for each
    /// other that was.
    pub fn reached(&mut self, numbers: &[u32]) {
        for number in numbers {
            if !self.replies.contains_key(number) {
                self.disagree(u64::MAX, || format!("{number} was never reached"));
            }
        }
        let reached: Vec<u32> = self.replies.keys().copied().collect();
        for number in reached {
            if !numbers.contains(&number) {
                self.disagree(u64::MAX, || format!("{number} is never to be expected"));
            }
        }
        self.note(format!("replies by number: {}", text_of(&self.replies)));
        for ((number, does), (cases, first)) in &self.classes {
            let text = format!("{number} where the Rust {does}: {cases}, first {first}");
            self.notes.push(text);
        }
    }

    /// What was counted of the Rust has to be just this.
    pub fn compare_differences(&mut self, known: &[(u32, &str)]) {
        for (number, does) in known {
            if !self.classes.contains_key(&(*number, *does)) {
                self.disagree(u64::MAX, || {
                    format!("{number} where the Rust {does}: never seen")
                });
            }
        }
        let seen: Vec<_> = self.classes.keys().copied().collect();
        for (number, does) in seen {
            if !known.contains(&(number, does)) {
                self.disagree(u64::MAX, || {
                    format!("{number} where the Rust {does}: not among the differences")
                });
            }
        }
    }

    /// How many calls should give 0 and each refusal.
    pub fn replies(&self) -> &BTreeMap<u32, u64> {
        &self.replies
    }

    /// Keeps a disagreement.
    pub fn disagree(&mut self, input: u64, text: impl FnOnce() -> String) {
        self.disagreements += 1;
        let full = self.smallest.len() == KEPT;
        if full && self.smallest.last().is_some_and(|last| last.0 <= input) {
            return;
        }
        self.smallest.insert((input, text()));
        if self.smallest.len() > KEPT {
            self.smallest.pop_last();
        }
    }

    /// Adds a line to what is shown.
    pub fn note(&mut self, text: String) {
        self.notes.push(text);
    }

    pub fn operation(&self) -> &'static str {
        self.operation
    }

    pub fn agrees(&self) -> bool {
        self.disagreements == 0
    }

    /// Whether there are disagreements at this input and at no other.
    pub fn disagrees_only_at(&self, input: u64) -> bool {
        !self.agrees() && self.smallest.iter().all(|kept| kept.0 == input)
    }
}

impl fmt::Display for Report {
    fn fmt(&self, f: &mut fmt::Formatter<'_>) -> fmt::Result {
        write!(
            f,
            "{}: {} calls, {} disagreements",
            self.operation, self.calls, self.disagreements
        )?;
        let disagreements = self.smallest.iter().map(|(_, text)| text);
        for text in self.notes.iter().chain(disagreements) {
            write!(f, "\n  {text}")?;
        }
        Ok(())
    }
}

/// Numbers, each with its count.
pub fn text_of(counts: &BTreeMap<u32, u64>) -> String {
    let counts: Vec<String> = counts
        .iter()
        .map(|(number, count)| format!("{number}: {count}"))
        .collect();
    counts.join(", ")
}

/// Tells of the first place at which two tables differ.
pub fn difference<T: PartialEq + fmt::Display>(table: &str, expected: &[T], got: &[T]) -> String {
    match (0..got.len()).find(|place| expected[*place] != got[*place]) {
        Some(place) => format!(
            ", {table}[{place}] expected {}, got {}",
            expected[place], got[place]
        ),
        None => String::new(),
    }
}
