//! Timing of two sides that do the same work, and of others beside them.

use mopsienna_sys::{Form, BEFORE};
use std::time::{Duration, Instant};

/// The same work done by the library and by the Rust.
pub struct Row {
    pub name: String,
    /// How many pages one call goes through.
    pub pages: usize,
    /// How many calls make a sample: enough to be above what the clock can tell apart.
    pub calls: usize,
    pub ours: Ours,
    pub theirs: Work,
    /// A copy of as many bytes, where the work is to copy bytes.
    pub copy: Option<Work>,
    /// The bytes copied to their places and the rest made zero, where the work is to fill pages.
    pub fill: Option<Work>,
    /// The least work on the bit map, where one is lent.
    pub map: Option<Work>,
    /// The most samples of each side, where one takes long.
    pub rounds: Option<usize>,
}

/// Prepares so many calls, makes them within [`measured`] and gives the time that this took.
pub type Work = Box<dyn FnMut(usize) -> Duration>;

/// The library's work.
pub enum Ours {
    /// By this commit's library alone.
    This(Work),
    /// By this commit's or another's, with the same buffers.
    Any(Box<dyn FnMut(Form, usize) -> Duration>),
}

#[derive(Clone, Copy)]
pub enum Side {
    Ours,
    Theirs,
    Copy,
    Fill,
    Map,
    Before,
}

pub const HEADING: &str = "\
| row | ours | the Rust | ours / the Rust | ours, per page | the Rust, per page | memcpy | ours / memcpy \
| memcpy and memset | ours / both | map alone | ours less it | before | ours / before |
|---|---:|---:|---:|---:|---:|---:|---:|---:|---:|---:|---:|---:|---:|";

impl Row {
    /// Takes turns, a sample of each side in every round. Gives a line with the medians.
    pub fn compare(&mut self, rounds: usize) -> String {
        let mut samples: [Vec<Duration>; 6] = Default::default();
        for round in 0..rounds.min(self.rounds.unwrap_or(rounds)) {
            // Ours and that of the other commit change places, so that both follow the same work equally often.
            let (first, last) = match round % 2 {
                0 => (Side::Ours, Side::Before),
                _ => (Side::Before, Side::Ours),
            };
            for side in [first, Side::Theirs, Side::Copy, Side::Fill, Side::Map, last] {
                samples[side as usize].extend(self.sample(side, self.calls));
            }
        }
        let [ours, theirs, copy, fill, map, before] =
            samples.map(|samples| self.microseconds(samples));
        // Every row has these two.
        let (ours, theirs) = (ours.unwrap(), theirs.unwrap());
        let pages = self.pages as f64;
        let beside = |time: Option<f64>, compared: fn(f64, f64) -> String| match time {
            Some(time) => format!("{time:.2} µs | {} |", compared(ours, time)),
            None => "| |".to_string(),
        };
        let ratio = |ours, time| format!("{:.2}", ours / time);
        let rest = |ours, time| format!("{:.2} µs", ours - time);
        let beside = [
            beside(copy, ratio),
            beside(fill, ratio),
            beside(map, rest),
            beside(before, ratio),
        ];
        format!(
            "| {} | {ours:.2} µs | {theirs:.2} µs | {:.2} | {:.0} ns | {:.0} ns | {}",
            self.name,
            ours / theirs,
            1000.0 * ours / pages,
            1000.0 * theirs / pages,
            beside.join(" "),
        )
    }

    /// The time of so many calls, if the row has this side.
    pub fn sample(&mut self, side: Side, calls: usize) -> Option<Duration> {
        match side {
            Side::Ours => Some(match &mut self.ours {
                Ours::This(work) => work(calls),
                Ours::Any(work) => work(Form::Fixed, calls),
            }),
            Side::Theirs => Some((self.theirs)(calls)),
            Side::Copy => self.copy.as_mut().map(|copy| copy(calls)),
            Side::Fill => self.fill.as_mut().map(|fill| fill(calls)),
            Side::Map => self.map.as_mut().map(|map| map(calls)),
            Side::Before => match &mut self.ours {
                Ours::This(_) => None,
                Ours::Any(work) => BEFORE.map(|form| work(form, calls)),
            },
        }
    }

    /// The median time of a call.
    fn microseconds(&self, mut samples: Vec<Duration>) -> Option<f64> {
        samples.sort();
        let median = samples.get(samples.len() / 2)?;
        Some(median.as_secs_f64() * 1e6 / self.calls as f64)
    }
}

/// Does the work, and gives the time that it took beside what it gave. It is never inlined, so
/// that a program that counts instructions can tell the work from all that prepares it.
#[inline(never)]
pub fn measured<T>(work: impl FnOnce() -> T) -> (Duration, T) {
    let start = Instant::now();
    let result = work();
    (start.elapsed(), result)
}
