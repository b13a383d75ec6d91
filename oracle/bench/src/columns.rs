//! Rows of a recording into columns, and back, beside a copy of as many bytes: the Rust has no such
//! operation. The two buffers are the same in all calls of a size.

use crate::timing::measured;
use mopsienna_sys::{columns, rows};
use std::{hint::black_box, time::Duration};

/// So many bytes are rearranged in a sample, in one call or in many.
const SAMPLE: usize = 1 << 20;

const SIZES: [(&str, usize); 10] = [
    ("64 B", 1 << 6),
    ("256 B", 1 << 8),
    ("1 KiB", 1 << 10),
    ("4 KiB", 1 << 12),
    ("16 KiB", 1 << 14),
    ("64 KiB", 1 << 16),
    ("256 KiB", 1 << 18),
    ("1 MiB", 1 << 20),
    ("4 MiB", 1 << 22),
    ("16 MiB", 1 << 24),
];

const HEADING: &str = "\
| bytes | columns | rows | memcpy | columns, of memcpy's speed | rows, of it | columns, a row | rows, a row |
|---|---:|---:|---:|---:|---:|---:|---:|";

/// A call that reads the first buffer and writes the second.
type Rearrangement = fn(&[u8], &mut [u8]);

const WAYS: [Rearrangement; 3] = [
    |from, to| assert_eq!(columns(from, to).number, 0),
    |from, to| assert_eq!(rows(from, to).number, 0),
    |from, to| to.copy_from_slice(from),
];

/// Shows a line for each size: bytes a second, in 10^9, from the medians of so many rounds, and the time of a
/// row of eight bytes.
pub fn show(rounds: usize) {
    println!("\n{HEADING}");
    for (name, size) in SIZES {
        let [columns, rows, copy] = times(size, rounds);
        let speed = |time: f64| size as f64 / time / 1e9;
        let row = |time: f64| time / (size / 8) as f64 * 1e9;
        println!(
            "| {name} | {:.2} GB/s | {:.2} GB/s | {:.1} GB/s | {:.2} | {:.2} | {:.2} ns | {:.2} ns |",
            speed(columns),
            speed(rows),
            speed(copy),
            copy / columns,
            copy / rows,
            row(columns),
            row(rows),
        );
    }
}

/// The median seconds of a call, each way. They take turns.
fn times(size: usize, rounds: usize) -> [f64; 3] {
    let from: Vec<u8> = (0..size).map(|i| (i * i / 3) as u8).collect();
    let mut to = vec![0; size];
    let calls = SAMPLE.div_ceil(size);
    let mut samples: [Vec<Duration>; 3] = Default::default();
    for _ in 0..rounds {
        for (samples, way) in samples.iter_mut().zip(WAYS) {
            let work = || (0..calls).for_each(|_| way(black_box(&from), black_box(&mut to)));
            samples.push(measured(work).0);
        }
    }
    samples.map(|mut samples| {
        samples.sort();
        samples[samples.len() / 2].as_secs_f64() / calls as f64
    })
}
