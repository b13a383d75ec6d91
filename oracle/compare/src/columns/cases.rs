//! What is rearranged: bytes that are the same in every run, and random ones.

use super::{
    model::{COLUMNS, ROW},
    Comparison, WAYS,
};
use crate::{map::dirty, report::difference, Plan};
use common::Store;
use mopsienna_sys::Reply;
use std::io;

/// Readings at both ends of their range, and in its middle.
const ENDS: [u16; 12] = [
    0, 1, 2, 255, 256, 32_766, 32_767, 32_768, 32_769, 65_533, 65_534, 65_535,
];

/// There are recordings of so many rows: some, and around as many as a reading has values.
pub const LONG: [usize; 4] = [1_000, 65_535, 65_536, 65_537];

/// A recording of 1 MiB has so many rows, two for each value of a reading.
const LONGEST: usize = 1 << 17;

/// In a long run there is a random recording of up to 1 MiB for so many random cases.
const LARGE_SHARE: u64 = 20_000;

/// A length that 32 bits do not hold.
const FAR: usize = 1 << 32;

/// Of a buffer of that length so many bytes at both ends are looked at.
const NEAR: usize = 4_096;

impl Comparison<'_> {
    /// Everything.
    pub fn each(&mut self, plan: &Plan) -> io::Result<()> {
        // The greatest length of cases of each kind.
        let (rooms, contents, single) = match (plan.short, plan.count) {
            (true, 0..=10_000) => (100, 100, 40),
            (true, _) => (300, 400, 160),
            _ => (1_000, 2_000, 400),
        };
        self.written_down();
        self.rooms(rooms);
        self.contents(contents);
        self.single_bytes(single);
        self.pairs();
        for rows in LONG {
            let from = self.any(ROW * rows);
            self.check(&from, from.len() + 3);
        }
        self.far()?;
        for _ in 0..plan.count {
            self.random();
        }
        if !plan.short {
            self.every_reading();
            for _ in 0..plan.count / LARGE_SHARE {
                let rows = self.random.of_any_length(LONGEST.ilog2());
                let from = self.any(ROW * rows as usize);
                self.check(&from, from.len());
            }
        }
        Ok(())
    }

    /// Every length, with every length of the second buffer up to some more.
    fn rooms(&mut self, most: usize) {
        for length in 0..=most {
            for room in 0..=length + 3 * ROW {
                let from = self.any(length);
                self.check(&from, room);
            }
        }
    }

    /// Contents that are the same in every run, of every length.
    fn contents(&mut self, most: usize) {
        for length in 0..=most {
            for from in contents(length) {
                let more = 1 + self.random.below(20) as usize;
                for room in [length, length + more, length.saturating_sub(more)] {
                    self.check(&from, room);
                }
            }
        }
    }

    /// A single byte that is not 0, at every place.
    fn single_bytes(&mut self, most: usize) {
        for length in (ROW..=most).step_by(ROW) {
            for at in 0..length {
                for byte in [1, 0x80, 0xFF] {
                    let mut from = vec![0; length];
                    from[at] = byte;
                    self.check(&from, length + at % 2);
                }
            }
        }
    }

    /// Every two of [`ENDS`] one after the other in each column, at its start and later, at its end and
    /// before; in rows and in columns.
    fn pairs(&mut self) {
        let in_rows = |_: usize, row: usize, column: usize| COLUMNS * row + column;
        let in_columns = |count: usize, row: usize, column: usize| count * column + row;
        for pair in ENDS.into_iter().flat_map(|one| ENDS.map(|two| [one, two])) {
            for column in 0..COLUMNS {
                for (before, after) in [(0, 0), (1, 0), (0, 1), (1, 1)] {
                    let count = before + pair.len() + after;
                    for place in [in_rows, in_columns] {
                        let mut from = dirty(ROW * count, &mut self.random);
                        for (row, reading) in (before..).zip(pair) {
                            put(&mut from, place(count, row, column), reading);
                        }
                        self.check(&from, from.len());
                    }
                }
            }
        }
    }

    /// Every reading there is before and after each of [`ENDS`], in each column; in rows and in columns.
    fn every_reading(&mut self) {
        for end in ENDS {
            let reading = |row: usize, column: usize| match row % 2 {
                0 => end,
                _ => (row / 2 + column) as u16,
            };
            let mut rows = vec![0; ROW * LONGEST];
            let mut columns = rows.clone();
            for row in 0..LONGEST {
                for column in 0..COLUMNS {
                    put(&mut rows, COLUMNS * row + column, reading(row, column));
                    put(&mut columns, LONGEST * column + row, reading(row, column));
                }
            }
            self.check(&rows, rows.len());
            self.check(&columns, columns.len() + 1);
        }
    }

    /// Lengths that 32 bits do not hold.
    fn far(&mut self) -> io::Result<()> {
        let mut store = Store::new(FAR + 2 * ROW)?;
        for length in [FAR, FAR + 4, FAR + ROW] {
            for room in [0, 4, ROW, 3 * ROW] {
                self.check(&store.bytes()[..length], room);
            }
        }
        let from = self.any(ROW);
        for way in WAYS {
            let room = FAR + 4;
            let buffer = &mut store.bytes_mut()[..room];
            self.random.fill(&mut buffer[..NEAR]);
            self.random.fill(&mut buffer[room - NEAR..]);
            let ends = |buffer: &[u8]| [&buffer[..NEAR], &buffer[room - NEAR..]].concat();
            let mut expected = ends(buffer);
            expected[..ROW].copy_from_slice(&way.model(&from));
            let reply = self.library.rearrange(way, &from, buffer);
            let got = ends(buffer);
            self.reports[way as usize].compare(
                &Reply::answer(&[]),
                &reply,
                got == expected,
                || {
                    let other = difference("ends", &expected, &got);
                    format!("{from:?}, buffer of {room}{other}")
                },
            );
        }
        Ok(())
    }

    /// A random case. Most are of whole rows, and get a buffer that is long enough.
    fn random(&mut self) {
        let random = &mut self.random;
        let rows = random.of_any_length(8) as usize;
        let part = random.pick(&[0, 0, 0, 0, 0, 0, 0, 1]) * random.below(ROW as u64) as usize;
        let length = ROW * rows + part;
        let other = 1 + random.below(100) as usize;
        let room = random.pick(&[length, length, length + other, length.saturating_sub(other)]);
        let from = self.any(length);
        self.check(&from, room);
    }

    /// So many bytes, of any readings, or of some of [`ENDS`] alone.
    fn any(&mut self, length: usize) -> Vec<u8> {
        let random = &mut self.random;
        let mut from = dirty(length, random);
        if random.below(4) == 0 {
            for place in 0..length / 2 {
                put(&mut from, place, random.pick(&ENDS));
            }
        }
        from
    }
}

/// So many bytes: all the same, each its own, and readings of 0 and 65,535 in turns, some of the one and as
/// many of the other.
fn contents(length: usize) -> Vec<Vec<u8>> {
    let all = |byte: &dyn Fn(usize) -> u8| (0..length).map(byte).collect();
    let mut contents = vec![all(&|_| 0), all(&|_| 0xFF), all(&|at| at as u8)];
    for run in 1..=COLUMNS + 1 {
        for first in [0, 1] {
            contents.push(all(&|at| [0, 0xFF][(at / 2 / run + first) % 2]));
        }
    }
    contents
}

/// Puts a reading at this place among all.
fn put(bytes: &mut [u8], place: usize, reading: u16) {
    bytes[2 * place..][..2].copy_from_slice(&reading.to_le_bytes());
}
