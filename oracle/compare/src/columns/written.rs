//! Rows and their columns that are written down, for library and model alike.

use super::{Comparison, Way};

/// Rows, and their columns.
const WRITTEN_DOWN: [(&[u8], &[u8]); 4] = [
    (&[], &[]),
    (&[1, 2, 3, 4, 5, 6, 7, 8], &[1, 2, 3, 4, 5, 6, 7, 8]),
    // 500, 250, 0 and 65,535; then 512, 249, 65,535 and 0.
    (
        &[
            0xF4, 1, 0xFA, 0, 0, 0, 0xFF, 0xFF, //
            0, 2, 0xF9, 0, 0xFF, 0xFF, 0, 0,
        ],
        &[
            0xF4, 1, 12, 0, // 500, and 12 more
            0xFA, 0, 0xFF, 0xFF, // 250, and 1 less
            0, 0, 0xFF, 0xFF, // 0, and 1 less, going round
            0xFF, 0xFF, 1, 0, // 65,535, and 1 more, going round
        ],
    ),
    // 10, 1,000, 32,768 and 65,535; 13, 1,000, 0 and 65,534; 11, 999, 32,767 and 0.
    (
        &[
            10, 0, 0xE8, 3, 0, 0x80, 0xFF, 0xFF, //
            13, 0, 0xE8, 3, 0, 0, 0xFE, 0xFF, //
            11, 0, 0xE7, 3, 0xFF, 0x7F, 0, 0,
        ],
        &[
            10, 0, 3, 0, 0xFE, 0xFF, // 10, 3 more, 2 less
            0xE8, 3, 0, 0, 0xFF, 0xFF, // 1,000, the same, 1 less
            0, 0x80, 0, 0x80, 0xFF, 0x7F, // 32,768, as many less, 32,767 more
            0xFF, 0xFF, 0xFF, 0xFF, 2, 0, // 65,535, 1 less, 2 more, going round
        ],
    ),
];

impl Comparison<'_> {
    /// What is written down: both functions have to give it, whatever the model says.
    pub fn written_down(&mut self) {
        for (rows, columns) in WRITTEN_DOWN {
            for (way, from, to) in [(Way::Columns, rows, columns), (Way::Rows, columns, rows)] {
                self.call(way, from, to.len(), Ok(to), ", written down");
                self.check(from, to.len());
            }
        }
    }
}
