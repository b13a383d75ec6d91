//! What the Rust does where the library refuses, or answers something else; docs/DIFFERENCES.md has an
//! input for each. All of it has to be seen, and nothing else.

use crate::report::Report;

/// By operation: the library's reply, and what the Rust does there. Of `columns` and `rows` there is
/// nothing, as the Rust has no such operation.
const DIFFERENCES: [(&str, &[(u32, &str)]); 14] = [
    (
        "grow",
        &[
            (7, "cuts the store to 0 pages"),
            (7, "cuts the store to 8,192 pages"),
        ],
    ),
    (
        "total",
        &[(0, "counts a page more"), (10, "computes a total")],
    ),
    (
        "read_list",
        &[
            (0, "panics"),
            (2, "gives an I/O error"),
            (2, "reads it"),
            (3, "gives an I/O error"),
            (3, "panics"),
            (3, "reads it"),
            (3, "would not end"),
            (4, "gives an I/O error"),
            (4, "panics"),
            (4, "reads it"),
            (4, "would not end"),
            (5, "gives an I/O error"),
            (5, "would not end"),
            (22, "reads it"),
        ],
    ),
    (
        "hand_out",
        &[
            (1, "hands out 0"),
            (7, "hands it out"),
            (7, "hands it out and cuts the store"),
        ],
    ),
    (
        "finish",
        &[
            (0, "leaves the bytes past the entries"),
            (7, "takes the bump for a list page"),
            (7, "takes the bump for a list page and cuts the store"),
            (8, "keeps it in the list and hands it out"),
            (22, "hands a number out twice"),
            (22, "hands out a list page"),
            (22, "writes over the head"),
        ],
    ),
    (
        "write_value_page",
        &[
            (0, "leaves the bytes past the value's"),
            (0, "writes a page more"),
            (10, "panics"),
            (10, "writes it"),
        ],
    ),
    ("encode_cell", &[(10, "panics"), (10, "writes it")]),
    (
        "decode_cell",
        &[(10, "panics"), (10, "reads it"), (12, "panics")],
    ),
    (
        "read_value",
        &[
            (0, "panics"),
            (10, "panics"),
            (10, "reads it"),
            (12, "panics"),
            (14, "panics"),
            (15, "panics"),
            (15, "reads it"),
            (16, "panics"),
            (17, "panics"),
            (17, "reads it by the old total"),
            (18, "panics"),
            (25, "panics"),
            (25, "reads it"),
        ],
    ),
    (
        "delete_value",
        &[
            (0, "panics"),
            (10, "deletes it"),
            (10, "panics"),
            (12, "panics"),
            (15, "deletes it"),
            (15, "panics"),
            (16, "panics"),
            (17, "panics"),
            (25, "deletes it"),
            (25, "panics"),
        ],
    ),
    ("lookup", &[(15, "panics"), (15, "reads it")]),
    (
        "write_value_page in histories",
        &[(0, "writes a page more")],
    ),
    ("read_value in histories", &[(0, "panics")]),
    ("delete_value in histories", &[(0, "panics")]),
];

/// Adds a disagreement for each difference that was not seen, and for each that is not known.
pub fn check(report: &mut Report) {
    let operation = report.operation();
    let listed = DIFFERENCES
        .into_iter()
        .filter(|(name, _)| *name == operation)
        .flat_map(|(_, differences)| differences.iter().copied());
    report.compare_differences(&listed.collect::<Vec<_>>());
}
