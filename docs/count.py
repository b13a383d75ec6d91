"""Counts the instructions of one call on each side, by callgrind, and prints them as the table 'How cost grows' of
docs/PERFORMANCE.md: make count"""

import re
import subprocess
import sys

BENCH = "oracle/target/release/bench"
BYTES = {"100B": 100, "4KiB": 4096, "64KiB": 65536, "1MiB": 1 << 20, "16MiB": 1 << 24}


def rows():
    """The rows of the table: the operation, its size and the row of the benchmark."""
    for pages in (1, 100, 3000):
        yield "read a list, pages", pages, f"read_list-{pages}-memory"
    for freed in (10, 1000, 100000, 1000000):
        yield "finish, freed numbers", freed, f"finish-{freed}-10"
    yield "hand out, numbers from the list", 1000000, "hand_out-1000000-listed"
    yield "hand out, numbers past the bump", 1000000, "hand_out-1000000-past"
    for operation, row in (
        ("write a value, bytes", "write-{}-page"),
        ("read a value, bytes", "read-{}-memory"),
        ("delete a value, bytes", "delete-{}"),
    ):
        for name, size in BYTES.items():
            yield operation, size, row.format(name)


def count(row, side):
    """The instructions of one call."""
    command = ["valgrind", "--tool=callgrind", "--callgrind-out-file=/dev/null", "--toggle-collect=*measured*"]
    run = subprocess.run(command + [BENCH, "--once", row, side], capture_output=True, text=True, check=True)
    collected = re.search(r"Collected : (\d+)", run.stderr)
    if collected is None or int(collected[1]) == 0:
        sys.exit(f"{row} {side}: nothing was counted")
    return int(collected[1])


def main():
    print("| operation | size | ours | the Rust | ours / the Rust |\n|---|---:|---:|---:|---:|")
    for operation, size, row in rows():
        ours, theirs = count(row, "ours"), count(row, "theirs")
        print(f"| {operation} | {size:,} | {ours:,} | {theirs:,} | {ours / theirs:.2f} |", flush=True)


main()
