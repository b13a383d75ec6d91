//! Times libmopsienna beside the Rust, one operation after another.

mod cells;
mod columns;
mod lists;
mod lookups;
mod maps;
mod numbers;
mod saves;
mod timing;
mod values;

use std::{env, io, process::ExitCode};
use timing::{Row, Side};

const USAGE: &str = "\
usage: bench [--rounds N] [PREFIX] | --once ROW ours|theirs|copy|fill|map|before
  --rounds N  samples of each side, 201 if not given
  PREFIX      only the rows whose names begin so; columns is a table of its own
  --once      one call of one side, for a program that counts instructions";

enum Mode {
    Compare { rounds: usize, prefix: String },
    Once { row: String, side: Side },
}

impl Mode {
    /// Whether a row of this name is to be run.
    fn takes(&self, name: &str) -> bool {
        match self {
            Mode::Compare { prefix, .. } => name.starts_with(prefix),
            Mode::Once { row, .. } => name == row,
        }
    }
}

fn main() -> ExitCode {
    let Some(mode) = mode() else {
        eprintln!("{USAGE}");
        return ExitCode::from(2);
    };
    match run(mode) {
        Ok(()) => ExitCode::SUCCESS,
        Err(error) => {
            eprintln!("{error}");
            ExitCode::from(2)
        }
    }
}

fn run(mode: Mode) -> io::Result<()> {
    let takes = |name: &str| mode.takes(name);
    let operations: [&dyn Fn() -> io::Result<Vec<Row>>; 5] = [
        &|| lists::rows(&takes),
        &|| saves::rows(&takes),
        &|| Ok(cells::rows()),
        &|| values::rows(&takes),
        &lookups::rows,
    ];
    let mut found = false;
    for operation in operations {
        for mut row in operation()?.into_iter().filter(|row| takes(&row.name)) {
            match &mode {
                Mode::Compare { rounds, .. } => {
                    if !found {
                        println!("{}", timing::HEADING);
                    }
                    println!("{}", row.compare(*rounds));
                }
                Mode::Once { side, .. } => drop(row.sample(*side, 1)),
            }
            found = true;
        }
    }
    if let Mode::Compare { rounds, prefix } = &mode {
        if "columns".starts_with(prefix.as_str()) {
            found = true;
            columns::show(*rounds);
        }
    }
    match found {
        true => Ok(()),
        false => Err(io::Error::other("no such row")),
    }
}

fn mode() -> Option<Mode> {
    let arguments: Vec<String> = env::args().skip(1).collect();
    let arguments: Vec<&str> = arguments.iter().map(String::as_str).collect();
    match arguments.as_slice() {
        ["--once", row, side] => Some(Mode::Once {
            row: row.to_string(),
            side: match *side {
                "ours" => Side::Ours,
                "theirs" => Side::Theirs,
                "copy" => Side::Copy,
                "fill" => Side::Fill,
                "map" => Side::Map,
                "before" => Side::Before,
                _ => return None,
            },
        }),
        ["--rounds", rounds, prefix @ ..] => compare(rounds.parse().ok()?, prefix),
        prefix => compare(201, prefix),
    }
}

/// All rows, or those that begin with a prefix.
fn compare(rounds: usize, prefix: &[&str]) -> Option<Mode> {
    let prefix = match prefix {
        [] => "",
        [prefix] if !prefix.starts_with('-') => prefix,
        _ => return None,
    };
    (rounds > 0).then(|| Mode::Compare {
        rounds,
        prefix: prefix.to_string(),
    })
}
