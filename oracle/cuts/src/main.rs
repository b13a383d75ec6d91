//! Cuts saves on a simulated disk: whichever of a save's page writes come through, and in whichever
//! order, the save before it has to read as it did, to the byte.
//!
//! Exits with 0 if nothing is lost, 1 if something is.

mod disk;
mod history;
mod map;
mod save;
mod values;

use history::{run, Harm, Plan, Tally};
use mopsienna_sys::Form;
use std::{env, process::ExitCode};

const USAGE: &str = "\
usage: cuts [--short] [--seed N] [--self-test]
  --short      some seconds instead of some minutes
  --seed N     the seed of the histories
  --self-test  see whether a finish that is broken on purpose is caught";

/// The page sizes, each with how many saves a history has, how many histories there are, and how many
/// random cuts are tried of a long save.
const SIZES: [(usize, u64, u64, u64); 7] = [
    (16, 120, 240, 60),
    (20, 120, 240, 60),
    (24, 120, 240, 60),
    (28, 120, 240, 60),
    (32, 120, 240, 60),
    (1024, 100, 120, 40),
    (4096, 80, 120, 30),
];

/// The page sizes at which saves are harmed: the least, and that of the small panel.
const HARMED: [usize; 2] = [16, 1024];

struct Options {
    short: bool,
    seed: u64,
    self_test: bool,
}

fn main() -> ExitCode {
    let Some(options) = options() else {
        eprintln!("{USAGE}");
        return ExitCode::from(2);
    };
    let kept = if options.self_test {
        self_test(options.seed)
    } else {
        cuts(&options)
    };
    if kept {
        ExitCode::SUCCESS
    } else {
        ExitCode::FAILURE
    }
}

/// Cuts saves at every page size. Tells whether nothing was lost.
fn cuts(options: &Options) -> bool {
    let mut all = Tally::default();
    for (size, saves, histories, cuts) in SIZES {
        let histories = if options.short { 1 } else { histories };
        let plan = Plan {
            form: Form::at(size),
            saves,
            cuts,
            harm: Harm::None,
        };
        let mut tally = Tally::default();
        for history in 0..histories {
            add(&mut tally, run(&plan, options.seed + (history << 32)));
        }
        println!("page size {size}: {tally}");
        add(&mut all, tally);
    }
    println!("cuts: {all}");
    if let Some(loss) = &all.first_loss {
        println!("first loss: {loss}");
    }
    all.lost == 0
}

/// A finish that is broken on purpose must lose something.
fn self_test(seed: u64) -> bool {
    let harms = [
        (Harm::FreedReused, "a freed number reused"),
        (Harm::HeadInPlace, "the head written in place"),
    ];
    let mut caught = true;
    for (harm, name) in harms {
        for size in HARMED {
            let plan = Plan {
                form: Form::at(size),
                saves: 60,
                cuts: 20,
                harm,
            };
            let tally = run(&plan, seed);
            println!("page size {size}, {name}: {tally}");
            caught &= tally.lost > 0;
        }
    }
    println!(
        "self-test: {}",
        if caught {
            "each is caught"
        } else {
            "one is not caught"
        }
    );
    caught
}

fn add(to: &mut Tally, more: Tally) {
    to.saves += more.saves;
    to.cuts += more.cuts;
    to.in_every_way += more.in_every_way;
    to.most_writes = to.most_writes.max(more.most_writes);
    to.lost += more.lost;
    if to.first_loss.is_none() {
        to.first_loss = more.first_loss;
    }
}

fn options() -> Option<Options> {
    let mut options = Options {
        short: false,
        seed: 1,
        self_test: false,
    };
    let mut arguments = env::args().skip(1);
    while let Some(argument) = arguments.next() {
        match argument.as_str() {
            "--short" => options.short = true,
            "--self-test" => options.self_test = true,
            "--seed" => options.seed = arguments.next()?.parse().ok()?,
            _ => return None,
        }
    }
    Some(options)
}
