//! Compares libmopsienna with the Rust, one operation after another.
//!
//! Exits with 0 if they agree everywhere, 1 if they disagree, 2 if the comparison could not be
//! made.

mod columns;
mod differences;
mod grow;
mod histories;
mod lists;
mod map;
mod numbers;
mod panics;
mod record;
mod report;
mod saves;
mod self_test;
mod totals;
mod values;

use mopsienna_sys::Form;
use record::Recorder;
use report::text_of;
use std::{collections::BTreeMap, env, io, ops::RangeInclusive, process::ExitCode};

/// The refusals of document 01's table, and those of document 02.
const REFUSALS: [RangeInclusive<u32>; 3] = [1..=18, 21..=22, 25..=27];

const USAGE: &str = "\
usage: compare [--short] [--seed N] [--count N] [--self-test] [--record FILE]
  --short      some seconds instead of some minutes
  --seed N     the seed of the random cases
  --count N    random cases for each operation; a twentieth of that for lists, a tenth for saves, a
               fiftieth for values and a hundredth for saves in histories
  --self-test  see whether wrong replies are caught, over the short form
  --record FILE  write some of the calls with what is expected of them, over the short form";

/// What is to be compared.
pub struct Plan {
    pub short: bool,
    pub seed: u64,
    pub count: u64,
    pub recorder: Recorder,
}

struct Options {
    plan: Plan,
    self_test: bool,
    record: Option<String>,
}

fn main() -> ExitCode {
    let Some(options) = options() else {
        eprintln!("{USAGE}");
        return ExitCode::from(2);
    };
    let agreed = if options.self_test {
        self_test::run(&options.plan)
    } else {
        compare(&options.plan)
    };
    let recorded = match (&options.record, &agreed) {
        (Some(path), Ok(true)) => options
            .plan
            .recorder
            .write(path, options.plan.seed, options.plan.count)
            .map(|counts| println!("{counts}")),
        _ => Ok(()),
    };
    match recorded.and(agreed) {
        Ok(true) => ExitCode::SUCCESS,
        Ok(false) => ExitCode::FAILURE,
        Err(error) => {
            eprintln!("{error}");
            ExitCode::from(2)
        }
    }
}

/// Compares every operation. Tells whether all agree.
fn compare(plan: &Plan) -> io::Result<bool> {
    println!(
        "seed {}, {} random cases each, {} of lists, {} of saves, {} of values, {} of saves in histories",
        plan.seed,
        plan.count,
        plan.count / lists::RANDOM_SHARE,
        plan.count / saves::RANDOM_SHARE,
        plan.count / values::RANDOM_SHARE,
        plan.count / histories::RANDOM_SHARE
    );
    let operations: [&dyn Fn() -> io::Result<Vec<report::Report>>; 7] = [
        &|| Ok(vec![grow::compare(plan, mopsienna_sys::grow)?]),
        &|| Ok(vec![totals::compare(plan, Form::total)]),
        &|| Ok(vec![lists::compare(plan, &saves::Linked)?]),
        &|| Ok(saves::compare(plan, &saves::Linked)?.into()),
        &|| Ok(values::compare(plan, &values::Linked)?.into()),
        &|| {
            let (saves, values) = histories::compare(plan, &saves::Linked, &values::Linked)?;
            Ok(saves.into_iter().chain(values).collect())
        },
        &|| Ok(columns::compare(plan, &columns::Linked)?.into()),
    ];
    let mut agreed = true;
    let mut reached = BTreeMap::new();
    for operation in operations {
        for mut report in operation()? {
            differences::check(&mut report);
            println!("{report}");
            agreed &= report.agrees();
            for (number, calls) in report.replies() {
                *reached.entry(*number).or_default() += calls;
            }
        }
    }
    Ok(all_refusals(&reached) && agreed)
}

/// Shows how often each reply was expected, and tells whether every refusal was.
fn all_refusals(reached: &BTreeMap<u32, u64>) -> bool {
    let calls: u64 = reached.values().sum();
    println!(
        "all: {calls} calls\n  replies by number: {}",
        text_of(reached)
    );
    let missing: Vec<u32> = REFUSALS
        .into_iter()
        .flatten()
        .filter(|number| !reached.contains_key(number))
        .collect();
    if !missing.is_empty() {
        println!("  never reached: {missing:?}");
    }
    missing.is_empty()
}

fn options() -> Option<Options> {
    let mut short = false;
    let mut self_test = false;
    let mut seed = 1;
    let mut count = None;
    let mut record = None;

    let mut arguments = env::args().skip(1);
    while let Some(argument) = arguments.next() {
        match argument.as_str() {
            "--short" => short = true,
            "--self-test" => self_test = true,
            "--seed" => seed = arguments.next()?.parse().ok()?,
            "--count" => count = Some(arguments.next()?.parse().ok()?),
            "--record" => record = Some(arguments.next()?),
            _ => return None,
        }
    }

    let short = short || self_test || record.is_some();
    let recorder = match record {
        Some(_) => Recorder::on(),
        None => Recorder::default(),
    };
    let default = match (self_test, short) {
        (true, _) => 1_000,
        (_, true) => 100_000,
        _ => 5_000_000,
    };
    let count = count.unwrap_or(default);
    Some(Options {
        plan: Plan {
            short,
            seed,
            count,
            recorder,
        },
        self_test,
        record,
    })
}
