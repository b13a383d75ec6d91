//! The cases of document 01's sample tray, with what it says of them.

use super::{
    after,
    lent::{lent, Room},
    model::{self, Finish},
    open_save, Comparison, Form, FINISH,
};
use common::Random;
use nomt_plain::{List, Rust, State};
use std::io;

/// A list page as document 01 gives it: its number, its previous one and its entries.
type Page = (u32, u32, Vec<u32>);

struct Sample {
    list: List,
    bump: u32,
    handed: Vec<u32>,
    freed: Vec<u32>,
    written: Vec<Page>,
    bump_after: u32,
}

pub fn each<R: Rust>(comparison: &mut Comparison, form: Form) -> io::Result<()> {
    for sample in samples() {
        check::<R>(comparison, form, &sample)?;
    }
    Ok(())
}

fn samples() -> Vec<Sample> {
    let two = vec![(10, vec![20, 21])];
    let full: Vec<u32> = (101..=1122).collect();
    let sample = |list: &List, bump, handed: &[u32], freed: &[u32], written, bump_after| Sample {
        list: list.clone(),
        bump,
        handed: handed.to_vec(),
        freed: freed.to_vec(),
        written,
        bump_after,
    };
    let up_to_1120 = |more: &[u32]| [&full[..1020], more].concat();
    let fragmented = vec![(1122, up_to_1120(&[15])), (1121, vec![10])];
    vec![
        sample(&two, 30, &[21, 20], &[], vec![(30, 0, vec![10])], 31),
        sample(&two, 30, &[21], &[15], vec![(20, 0, vec![15, 10])], 30),
        sample(&two, 30, &[], &[15], vec![(21, 0, vec![20, 15, 10])], 30),
        sample(&vec![], 30, &[30, 31], &[], vec![], 32),
        sample(&vec![], 30, &[], &[5], vec![(30, 0, vec![5])], 31),
        sample(
            &vec![(10, vec![20])],
            30,
            &[20, 30, 31],
            &[],
            vec![(32, 0, vec![10])],
            33,
        ),
        sample(
            &vec![(10, full.clone()), (11, vec![40])],
            2000,
            &[],
            &[15],
            vec![(10, 0, full.clone()), (40, 10, vec![15, 11])],
            2000,
        ),
        sample(
            &vec![(10, full.clone())],
            2000,
            &[],
            &[15],
            vec![(1122, 0, up_to_1120(&[15])), (1121, 1122, vec![10])],
            2000,
        ),
        sample(
            &fragmented,
            2000,
            &[],
            &[16],
            vec![(10, 0, up_to_1120(&[16, 1122])), (15, 10, vec![1121])],
            2000,
        ),
    ]
}

fn check<R: Rust>(comparison: &mut Comparison, form: Form, sample: &Sample) -> io::Result<()> {
    let state = State {
        bump: sample.bump,
        length: sample.bump,
        list: sample.list.clone(),
    };
    let rust = R::open(&state)?;
    let count = sample.handed.len();
    let (pages, entries) = model::size(&state.list);
    let tables = lent(&state.list, Room::tables(pages, entries));
    let mut numbers = vec![];
    for handed in 0..count {
        let save = open_save(&state, handed as u64);
        comparison.hand_out::<R>(form, &save, &tables.pages, &tables.entries, || {
            let got = R::hand_out(&rust.start(handed))?;
            numbers.push(got.0);
            Ok(got)
        })?;
    }
    let finished = R::finish(rust.start(count), &sample.freed)?;
    let after = after(&rust, finished);
    let written: Vec<Page> = after.written.iter().map(page).collect();
    let as_said = numbers == sample.handed
        && written == sample.written
        && after.state.bump == sample.bump_after;
    if !as_said {
        let (list, freed) = (&sample.list, &sample.freed);
        comparison.reports[FINISH].disagree(0, || {
            format!("list {list:?}, freed {freed:?}: the Rust is not as document 01 says")
        });
    }

    let save = open_save(&state, count as u64);
    let mut random = Random::new(1);
    let list = &state.list;
    let finish = Finish::new(form, &save, list, &sample.freed, &after);
    comparison.finishes::<R>(&finish, &mut random);
    comparison.kind::<R>(&finish);
    Ok(())
}

/// A list page's bytes, read.
fn page((number, bytes): &(u32, Vec<u8>)) -> Page {
    let number_at = |at: usize| u32::from_le_bytes([0, 1, 2, 3].map(|byte| bytes[at + byte]));
    let count = u16::from_le_bytes([bytes[4], bytes[5]]).into();
    let entries = (0..count).map(|entry| number_at(6 + 4 * entry)).collect();
    (*number, number_at(0), entries)
}
