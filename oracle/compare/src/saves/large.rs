//! Saves with the greatest bump, whose bit map takes 512 MiB.

use super::{
    after,
    lent::Room,
    model::{Finish, LAST_BUMP},
    open_save, Comparison, Form,
};
use crate::{map, Plan};
use nomt_plain::{List, Rust, State};
use std::io;

/// Finishes them with a map that is too short. It takes its time to clear one that is not: in a short run
/// only these saves get one.
pub fn each<R: Rust>(
    comparison: &mut Comparison,
    form: Form,
    plan: &Plan,
    in_short: &[usize],
) -> io::Result<()> {
    for (at, (bump, list, count, freed)) in saves().into_iter().enumerate() {
        let state = State {
            bump,
            length: bump,
            list,
        };
        let rust = R::open(&state)?;
        let after = after(&rust, R::finish(rust.start(count), &freed)?);
        let save = open_save(&state, count as u64);
        let finish = Finish::new(form, &save, &state.list, &freed, &after);
        let map = map::in_use(finish.bits());
        let [exact, ample, pages, entries, bytes, .., short] =
            Room::around::<R>(finish.list, finish.after, map);
        comparison.finishing::<R>(&finish, short);
        comparison.finishing::<R>(&finish, Room { map: 0, ..exact });
        let long_enough: &[Room] = match (plan.short, plan.count) {
            (true, 0..=10_000) => &[],
            (true, _) if in_short.contains(&at) => &[exact],
            (true, _) => &[],
            _ => &[exact, ample, pages, entries, bytes],
        };
        for room in long_enough {
            comparison.finishing::<R>(&finish, *room);
        }
    }
    Ok(())
}

/// A bump, a list, how many numbers are handed out, and those freed.
type Saved = (u32, List, usize, Vec<u32>);

fn saves() -> Vec<Saved> {
    let last = LAST_BUMP as u32;
    let two = |page, entries: [u32; 2]| vec![(page, entries.to_vec())];
    vec![
        // The last entry is handed out and freed again.
        (last, two(last - 1, [1, last - 2]), 1, vec![last - 2]),
        // Nothing changes.
        (last, two(last - 1, [1, last - 2]), 0, vec![]),
        // An entry at the bump; a list page there; a number that is freed twice.
        (last, two(7, [last, 1]), 0, vec![]),
        (last, two(last, [1, 2]), 0, vec![]),
        (last, two(7, [1, last - 1]), 0, vec![last - 1]),
        // Numbers past the list are handed out, and the last of them is freed again.
        (last - 4, two(7, [1, 2]), 5, vec![last - 2]),
    ]
}
