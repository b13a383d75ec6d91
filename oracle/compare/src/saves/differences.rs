//! Saves that the library refuses and the Rust makes, the smallest of each kind, with what the Rust
//! makes of them; and the bytes that the Rust leaves on a list page.

use super::{
    after,
    lent::{list_text, Room},
    model::{self, Finish, LAST_BUMP},
    open_save, Comparison, Form, FINISH, HAND_OUT,
};
use crate::map;
use nomt_plain::{List, Rust, State};
use std::io;

/// The greatest length that a store is given.
const LAST_LENGTH: u32 = 4_294_959_104;

pub fn each<R: Rust>(comparison: &mut Comparison, form: Form) -> io::Result<()> {
    handed_out::<R>(comparison, form)?;
    list_page_past_the_limit::<R>(comparison, form)?;
    bad_freed::<R>(comparison, form)?;
    repeats::<R>(comparison, form)?;
    left_bytes::<R>(comparison)
}

/// Bump 0, and the greatest bump: its number, and the one at which the store is cut.
fn handed_out<R: Rust>(comparison: &mut Comparison, form: Form) -> io::Result<()> {
    let last = LAST_BUMP as u32;
    for (bump, length, count, expected, number, does) in [
        (0, 0, 0, (0, 8192), model::STATE, "hands out 0"),
        (
            last,
            last - 1,
            0,
            (last, LAST_LENGTH),
            model::LIMIT,
            "hands it out",
        ),
        (
            last,
            LAST_LENGTH,
            (LAST_LENGTH - last).into(),
            (LAST_LENGTH, 0),
            model::LIMIT,
            "hands it out and cuts the store",
        ),
    ] {
        let given = hand_out::<R>(comparison, form, &empty(bump, length), count)?;
        note(
            comparison,
            HAND_OUT,
            given == expected,
            number,
            does,
            || format!("bump {bump}, length {length}, {count} handed out: {given:?}"),
        );
    }
    Ok(())
}

/// The greatest bump becomes a list page, with a store that is long enough and with one that is not.
fn list_page_past_the_limit<R: Rust>(comparison: &mut Comparison, form: Form) -> io::Result<()> {
    let last = LAST_BUMP as u32;
    for (length, length_after, does) in [
        (LAST_LENGTH, LAST_LENGTH, "takes the bump for a list page"),
        (last, 0, "takes the bump for a list page and cuts the store"),
    ] {
        let state = finish::<R>(comparison, form, &empty(last, length), 0, &[5])?.state();
        let as_said = state
            == State {
                bump: last + 1,
                length: length_after,
                list: vec![(last, vec![5])],
            };
        note(comparison, FINISH, as_said, model::LIMIT, does, || {
            format!("bump {last}, length {length}, 5 freed: {state:?}")
        });
    }
    Ok(())
}

/// Numbers that are none, freed.
fn bad_freed<R: Rust>(comparison: &mut Comparison, form: Form) -> io::Result<()> {
    for freed in [0, 30] {
        let rust = finish::<R>(comparison, form, &empty(30, 8192), 0, &[freed])?;
        let list = rust.state().list;
        let (next, _) = R::hand_out(&rust.start(0))?;
        let as_said = list == [(30, vec![freed])] && next == freed;
        let does = "keeps it in the list and hands it out";
        note(comparison, FINISH, as_said, model::FREED, does, || {
            format!("bump 30, {freed} freed: {list:?}, then {next}")
        });
    }
    Ok(())
}

const TWICE: &str = "hands a number out twice";
const LIST_PAGE: &str = "hands out a list page";
const OVER: &str = "writes over the head";

/// A bump, a list, how many numbers are handed out, and those freed.
type Before<'a> = (u32, List, usize, &'a [u32]);

/// The list after the finish, and what the next save is handed.
type Then<'a> = (List, &'a [u32]);

/// Numbers that occur twice, or lie at the bump.
fn repeats<R: Rust>(comparison: &mut Comparison, form: Form) -> io::Result<()> {
    let full: Vec<u32> = (101..).take(R::CAPACITY).collect();
    let one = |page: u32, entries: &[u32]| vec![(page, entries.to_vec())];
    let on_full =
        |page: u32, entries: &[u32]| [vec![(10, full.clone())], one(page, entries)].concat();
    let cases: [(Before, Then, &str); 14] = [
        // A number is freed twice; a list page is freed, also an emptied one.
        ((30, vec![], 0, &[5, 5]), (one(30, &[5, 5]), &[5, 5]), TWICE),
        (
            (30, one(10, &[20]), 0, &[10]),
            (one(20, &[10, 10]), &[10, 10]),
            TWICE,
        ),
        (
            (30, one(10, &[20]), 1, &[10]),
            (one(30, &[10, 10]), &[10, 10]),
            TWICE,
        ),
        // An entry is freed that was not handed out, and a list page below the head.
        (
            (30, one(10, &[20]), 0, &[20]),
            (one(20, &[20, 10]), &[10, 20]),
            LIST_PAGE,
        ),
        (
            (30, one(10, &[20, 21]), 0, &[20]),
            (one(21, &[20, 20, 10]), &[10, 20, 20]),
            TWICE,
        ),
        (
            (2000, on_full(11, &[40]), 0, &[10]),
            (on_full(40, &[10, 11]), &[11, 10]),
            LIST_PAGE,
        ),
        // An entry stands twice on the list; an entry is a list page.
        (
            (30, one(10, &[20, 20]), 0, &[]),
            (one(10, &[20, 20]), &[20, 20]),
            TWICE,
        ),
        (
            (30, one(10, &[10]), 0, &[]),
            (one(10, &[10]), &[10]),
            LIST_PAGE,
        ),
        // A list page at the bump.
        (
            (10, one(10, &[5]), 0, &[]),
            (one(10, &[5]), &[5, 10]),
            LIST_PAGE,
        ),
        (
            (10, one(10, &[5]), 0, &[6]),
            (one(5, &[6, 10]), &[10, 6, 10]),
            TWICE,
        ),
        ((10, one(10, &[5]), 1, &[]), (one(10, &[10]), &[10]), OVER),
        // An entry at the bump.
        (
            (10, one(5, &[10]), 0, &[]),
            (one(5, &[10]), &[10, 10]),
            TWICE,
        ),
        (
            (10, one(5, &[10]), 0, &[6]),
            (one(10, &[6, 5]), &[5, 6, 10]),
            LIST_PAGE,
        ),
        (
            (10, one(5, &[10, 6]), 1, &[]),
            (one(10, &[5]), &[5, 10]),
            LIST_PAGE,
        ),
    ];
    for ((bump, list, count, freed), (list_after, handed), does) in cases {
        let state = State {
            bump,
            length: 8192,
            list,
        };
        let rust = finish::<R>(comparison, form, &state, count, freed)?;
        let list = rust.state().list;
        let numbers = (0..handed.len()).map(|count| Ok(R::hand_out(&rust.start(count))?.0));
        let next: Vec<u32> = numbers.collect::<io::Result<_>>()?;
        let as_said = list == list_after && next == handed;
        let [before, after] = [&state.list, &list].map(list_text);
        note(comparison, FINISH, as_said, map::REPEAT, does, || {
            let given = format!("bump {bump}, list {before}{count} handed out, {freed:?} freed");
            format!("{given}: list {after}then {next:?}")
        });
    }
    Ok(())
}

/// A store with an empty list.
fn empty(bump: u32, length: u32) -> State {
    State {
        bump,
        length,
        list: vec![],
    }
}

/// Counts what the Rust does, or that it does something else.
fn note(
    comparison: &mut Comparison,
    report: usize,
    as_said: bool,
    number: u32,
    does: &'static str,
    text: impl FnOnce() -> String,
) {
    let does = if as_said { does } else { "does something else" };
    comparison.reports[report].class(number, does, text);
}

/// Hands out behind so many numbers, which the library has to refuse. Gives the Rust's number and
/// recorded length.
fn hand_out<R: Rust>(
    comparison: &mut Comparison,
    form: Form,
    state: &State,
    count: u64,
) -> io::Result<(u32, u32)> {
    let save = open_save(state, count);
    comparison.hand_out::<R>(form, &save, &[], &[], || {
        unreachable!("document 01 refuses this")
    })?;
    R::hand_out(&R::open(state)?.start(count as usize))
}

/// Finishes behind so many numbers handed out, with these freed, which the library has to refuse. Gives the
/// Rust's store.
fn finish<R: Rust>(
    comparison: &mut Comparison,
    form: Form,
    state: &State,
    count: usize,
    freed: &[u32],
) -> io::Result<R> {
    let rust = R::open(state)?;
    let after = after(&rust, R::finish(rust.start(count), freed)?);
    let save = open_save(state, count as u64);
    let finish = Finish::new(form, &save, &state.list, freed, &after);
    let map = match map::in_use(finish.bits()) {
        enough @ 0..=1000 => enough,
        _ => 0,
    };
    let [_, ample, ..] = Room::around::<R>(&state.list, &after, map);
    comparison.finishing::<R>(&finish, ample);
    Ok(rust)
}

/// The bytes past the entries, on a page that was not zeroed before.
fn left_bytes<R: Rust>(comparison: &mut Comparison) -> io::Result<()> {
    const FILLER: u8 = 0xA5;
    let rust = R::open(&empty(30, 8192))?;
    let finished = R::with_filled_pages(FILLER, || R::finish(rust.start(0), &[5]))?;
    let page = &finished.written[0].1;
    let as_said = page[6..10] == [5, 0, 0, 0] && page[10..].iter().all(|byte| *byte == FILLER);
    let does = "leaves the bytes past the entries";
    note(comparison, FINISH, as_said, 0, does, || {
        "bump 30, empty list, 5 freed".into()
    });
    Ok(())
}
