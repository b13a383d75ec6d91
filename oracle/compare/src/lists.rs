//! `read_list`: a list read from its head page down into two tables.
//!
//! The Rust's `FreeList::read` reads the same store as a file. It accepts more than the library
//! and stops in other ways, so what to expect of a harmed list comes from a model of the documents.
//! Where the model finds a list, the Rust has to read the same one; what it does with the others is
//! counted, and with those that are refused for a number that occurs twice.

mod case;
mod fixed;
pub mod model;
mod random;
mod rust;
mod small;

use crate::{
    map,
    report::{difference, Report},
    saves::Library,
    Plan,
};
use case::Case;
use common::Random;
use model::{size, Read};
use mopsienna_sys::{Form, Reply};
use nomt_4096::{
    beatree::allocator::probe::free_list::{fragmented, portions},
    io::PAGE_SIZE,
};
use rust::Rust;
use std::io;

/// There is one random list for so many random cases of other operations, as it takes longer.
pub const RANDOM_SHARE: u64 = 20;

/// A map of more bytes that is long enough is lent to some of the calls alone.
const MOST_MAP: usize = 1 << 20;

/// Compares the library's `read_list`.
pub fn compare(plan: &Plan, library: &dyn Library) -> io::Result<Report> {
    let mut comparison = Comparison {
        library,
        report: Report::new("read_list"),
        random: Random::new(plan.seed),
        large: map::Large::default(),
        large_rooms: match (plan.short, plan.count) {
            (true, 0..=10_000) => 0,
            (true, _) => 1,
            _ => 5,
        },
    };
    fixed::each(&mut |case| comparison.check(case))?;
    comparison.large_rooms = 0;
    let mut check = |case: &Case| comparison.check(case);
    fixed::each_healthy(plan.short, &mut check)?;
    random::each(plan.seed, plan.count / RANDOM_SHARE, &mut check)?;
    small::each(plan, &mut comparison)?;
    comparison.report.reached(&[
        0,
        model::PAST_STORE,
        model::COUNT,
        model::ENTRY,
        model::NOT_ENDED,
        model::TABLES,
        map::TOO_SHORT,
        map::REPEAT,
    ]);
    Ok(comparison.report)
}

struct Comparison<'a> {
    library: &'a dyn Library,
    report: Report,
    /// What maps hold before a call.
    random: Random,
    large: map::Large,
    /// For how many of its rooms a list gets a map that is longer than [`MOST_MAP`] and long enough.
    large_rooms: usize,
}

/// What is lent beside the store: how many places of each.
#[derive(Clone, Copy, Debug)]
struct Room {
    pages: usize,
    entries: usize,
    map: usize,
}

impl Comparison<'_> {
    fn check(&mut self, case: &Case) {
        let model = model::read(PAGE_SIZE, case.store.bytes(), case.head);
        self.check_rust(case, &model);
        for (at, room) in rooms(case, &model).into_iter().enumerate() {
            let too_short = map::is_too_short(room.map, model.bits);
            if room.map <= MOST_MAP || too_short || at < self.large_rooms {
                let store = case.store.bytes();
                let text = || case.to_string();
                self.check_library(Form::Fixed, store, case.head, &model, room, text);
            }
        }
    }

    /// The Rust beside the model.
    fn check_rust(&mut self, case: &Case, model: &Read) {
        let rust = Rust::read(case);
        let agrees = match (&model.list, &rust) {
            (Ok(list), Rust::Reads(read)) => {
                let (pages, entries) = size(list);
                list == portions(read)
                    && entries == read.as_clean().len()
                    && model::fragmented(pages, entries) == Some(fragmented(read))
            }
            // The Rust takes the store's page count to 32 bits.
            (Ok(_), Rust::Panics) => case.store.bytes().len() / PAGE_SIZE > u32::MAX as usize,
            (Ok(_), _) => false,
            (Err(_), _) => true,
        };
        if !agrees {
            self.report
                .disagree_at_call("the Rust is not as expected", || case.to_string());
        }
        let number = model.number();
        if number != 0 || !matches!(rust, Rust::Reads(_)) {
            self.report.class(number, rust.name(), || case.to_string());
        }
    }

    /// The library beside the model, with so much room.
    fn check_library(
        &mut self,
        form: Form,
        store: &[u8],
        head: u32,
        model: &Read,
        room: Room,
        text: impl FnOnce() -> String,
    ) {
        let expected = expected(model, room);
        let mut tables = Tables::untouched(room);
        let library = self.library;
        let mut read = |map: &mut [u8]| {
            let (pages, entries) = (&mut tables.pages, &mut tables.entries);
            library.read_list(form, store, head, pages, entries, map)
        };
        let random = &mut self.random;
        let (reply, map) = if room.map <= MOST_MAP {
            let mut map = map::dirty(room.map, random);
            let mut expected_map = map.clone();
            expected_map[..map::cleared_by(&expected.0, model.bits)].fill(0);
            let reply = read(&mut map);
            (reply, difference("map", &expected_map, &map))
        } else {
            let (reply, same) = self
                .large
                .lend(room.map, model.bits, &expected.0, random, |map| read(map));
            let other = ", another map than expected".to_string();
            (reply, if same { String::new() } else { other })
        };
        let same = tables == expected.1 && map.is_empty();
        self.report.compare(&expected.0, &reply, same, || {
            format!(
                "{}, {room:?}{}{}{map}",
                text(),
                difference("pages", &expected.1.pages, &tables.pages),
                difference("entries", &expected.1.entries, &tables.entries),
            )
        });
    }
}

/// Both tables: page numbers and entries.
#[derive(PartialEq)]
struct Tables {
    pages: Vec<u32>,
    entries: Vec<u32>,
}

impl Tables {
    /// Each place holds a number of its own, so that a place written is noticed.
    fn untouched(room: Room) -> Tables {
        let numbers = |start: u32, length: usize| (start..).take(length).collect();
        Tables {
            pages: numbers(0xA5A5_0000, room.pages),
            entries: numbers(0x5A5A_0000, room.entries),
        }
    }
}

/// What a call should give, and leave in the tables.
fn expected(model: &Read, room: Room) -> (Reply, Tables) {
    let mut tables = Tables::untouched(room);
    let reply = model.reply(room.pages, room.entries, room.map);
    let list = match &model.list {
        Ok(list) if reply.number == 0 => list,
        _ => return (reply, tables),
    };
    let all_entries = list.iter().flat_map(|(_, entries)| entries);
    for (place, (page, _)) in tables.pages.iter_mut().zip(list) {
        *place = page.0;
    }
    for (place, entry) in tables.entries.iter_mut().zip(all_entries) {
        *place = entry.0;
    }
    (reply, tables)
}

/// Room to call with: just what is needed and more, each table too short, both of them, and the map, which
/// comes first.
fn rooms(case: &Case, model: &Read) -> Vec<Room> {
    let (pages, entries) = size(model.list.as_ref().unwrap_or(&case.list));
    let map = map::in_use(model.bits);
    let exact = Room {
        pages,
        entries,
        map,
    };
    let ample = Room {
        pages: pages + 2,
        entries: entries + 5,
        map: map + 3,
    };
    let none = Room {
        pages: 0,
        entries: 0,
        map: 0,
    };
    let mut rooms = vec![exact, ample];
    if pages > 0 {
        rooms.push(Room {
            pages: pages - 1,
            ..exact
        });
    }
    if entries > 0 {
        rooms.push(Room {
            entries: entries - 1,
            map: map + 1,
            ..exact
        });
        rooms.push(Room { map, ..none });
    }
    if map > 0 {
        rooms.push(Room {
            map: map - 1,
            ..ample
        });
        rooms.push(none);
    }
    rooms
}
