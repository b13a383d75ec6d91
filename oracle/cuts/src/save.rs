//! A save as its caller keeps it, and one more save upon it.

use crate::{
    disk::{Disk, Write},
    map,
    values::{cell, new_total, old_total},
};
use mopsienna_sys::{Form, Lent, Reply, Save};
use random::Random;

/// A value: its cell, the numbers of its pages and its bytes.
#[derive(Clone)]
pub struct Value {
    cell: Vec<u8>,
    numbers: Vec<u32>,
    bytes: Vec<u8>,
}

/// What the caller keeps of a save.
#[derive(Clone)]
pub struct State {
    pub head: u32,
    pub bump: u32,
    pub length: u32,
    pub pages: Vec<u32>,
    pub entries: Vec<u32>,
    pub values: Vec<Value>,
}

/// A finished save: what its caller keeps if all is written, the pages to write, and the numbers that
/// it freed.
pub struct Finished {
    pub next: State,
    pub writes: Vec<Write>,
    /// How many of the writes are list pages: the last ones.
    pub list_pages: usize,
    pub freed: Vec<u32>,
}

/// A filler that no read leaves in place of a number.
const FILLER: u32 = 0xA5A5_A5A5;

impl State {
    pub fn empty() -> State {
        State {
            head: 0,
            bump: 1,
            length: 0,
            pages: Vec::new(),
            entries: Vec::new(),
            values: Vec::new(),
        }
    }

    /// Whether the head and the cells read exactly this from the store. Now and then the list's reader is
    /// called first with a map that is a byte short.
    pub fn reads(&self, form: Form, store: &[u8]) -> bool {
        let maps = &mut Random::new(store.len() as u64);
        let mut pages = vec![FILLER; self.pages.len() + 1];
        let mut entries = vec![FILLER; self.entries.len() + 1];
        let needed = map::in_use(bits(form, store));
        if needed > 0 && maps.below(8) == 0 {
            let tables = (&mut pages[..], &mut entries[..]);
            let refused = read_list(form, store, self.head, tables, needed - 1, maps);
            assert!(
                (2..=5).contains(&refused.number) || refused.number == 21,
                "a list is not read with a map that is too short"
            );
        }
        let length = needed + maps.below(3) as usize;
        let tables = (&mut pages[..], &mut entries[..]);
        let reply = read_list(form, store, self.head, tables, length, maps);
        let counts = [self.pages.len() as u64, self.entries.len() as u64];
        reply.number == 0
            && reply.out[..2] == counts
            && pages[..self.pages.len()] == self.pages[..]
            && entries[..self.entries.len()] == self.entries[..]
            && pages[self.pages.len()] == FILLER
            && entries[self.entries.len()] == FILLER
            && self.values.iter().all(|value| value.reads(form, store))
    }
}

/// How many bits a map has to have to read a list from the store.
fn bits(form: Form, store: &[u8]) -> u64 {
    (store.len() / form.page_size()) as u64
}

/// Reads a list with a map of so many bytes that hold anything.
fn read_list(
    form: Form,
    store: &[u8],
    head: u32,
    (pages, entries): (&mut [u32], &mut [u32]),
    length: usize,
    maps: &mut Random,
) -> Reply {
    let before = map::dirty(length, maps);
    let mut map = before.clone();
    let reply = form.read_list(store, head, pages, entries, &mut map);
    map::check(reply.number, &before, &map, bits(form, store));
    if reply.number != 0 {
        let untouched = |table: &[u32]| table.iter().all(|place| *place == FILLER);
        assert!(
            untouched(pages) && untouched(entries),
            "a list that is refused leaves the tables"
        );
    }
    reply
}

impl Value {
    fn reads(&self, form: Form, store: &[u8]) -> bool {
        let mut numbers = self.table(form);
        let mut bytes = vec![0xA5; self.bytes.len() + 1];
        let reply = form.read_value(&self.cell, store, &mut numbers, &mut bytes);
        reply.number == 0
            && self.is_in(&numbers)
            && bytes[..self.bytes.len()] == self.bytes[..]
            && bytes[self.bytes.len()] == 0xA5
    }

    /// A number table with just the room that is needed.
    fn table(&self, form: Form) -> Vec<u32> {
        vec![FILLER; old_total(form.page_size(), self.bytes.len())]
    }

    /// Whether the table has the value's numbers and nothing else.
    fn is_in(&self, table: &[u32]) -> bool {
        let (numbers, others) = table.split_at(self.numbers.len());
        numbers == self.numbers && others.iter().all(|number| *number == FILLER)
    }
}

/// A save that is under way.
struct Open<'a> {
    form: Form,
    save: Save,
    lent: Lent,
    /// For what maps hold, and for mistakes.
    maps: Random,
    random: &'a mut Random,
    writes: Vec<Write>,
    freed: Vec<u32>,
}

/// How much a save does.
pub struct Load {
    /// Values written, and the largest size of one.
    pub values: u64,
    pub largest: usize,
    /// Values deleted.
    pub deleted: u64,
    /// Numbers that are handed out, written with anything, and freed again.
    pub spoilt: u64,
}

/// Makes one more save upon a state: some values go, some come, and it is finished.
pub fn next(form: Form, state: &State, disk: &Disk, load: &Load, random: &mut Random) -> Finished {
    let mut open = Open::start(form, state, disk, random);
    let mut values = state.values.clone();
    for _ in 0..load.deleted {
        if !values.is_empty() {
            let place = open.random.below(values.len() as u64) as usize;
            let value = values.swap_remove(place);
            open.delete(&value, &disk.store);
        }
    }
    for _ in 0..load.values {
        let size = 1 + open.random.below(load.largest as u64) as usize;
        values.push(open.write(size));
    }
    for _ in 0..load.spoilt {
        open.spoil();
    }
    open.finish(values)
}

impl<'a> Open<'a> {
    /// Starts from the state; the tables come from the store, with some places more.
    fn start(form: Form, state: &State, disk: &Disk, random: &'a mut Random) -> Open<'a> {
        let mut pages = vec![FILLER; state.pages.len() + 4];
        let mut entries = vec![FILLER; state.entries.len() + 4];
        let mut maps = Random::new(state.bump.into());
        let length = map::in_use(bits(form, &disk.store));
        let tables = (&mut pages[..], &mut entries[..]);
        let reply = read_list(form, &disk.store, state.head, tables, length, &mut maps);
        assert_eq!(reply.number, 0, "a list that was saved is read");
        Open {
            form,
            save: Save {
                bump: state.bump,
                length: state.length,
                pages: reply.out[0],
                entries: reply.out[1],
                count: 0,
            },
            lent: Lent {
                pages,
                entries,
                buffer: Vec::new(),
                numbers: Vec::new(),
                map: Vec::new(),
            },
            maps,
            random,
            writes: Vec::new(),
            freed: Vec::new(),
        }
    }

    fn hand_out(&mut self) -> u32 {
        let reply = self
            .form
            .hand_out(&self.save, &self.lent.pages, &self.lent.entries);
        assert_eq!(reply.number, 0, "a number is handed out");
        self.save.count = reply.out[1];
        self.save.length = reply.out[2] as u32;
        reply.out[0] as u32
    }

    /// Writes a value, now and then by the old total.
    fn write(&mut self, size: usize) -> Value {
        let mut bytes = vec![0; size];
        self.random.fill(&mut bytes);
        let old = self.random.below(4) == 0;
        let (form, page_size) = (self.form, self.form.page_size());
        let total = if old { old_total } else { new_total };
        let numbers: Vec<u32> = (0..total(page_size, size))
            .map(|_| self.hand_out())
            .collect();
        for (index, number) in numbers.iter().enumerate() {
            let mut page = vec![0xA5; page_size];
            let index = index as u64;
            let reply = match old {
                true => form.write_old_value_page(&bytes, &numbers, index, &mut page),
                false => form.write_value_page(&bytes, &numbers, index, &mut page),
            };
            assert_eq!(reply.number, 0, "a value page is written");
            self.writes.push(Write {
                number: *number,
                bytes: page,
            });
        }
        let cell = cell(form, size, &numbers);
        Value {
            cell,
            numbers,
            bytes,
        }
    }

    fn delete(&mut self, value: &Value, store: &[u8]) {
        let mut numbers = value.table(self.form);
        let reply = self.form.delete_value(&value.cell, store, &mut numbers);
        assert_eq!(reply.number, 0, "a value that was saved is deleted");
        assert!(value.is_in(&numbers), "deleting finds the value's pages");
        self.freed.extend(&value.numbers);
    }

    fn spoil(&mut self) {
        let number = self.hand_out();
        let mut bytes = vec![0; self.form.page_size()];
        self.random.fill(&mut bytes);
        self.writes.push(Write { number, bytes });
        self.freed.push(number);
    }

    /// Finishes, at first with a map that is a byte short, now and then with a number freed by mistake, and
    /// with too little room, all of which are refused and change nothing but the map; then with the room
    /// that docs/HOST.md gives for every save.
    fn finish(mut self, values: Vec<Value>) -> Finished {
        let size = self.form.page_size();
        let past = self.save.count - self.save.count.min(self.save.entries);
        let bits = u64::from(self.save.bump) + past;
        let needed = map::in_use(bits);
        let freed = self.freed.clone();
        let refused = self.attempt(&freed, needed - 1, bits);
        assert_eq!(refused.number, 21, "a map that is too short is refused");
        if let Some(mistaken) = self.mistaken() {
            let refused = self.attempt(&mistaken, needed, bits);
            assert_eq!(refused.number, 22, "a number that occurs twice is refused");
        }
        let first = self.attempt(&freed, needed + 2, bits);
        assert!(
            [0, 6, 9].contains(&first.number),
            "a finish is refused for its room alone"
        );
        let reply = if first.number == 0 {
            first
        } else {
            let on_a_page = (size - 6) / 4;
            let pushed = self.freed.len() + self.save.pages as usize;
            let entries = self.save.entries as usize + pushed;
            let written = pushed / on_a_page + 2;
            self.lent.pages.resize(entries / on_a_page + 1, FILLER);
            self.lent.entries.resize(entries, FILLER);
            self.lent.buffer.resize(size * written, 0xA5);
            self.lent.numbers.resize(written, FILLER);
            self.attempt(&freed, needed, bits)
        };
        assert_eq!(reply.number, 0, "a finish with room succeeds");
        let [head, bump, length, pages, entries, written, ..] = reply.out;
        for page in 0..written as usize {
            self.writes.push(Write {
                number: self.lent.numbers[page],
                bytes: self.lent.buffer[size * page..size * (page + 1)].to_vec(),
            });
        }
        Finished {
            next: State {
                head: head as u32,
                bump: bump as u32,
                length: length as u32,
                pages: self.lent.pages[..pages as usize].to_vec(),
                entries: self.lent.entries[..entries as usize].to_vec(),
                values,
            },
            writes: self.writes,
            list_pages: written as usize,
            freed: self.freed,
        }
    }

    /// Finishes with these numbers freed, and with a map of so many bytes that hold anything. A refusal
    /// leaves all but the map.
    fn attempt(&mut self, freed: &[u32], length: usize, bits: u64) -> Reply {
        self.lent.map = map::dirty(length, &mut self.maps);
        let before = self.lent.clone();
        let reply = self.form.finish(&self.save, freed, &mut self.lent);
        map::check(reply.number, &before.map, &self.lent.map, bits);
        if reply.number != 0 {
            let map = self.lent.map.clone();
            assert!(
                self.lent == Lent { map, ..before },
                "a finish that is refused leaves all but the map"
            );
        }
        reply
    }

    /// The freed numbers, now and then with one more that is not to be freed: one of them, a list page or
    /// an entry that was not handed out.
    fn mistaken(&mut self) -> Option<Vec<u32>> {
        let (pages, entries) = (self.save.pages as usize, self.save.entries as usize);
        let left = entries.saturating_sub(self.save.count as usize);
        let numbers = match self.maps.below(4) {
            0 => &self.freed[..],
            1 => &self.lent.pages[..pages],
            2 => &self.lent.entries[..left],
            _ => &[],
        };
        let at = self.maps.below(numbers.len().max(1) as u64) as usize;
        let number = *numbers.get(at)?;
        Some([&self.freed[..], &[number]].concat())
    }
}
