//! Finishes beside what the Rust made of the saves.

use super::{
    lent::{lent, list_text, numbers_text, put_list, Room},
    model::{self, Finish},
    Comparison, FINISH,
};
use crate::{
    map,
    record::{Kind, Line},
    report::difference,
};
use common::Random;
use mopsienna_sys::{Lent, Reply};
use nomt_plain::Rust;

/// With so many places lent, it is not told apart where a number occurs twice: no such line is kept.
const MOST_TOLD_APART: usize = 1000;

impl Comparison<'_> {
    /// Finishing with the room that is needed, with more and with less of each; with freed numbers that are
    /// none, and with one that is not to be freed.
    pub fn finishes<R: Rust>(&mut self, finish: &Finish, random: &mut Random) {
        self.check_list(finish);
        let map = map::in_use(finish.bits());
        let mut rooms = Room::around::<R>(finish.list, finish.after, map);
        let large = map > self.most_map;
        if large {
            for room in &mut rooms {
                room.map = random.below(40) as usize;
            }
        }
        let [_, ample, pages, _, bytes, _, least, short] = rooms;
        let tried = if large {
            vec![ample, least]
        } else {
            rooms.to_vec()
        };
        for room in tried {
            self.finishing::<R>(finish, room);
        }
        if finish.freed.is_empty() {
            return;
        }
        let mut bad = finish.freed.to_vec();
        for _ in 0..1 + random.below(2) {
            put_bad(&mut bad, finish.bits(), random);
            let room = random.pick(&[ample, least, short]);
            let finish = Finish {
                freed: &bad,
                ..*finish
            };
            self.finishing::<R>(&finish, room);
        }
        if let Some(freed) = repeated(finish, random) {
            let room = random.pick(&[ample, pages, bytes, least, short]);
            self.finishing::<R>(&repeating(finish, &freed), room);
        }
    }

    /// Finishing with all room; and with too little of the map, which is looked at before the numbers are, and
    /// of all that is looked at behind them.
    pub fn finishes_in_order<R: Rust>(&mut self, finish: &Finish) {
        self.check_list(finish);
        let map = map::in_use(finish.bits());
        let [_, ample, pages, entries, bytes, .., short] =
            Room::around::<R>(finish.list, finish.after, map);
        for room in [ample, pages, entries, bytes, short] {
            self.finishing::<R>(finish, room);
        }
    }

    /// What a finish that is not refused leaves has to be sound.
    fn check_list(&mut self, finish: &Finish) {
        let refused = finish.repeats || model::bad_place(finish.save, finish.freed).is_some();
        if !refused && !model::is_sound(&finish.after.state) {
            self.reports[FINISH]
                .disagree_at_call("the new list has a number twice, or past its bump", || {
                    format!("{:?}, list {}", finish.save, list_text(finish.list))
                });
        }
    }

    /// Finishing with the same places until it succeeds: first with a map that is too short; then, if there
    /// is such a mistake, with one of the freed numbers that is not to be freed; then as it has to be.
    pub fn finishes_at_last<R: Rust>(&mut self, finish: &Finish, mistake: Option<&[u32]>) {
        let map = map::in_use(finish.bits());
        let [_, ample, .., short] = Room::around::<R>(finish.list, finish.after, map);
        let mut got = lent(finish.list, short);
        self.random.fill(&mut got.map);
        self.finishing_on::<R>(finish, &mut got);
        got.map = map::dirty(ample.map, &mut self.random);
        if let Some(freed) = mistake {
            self.finishing_on::<R>(&repeating(finish, freed), &mut got);
        }
        self.finishing_on::<R>(finish, &mut got);
    }

    /// Finishing once, with so much room.
    pub fn finishing<R: Rust>(&mut self, finish: &Finish, room: Room) {
        if room.map > self.most_map {
            return self.finishing_with_large_map::<R>(finish, room);
        }
        let mut got = lent(finish.list, room);
        self.random.fill(&mut got.map);
        self.finishing_on::<R>(finish, &mut got);
    }

    /// Finishing once, with these places, which then hold what they have to.
    fn finishing_on<R: Rust>(&mut self, finish: &Finish, got: &mut Lent) {
        let mut expected_lent = got.clone();
        let expected = expected::<R>(finish, got.map.len(), &mut expected_lent);
        expected_lent.map[..map::cleared_by(&expected, finish.bits())].fill(0);
        self.record_finish::<R>(finish, got, &expected, &expected_lent);
        let reply = self
            .library
            .finish(finish.form, finish.save, finish.freed, got);
        let map = difference("map", &expected_lent.map, &got.map);
        self.compare_finish::<R>(finish, (&expected, &expected_lent), (&reply, got), &map);
        *got = expected_lent;
    }

    /// Finishing once, with a map that is too long to be copied.
    fn finishing_with_large_map<R: Rust>(&mut self, finish: &Finish, room: Room) {
        let mut got = lent(finish.list, Room { map: 0, ..room });
        let mut expected_lent = got.clone();
        let expected = expected::<R>(finish, room.map, &mut expected_lent);
        let (library, random) = (self.library, &mut self.random);
        let call = |map: &mut Vec<u8>| {
            got.map = std::mem::take(map);
            let reply = library.finish(finish.form, finish.save, finish.freed, &mut got);
            *map = std::mem::take(&mut got.map);
            reply
        };
        let (reply, same) = self
            .large
            .lend(room.map, finish.bits(), &expected, random, call);
        let map = if same {
            ""
        } else {
            ", another map than expected"
        };
        self.compare_finish::<R>(finish, (&expected, &expected_lent), (&reply, &got), map);
    }

    fn compare_finish<R: Rust>(
        &mut self,
        finish: &Finish,
        (expected, expected_lent): (&Reply, &Lent),
        (reply, got): (&Reply, &Lent),
        map: &str,
    ) {
        let same = got == expected_lent && map.is_empty();
        self.reports[FINISH].compare(expected, reply, same, || {
            let room = Room {
                pages: got.pages.len(),
                entries: got.entries.len(),
                bytes: got.buffer.len(),
                numbers: got.numbers.len(),
                map: got.map.len(),
            };
            format!(
                "page size {}, {:?}, list {}, freed {}, {room:?}{}{}{}{}{map}",
                R::PAGE_SIZE,
                finish.save,
                list_text(finish.list),
                numbers_text(finish.freed),
                difference("pages", &expected_lent.pages, &got.pages),
                difference("entries", &expected_lent.entries, &got.entries),
                difference("buffer", &expected_lent.buffer, &got.buffer),
                difference("numbers", &expected_lent.numbers, &got.numbers),
            )
        });
    }

    /// Keeps a finish. What tells the saves apart is whether the list was fragmented before and is
    /// after, how it grew, whether the bump was raised and whether anything was handed out or freed; and
    /// of those with a number that occurs twice, where it does.
    fn record_finish<R: Rust>(
        &self,
        finish: &Finish,
        before: &Lent,
        expected: &Reply,
        expected_lent: &Lent,
    ) {
        let Finish {
            save,
            list,
            freed,
            after,
            ..
        } = *finish;
        let old = model::size(list);
        let new = model::size(&after.state.list);
        let answered = expected.number == 0;
        let fragmented = |(pages, entries)| model::is_fragmented(R::CAPACITY, pages, entries);
        let lent = before.entries.len() + freed.len() + before.buffer.len() + before.map.len();
        let mut class = R::PAGE_SIZE.to_string();
        if answered {
            class += &format!(
                " {} {} {:?} {} {} {}",
                fragmented(old),
                fragmented(new),
                new.0.cmp(&old.0),
                u64::from(after.state.bump) > finish.bits(),
                save.count > 0,
                freed.is_empty(),
            );
        } else if expected.number == map::REPEAT && self.recorder.is_on() && lent < MOST_TOLD_APART
        {
            class += &model::repeat_kind(save, list, freed);
        }
        let sample = self.group == "document 01";
        let long = sample.then(|| format!("{class} {}", old.1 >= R::CAPACITY));
        self.recorder
            .keep(if answered { 4 } else { 3 }, class, lent, || {
                let kept = |old: usize, new: usize| if answered { old.max(new) } else { old };
                let written = if answered { after.written.len() } else { 0 };
                Line::new(Kind::Finish)
                    .save(R::PAGE_SIZE, save)
                    .tables(before, old)
                    .array(freed)
                    .length(&before.buffer)
                    .length(&before.numbers)
                    .length(&before.map)
                    .reply(expected)
                    .places(&expected_lent.pages, kept(old.0, new.0))
                    .places(&expected_lent.entries, kept(old.1, new.1))
                    .places(&expected_lent.buffer, written * R::PAGE_SIZE)
                    .places(&expected_lent.numbers, written)
                    .map(before.map.len(), map::cleared_by(expected, finish.bits()))
                    .long(long)
            });
    }
}

/// What a finish with a map of so many bytes gives. Puts into the other places that are lent what it leaves
/// there.
fn expected<R: Rust>(finish: &Finish, map: usize, lent: &mut Lent) -> Reply {
    if let Some(refusal) = finish.refusal::<R>(lent, map) {
        return refusal;
    }
    let after = finish.after;
    put_list(lent, &after.state.list);
    for (place, (number, bytes)) in after.written.iter().enumerate() {
        lent.numbers[place] = *number;
        lent.buffer[place * R::PAGE_SIZE..][..R::PAGE_SIZE].copy_from_slice(bytes);
    }
    let (pages, entries) = model::size(&after.state.list);
    Reply::answer(&[
        after.head.into(),
        after.state.bump.into(),
        after.state.length.into(),
        pages as u64,
        entries as u64,
        after.written.len() as u64,
    ])
}

/// Makes one of the freed numbers none that may be freed. The Rust takes any number, and what it makes
/// of the save depends only on how many there are, but for their places in the list.
fn put_bad(freed: &mut [u32], limit: u64, random: &mut Random) {
    let limit = limit.min(u32::MAX.into()) as u32;
    let place = random.below(freed.len() as u64) as usize;
    freed[place] = match random.below(4) {
        0 => 0,
        1 => limit,
        2 => limit.saturating_add(1 + random.below(1000) as u32),
        _ => u32::MAX,
    };
}

/// The freed numbers with one of them in place of another one, or with a list page or an entry that is left
/// in its place, if there is one of these.
fn repeated(finish: &Finish, random: &mut Random) -> Option<Vec<u32>> {
    let mut freed = finish.freed.to_vec();
    let place = random.below(freed.len().max(1) as u64) as usize;
    let number = freed.get(place)?;
    let left = model::left(finish.save, finish.list);
    let others = match random.below(3) {
        0 => finish.list.iter().map(|(page, _)| *page).collect(),
        1 => left,
        _ => freed
            .iter()
            .filter(|other| *other != number)
            .copied()
            .collect(),
    };
    let at = random.below(others.len().max(1) as u64) as usize;
    freed[place] = *others.get(at)?;
    Some(freed)
}

/// The same finish with these numbers freed, of which one occurs twice.
fn repeating<'a>(finish: &Finish<'a>, freed: &'a [u32]) -> Finish<'a> {
    Finish {
        freed,
        repeats: true,
        ..*finish
    }
}
