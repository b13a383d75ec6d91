//! The kinds of saves: each has a way of its own through the finish.

use super::{
    model::{self, Finish},
    released, Comparison, FINISH,
};
use nomt_plain::{List, Rust};

/// The kinds of saves that have to be reached.
pub const KINDS: [&str; 7] = [
    "nothing popped or freed",
    "a list page past the bump",
    "a whole page come to the top",
    "two or more whole pages come to the top",
    "fragmented after",
    "fragmented before, none handed out",
    "fragmented before, some handed out",
];

impl Comparison<'_> {
    /// Counts the kinds that a save is of, whose numbers have to be such that it is not refused for them.
    pub fn kind<R: Rust>(&mut self, finish: &Finish) {
        let Finish {
            save,
            list,
            freed,
            after,
            ..
        } = *finish;
        if finish.repeats {
            self.reports[FINISH].disagree_at_call("a number occurs twice", || {
                format!("{save:?}, list {list:?}")
            });
        }
        let new = &after.state.list;
        let fragmented = |list: &List| {
            let (pages, entries) = model::size(list);
            model::is_fragmented(R::CAPACITY, pages, entries)
        };
        let popped = save.count.min(save.entries) as usize;
        let mended = fragmented(list) && popped == 0 && !freed.is_empty();
        let kept = list.iter().zip(new).take_while(|(old, new)| old.0 == new.0);
        // Without a whole page that came to the top, just the pages emptied and the top page get
        // new numbers, and a mended page.
        let renumbered = list.len() - kept.count();
        let expected = released(list, popped) + 1 + usize::from(mended);
        let unchanged = popped == 0 && freed.is_empty();
        let kinds = [
            unchanged,
            u64::from(after.state.bump) > model::limit(save),
            renumbered > expected,
            renumbered > expected + 1,
            fragmented(new) && !unchanged,
            mended,
            fragmented(list) && popped > 0,
        ];
        let group = self.kinds.entry(self.group.clone()).or_default();
        group.0 += 1;
        for (saves, is) in group.1.iter_mut().zip(kinds) {
            *saves += u64::from(is);
        }
    }
}
