//! Chains around the place at which a value's total is decided: the first page with bytes. Up to it as
//! many numbers are found as one of the totals, or one less or more; behind it more may come.

use super::{
    case::{Case, Laid},
    model::{differing, new_total, old_total},
    Comparison, Extent,
};
use common::Random;
use mopsienna_sys::Form;
use nomt_plain::Values;
use std::io;

/// A chain over pages 1 and so on, in the order of the walk.
struct Chain {
    in_cell: usize,
    /// How many numbers each page has before the first with bytes.
    before: Vec<usize>,
    /// How many that one has.
    on_first: usize,
    /// How many pages behind it there are more numbers, and how many.
    later: (usize, usize),
    /// So many pages have so many bytes; each page behind them has one more.
    pages: usize,
    bytes: usize,
    /// The page of the walk that is harmed.
    harm: Option<(usize, Harm)>,
}

#[derive(Clone, Copy)]
enum Harm {
    PastStore,
    TooManyBytes,
    Empty,
}

/// The first chains for a size are taken in every run.
const ALWAYS: usize = 4;

/// Passes on every chain of some kinds for the first sizes whose totals differ, each as it is and with a
/// harm; or a random part of them.
pub fn each<R: Values>(
    comparison: &mut Comparison,
    form: Form,
    extent: Extent,
    random: &mut Random,
) -> io::Result<()> {
    let page = R::PAGE_SIZE;
    let share = match (extent, page) {
        (Extent::Least, 100..) => return Ok(()),
        (Extent::Least, _) => 100,
        (Extent::Short, 16) | (Extent::Long, _) => 1,
        (Extent::Short, ..100) => 20,
        (Extent::Short, _) => 100,
    };
    let first = differing(page, 1);
    for size in [first, first + 1] {
        for (place, mut chain) in chains(page, size).into_iter().enumerate() {
            if place < ALWAYS || random.below(share) == 0 {
                check::<R>(comparison, form, size, &chain, random)?;
                chain.harm = Some(chain.any_harm(random));
                check::<R>(comparison, form, size, &chain, random)?;
            }
        }
        without_bytes::<R>(comparison, form, size, random)?;
    }
    Ok(())
}

fn check<R: Values>(
    comparison: &mut Comparison,
    form: Form,
    size: usize,
    chain: &Chain,
    random: &mut Random,
) -> io::Result<()> {
    let (cell, laid) = chain.laid(R::PAGE_SIZE);
    let length = (1 + laid.len()) * R::PAGE_SIZE;
    let case = Case::laid_out::<R>(length, size, &cell, &laid, random)?;
    comparison.check::<R>(form, &case)?;
    Ok(())
}

/// Chains without any bytes: the walk goes round on a page of numbers, or comes to one past the store.
fn without_bytes<R: Values>(
    comparison: &mut Comparison,
    form: Form,
    size: usize,
    random: &mut Random,
) -> io::Result<()> {
    let (new, old) = (new_total(R::PAGE_SIZE, size), old_total(R::PAGE_SIZE, size));
    for in_cell in [1, 2, new - 1, new, old, old + 1] {
        for named in [&[1][..], &[1, 1], &[1, 2]] {
            let laid = [(1, named.to_vec(), 0)];
            let length = 2 * R::PAGE_SIZE;
            let case = Case::laid_out::<R>(length, size, &vec![1; in_cell], &laid, random)?;
            comparison.check::<R>(form, &case)?;
        }
    }
    Ok(())
}

/// Every chain of these kinds. The first ones are a value by the new total, and the smallest chain that
/// names the new total up to its first bytes and the old one later.
fn chains(page_size: usize, size: usize) -> Vec<Chain> {
    let full = (page_size - 4) / 4;
    let (new, old) = (new_total(page_size, size), old_total(page_size, size));
    let counts = [full, 1, 2];
    let mut befores = counts.map(|count| vec![count]).to_vec();
    befores.push(vec![]);
    let pairs = pairs_of(&counts, &counts);
    befores.extend(pairs.iter().map(|(one, other)| vec![*one, *other]));
    let mut chains = vec![];
    for bytes in [size, size - 1, size + 1] {
        for before in &befores {
            for (found, on_first) in pairs_of(&[new, old, new - 1, old + 1], &[0, 1, 2]) {
                let named = before.iter().sum::<usize>() + on_first;
                let last = new - 1 - before.len();
                let laters = [(1, 0), (1, 1), (1, 2), (2, 1), (last, 1)];
                for (later, pages) in pairs_of(&laters, &[new, old]) {
                    // A cell has a number.
                    if found > named {
                        chains.push(Chain {
                            in_cell: found - named,
                            before: before.clone(),
                            on_first,
                            later,
                            pages,
                            bytes,
                            harm: None,
                        });
                    }
                }
            }
        }
    }
    chains
}

fn pairs_of<A: Copy, B: Copy>(ones: &[A], others: &[B]) -> Vec<(A, B)> {
    let pairs = ones
        .iter()
        .map(|one| others.iter().map(|other| (*one, *other)));
    pairs.flatten().collect()
}

impl Chain {
    /// How many numbers the cell and the pages have.
    fn named(&self) -> usize {
        self.in_cell + self.before.iter().sum::<usize>() + self.on_first + self.later.1
    }

    /// Any harm, mostly to the first page with bytes or to one beside it.
    fn any_harm(&self, random: &mut Random) -> (usize, Harm) {
        let (first, last) = (self.before.len(), self.named() - 1);
        let any = random.below(self.named() as u64) as usize;
        let index = random.pick(&[0, first, first + 1, last - 1, last, any]);
        let harms = [Harm::PastStore, Harm::TooManyBytes, Harm::Empty];
        (index, random.pick(&harms))
    }

    /// The numbers in the cell and the pages.
    fn laid(&self, page_size: usize) -> (Vec<u32>, Vec<Laid>) {
        let body = page_size - 4;
        let first = self.before.len();
        let (behind, more) = self.later;
        let mut numbers: Vec<u32> = (1..=self.named() as u32).collect();
        if let Some((index, Harm::PastStore)) = self.harm {
            numbers[index] = u32::MAX;
        }
        let (cell, mut rest) = numbers.split_at(self.in_cell);
        let mut bytes_left = self.bytes;
        let laid = numbers.iter().enumerate().map(|(index, number)| {
            let count = match index.checked_sub(first) {
                None => self.before[index],
                Some(0) => self.on_first,
                Some(place) if place == behind => more,
                Some(_) => 0,
            };
            // Each later page is left a byte, and none has fewer.
            let later = self.pages.saturating_sub(index + 1);
            let most = bytes_left.saturating_sub(later).max(1);
            let bytes = match index < first {
                true => 0,
                false => most.min(body - 4 * count),
            };
            bytes_left = bytes_left.saturating_sub(bytes);
            let (found, others) = rest.split_at(count);
            rest = others;
            match self.harm {
                Some((harmed, Harm::TooManyBytes)) if harmed == index => {
                    (*number, found.to_vec(), body + 1)
                }
                Some((harmed, Harm::Empty)) if harmed == index => (*number, vec![], 0),
                _ => (*number, found.to_vec(), bytes),
            }
        });
        let laid = laid.collect();
        (cell.to_vec(), laid)
    }
}
