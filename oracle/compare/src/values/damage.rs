//! Harmed values: every harm of some kinds, and random ones.

use super::{
    case::{
        distinct, Case,
        Harm::{self, Byte, Bytes, Cell, Empty, Length, More, Number, Numbers, Size, Zero},
    },
    model::{differing, last_size, new_total, old_total, page_count, too_large, CELL_NUMBERS},
    Comparison, Extent,
};
use common::Random;
use mopsienna_sys::Form;
use nomt_plain::Values;
use std::io;

/// Passes on values of some pages with every count on every page, every two pages empty, every number
/// near the store's at every place, every length of the cell and of the store; and on a longer one
/// with every page empty.
pub fn every<R: Values>(
    comparison: &mut Comparison,
    form: Form,
    extent: Extent,
    random: &mut Random,
) -> io::Result<()> {
    let page = R::PAGE_SIZE;
    let pages: &[usize] = match extent {
        Extent::Least => &[2],
        Extent::Short => &[3, 17],
        Extent::Long => &[1, 2, 3, 14, 15, 16, 17, 18, 20, 30],
    };
    for pages in pages {
        let size = last_size(page, *pages) - random.below(3) as usize;
        every_harm::<R>(comparison, form, size, old_total(page, size), random)?;
    }
    if extent == Extent::Long {
        let size = differing(page, 1);
        every_harm::<R>(comparison, form, size, new_total(page, size), random)?;
    }
    every_empty::<R>(comparison, form, random)
}

/// The same on a value of this size by one of its totals.
fn every_harm<R: Values>(
    comparison: &mut Comparison,
    form: Form,
    size: usize,
    pages: usize,
    random: &mut Random,
) -> io::Result<()> {
    let page = R::PAGE_SIZE;
    let body = page - 4;
    let page_count = pages + 2;
    let numbers = distinct(pages, page_count, random);
    let mut harms = vec![];
    for index in 0..pages {
        harms.push(vec![Zero(index)]);
        harms.extend((0..index).map(|other| vec![Empty(other), Empty(index)]));
        for count in 0..=body as u16 / 4 + 1 {
            for bytes in 0..=body as u16 + 1 {
                harms.push(vec![Numbers(index, count), Bytes(index, bytes)]);
            }
        }
    }
    for place in 0..pages {
        let near = 0..=page_count as u32;
        harms.extend(near.map(|number| vec![Number(place, number)]));
    }
    harms.extend((0..=120).map(|length| vec![Cell(length)]));
    harms.extend((0..=page_count * page).map(|length| vec![Length(length)]));
    let sizes = 0..=last_size(page, pages + 3) as u64;
    harms.extend(sizes.map(|size| vec![Size(size)]));
    for harms in harms {
        let case = Case::written::<R>(page_count * page, size, &numbers, &harms)?;
        comparison.check::<R>(form, &case)?;
    }
    Ok(())
}

/// Passes on a value with an empty page at every place. Its pages with numbers alone, which deleting
/// goes past, are more than a cell has numbers.
fn every_empty<R: Values>(
    comparison: &mut Comparison,
    form: Form,
    random: &mut Random,
) -> io::Result<()> {
    let page = R::PAGE_SIZE;
    let of_numbers = CELL_NUMBERS + 1;
    let size = last_size(page, CELL_NUMBERS + of_numbers * (page - 4) / 4) + 1;
    let pages = old_total(page, size);
    let page_count = pages + 2;
    let numbers = distinct(pages, page_count, random);
    for index in 0..pages {
        let case = Case::written::<R>(page_count * page, size, &numbers, &[Empty(index)])?;
        comparison.check::<R>(form, &case)?;
    }
    Ok(())
}

/// Passes on so many values, by either total, with up to three harms each.
pub fn random<R: Values>(
    comparison: &mut Comparison,
    form: Form,
    random: &mut Random,
    count: u64,
) -> io::Result<()> {
    for _ in 0..count {
        let most = random.pick(&[3, 20, 40]);
        let pages = 1 + random.below(most);
        let first = last_size(R::PAGE_SIZE, pages as usize - 1);
        let last = last_size(R::PAGE_SIZE, pages as usize);
        let any = 1 + random.below((last - first) as u64) as usize;
        let size = random.pick(&[first + 1, last, first + any]);
        let totals = [old_total(R::PAGE_SIZE, size), new_total(R::PAGE_SIZE, size)];
        let pages = random.pick(&totals);
        let page_count = pages + 1 + random.below(4) as usize;
        let numbers = distinct(pages, page_count, random);
        let length = page_count * R::PAGE_SIZE + random.pick(&[0, 1, R::PAGE_SIZE - 1]);
        let harms: Vec<Harm> = (0..random.below(4))
            .map(|_| any_harm(R::PAGE_SIZE, length, size, &numbers, random))
            .collect();
        let case = Case::written::<R>(length, size, &numbers, &harms)?;
        comparison.check::<R>(form, &case)?;
    }
    Ok(())
}

fn any_harm(
    page_size: usize,
    length: usize,
    size: usize,
    numbers: &[u32],
    random: &mut Random,
) -> Harm {
    let body = page_size as u64 - 4;
    let pages = numbers.len() as u64;
    let page_count = page_count(page_size, length) as u32;
    let index = random.below(pages) as usize;
    // Pages with numbers are the first ones.
    let index = random.pick(&[0, index, index, index.min(1)]);
    let any = random.bits() as u32;
    let number = random.pick(&[
        0,
        page_count - 1,
        page_count,
        any % (page_count + 1),
        any,
        numbers[index],
        numbers[0],
    ]);
    match random.below(13) {
        0 => {
            let size = size as u64;
            let any = random.below(2 * size + 2);
            let too_large = too_large(page_size);
            Size(random.pick(&[0, size - 1, size + 1, size + body, any, any, too_large]))
        }
        1 => {
            let any = random.below(120) as usize;
            Cell(random.pick(&[0, 40, 44, any - any % 4, any]))
        }
        2 => More(number),
        3 | 4 => Number(random.below(pages) as usize, number),
        5 | 6 => Numbers(
            index,
            random.pick(&[0, 1, 2, body / 4, body / 4 + 1, any.into()]) as u16,
        ),
        7 | 8 => {
            let any_bytes = random.below(body + 1);
            let counts = [
                0,
                1,
                body - 4,
                body,
                body + 1,
                any_bytes,
                any_bytes,
                any.into(),
            ];
            Bytes(index, random.pick(&counts) as u16)
        }
        9 => Zero(index),
        10 => Empty(index),
        11 => {
            let at = numbers[index] as usize * page_size + random.below(page_size as u64) as usize;
            Byte(random.pick(&[at, at - at % page_size]), any as u8)
        }
        _ => {
            let any = random.below(length as u64 + 1) as usize;
            Length(random.pick(&[any, any - any % page_size]))
        }
    }
}
