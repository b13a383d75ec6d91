//! Harmed values that are the same in every run, smaller ones first.

use super::{
    case::{
        Case,
        Harm::{self, Bytes, Cell, Empty, Length, More, Number, Numbers, Size, Zero},
        Laid,
    },
    model::{differing, last_size, new_total, old_total, too_large, CELL_NUMBERS},
    Comparison, Extent,
};
use common::Random;
use mopsienna_sys::Form;
use nomt_plain::Values;
use std::io;

/// Passes on harmed values of one page, of two, of one more than a cell has numbers for, and, unless
/// pages are large and little is compared, of the least size whose totals differ, by both: by the old one
/// a second page has numbers; and on the smallest ones that the Rust reads with an empty page.
pub fn each<R: Values>(comparison: &mut Comparison, form: Form, extent: Extent) -> io::Result<()> {
    let page = R::PAGE_SIZE;
    for harms in on_one_page(page) {
        let case = Case::written::<R>(2 * page, 1, &[1], &harms)?;
        comparison.check::<R>(form, &case)?;
    }
    for harms in on_two_pages(page) {
        let case = Case::written::<R>(3 * page, page - 3, &[1, 2], &harms)?;
        comparison.check::<R>(form, &case)?;
    }
    for harms in on_many_pages(page, CELL_NUMBERS) {
        let size = last_size(page, CELL_NUMBERS) + 1;
        many::<R>(comparison, form, size, old_total(page, size), &harms)?;
    }
    one_empty::<R>(comparison, form)?;
    if page < 1000 || extent != Extent::Least {
        let size = differing(page, 1);
        for total in [new_total(page, size), old_total(page, size)] {
            for harms in on_many_pages(page, total - 1) {
                many::<R>(comparison, form, size, total, &harms)?;
            }
        }
    }
    // As many pages as count, and more.
    for pages in [u32::MAX as usize, u32::MAX as usize + 1] {
        for number in [0, 1, u32::MAX - 1, u32::MAX] {
            let case = Case::written::<R>(pages * page, 1, &[number], &[])?;
            comparison.check::<R>(form, &case)?;
        }
    }
    Ok(())
}

/// Harms to a value of one byte on page 1 of two.
fn on_one_page(page: usize) -> Vec<Vec<Harm>> {
    let body = page as u16 - 4;
    let all_numbers = body / 4;
    let too_large = too_large(page);
    let mut cases = vec![
        vec![],
        // Cells too short, of no multiple of 4, and with more numbers than the total.
        vec![Cell(40)],
        vec![Cell(45)],
        vec![More(1)],
        vec![More(0)],
        vec![More(2), More(u32::MAX)],
        // Sizes that no value has, and others than the page's.
        vec![Size(0)],
        vec![Size(too_large)],
        vec![Size(1 << 32)],
        vec![Size(u64::MAX)],
        vec![Size(2)],
        vec![Size(body.into())],
        vec![Size(u64::from(body) + 1)],
        vec![Size(u64::from(body) * 15 + 1)],
        vec![Size(1 << 22)],
        vec![Size(too_large - 1)],
        // The page lies past the store.
        vec![Length(page)],
        vec![Length(2 * page - 1)],
        vec![Length(0)],
        vec![Number(0, 2)],
        vec![Number(0, u32::MAX)],
        // Counts.
        vec![Bytes(0, body + 1)],
        vec![Bytes(0, u16::MAX)],
        vec![Bytes(0, body)],
        vec![Bytes(0, 2)],
        vec![Numbers(0, 1)],
        vec![Numbers(0, all_numbers)],
        vec![Numbers(0, all_numbers + 1)],
        vec![Numbers(0, u16::MAX)],
        vec![Numbers(0, all_numbers - 1)],
        vec![Numbers(0, all_numbers), Bytes(0, 0)],
        vec![Numbers(0, all_numbers), Bytes(0, u16::MAX)],
        vec![Bytes(0, body), Size(body.into())],
        vec![Number(0, 0)],
        // Nothing on the page.
        vec![Bytes(0, 0)],
        vec![Bytes(0, 0), Size(u64::from(body) + 1)],
        vec![Zero(0)],
        // Something on it, by counts that would be 0 in 8 or 16 bits.
        vec![Bytes(0, 256)],
        vec![Numbers(0, 256), Bytes(0, 0)],
        vec![Numbers(0, 1 << 14), Bytes(0, 0)],
        vec![Numbers(0, (1 << 14) - 1), Bytes(0, 4)],
        // The order of refusals.
        vec![Cell(45), Size(0)],
        vec![Cell(40), Size(too_large)],
        vec![Size(0), Length(0)],
        vec![Length(0), Bytes(0, body + 1)],
        vec![Length(page), More(1)],
        vec![Bytes(0, body + 1), More(1)],
        vec![Bytes(0, 0), Cell(45)],
        vec![Bytes(0, 0), Size(0)],
        vec![Bytes(0, 0), Length(2 * page - 1)],
        vec![Bytes(0, 0), More(1)],
        vec![Bytes(0, 0), Size(2)],
        vec![Bytes(0, 0), Numbers(0, 1)],
    ];
    cases.extend((0..=49).map(|length| vec![Cell(length)]));
    let near = (too_large - 4..too_large - 1).chain(too_large + 1..=too_large + 2);
    cases.extend(near.map(|size| vec![Size(size)]));
    cases
}

/// Harms to a value with a whole page of bytes on page 1 and one byte on page 2, of three.
fn on_two_pages(page: usize) -> Vec<Vec<Harm>> {
    let body = page as u16 - 4;
    vec![
        vec![],
        // The second number is missing, or is on a page.
        vec![Cell(44)],
        vec![Cell(44), Numbers(0, 1), Bytes(0, body - 4)],
        vec![
            Cell(44),
            Numbers(0, 1),
            Bytes(0, body - 4),
            Size(body.into()),
        ],
        // The same page twice, also with the size that it then has.
        vec![Number(1, 1)],
        vec![Number(1, 1), Size(2 * u64::from(body))],
        vec![Number(0, 2)],
        vec![Number(0, 2), Bytes(1, body), Size(2 * u64::from(body))],
        vec![Number(0, 2), Number(1, 1)],
        // Page by page, and on a page in order.
        vec![Number(0, 3), Bytes(1, body + 1)],
        vec![Bytes(0, body + 1), Number(1, 3)],
        vec![Number(1, 3), More(1)],
        vec![Bytes(1, body + 1), More(1)],
        vec![Cell(44), Number(0, 3)],
        vec![Cell(44), Bytes(0, body + 1)],
        vec![Length(2 * page)],
        vec![Length(3 * page - 1)],
        vec![Length(page)],
        // Bytes that are there, but not those of the size.
        vec![Bytes(0, body - 1)],
        vec![Bytes(0, body - 1), Bytes(1, 2)],
        vec![Bytes(0, 1), Bytes(1, body)],
        // Empty pages: either or both, with all bytes on the other, and the same one twice.
        vec![Empty(1)],
        vec![Empty(0)],
        vec![Empty(0), Empty(1)],
        vec![Empty(0), Bytes(1, body)],
        vec![Zero(0)],
        vec![Zero(1)],
        vec![Empty(0), Number(1, 1)],
        vec![Empty(1), Number(0, 2)],
        // Behind what is refused, and before it.
        vec![Empty(1), Number(0, 3)],
        vec![Empty(1), Cell(44)],
        vec![Empty(1), Length(3 * page - 1)],
        vec![Empty(1), Bytes(0, body + 1)],
        vec![Empty(0), Cell(44)],
        vec![Empty(0), Number(1, 3)],
        vec![Empty(0), Length(2 * page)],
        vec![Empty(0), Bytes(1, body + 1)],
        vec![Empty(1), More(1)],
        vec![Empty(1), Size(2 * u64::from(body))],
        vec![Size(0)],
        vec![Size(u64::from(body))],
        vec![Size(u64::from(body) + 2)],
        vec![Size(2 * u64::from(body) + 1)],
        // Numbers alone on the first page, so that deleting comes to the second.
        on_first_page(1, 2, &[]),
        on_first_page(1, 2, &[Empty(1)]),
        on_first_page(2, 2, &[Empty(1)]),
        on_first_page(1, 2, &[Empty(1), More(1)]),
        on_first_page(1, 2, &[Bytes(1, body + 1)]),
        on_first_page(1, 3, &[Empty(1)]),
    ]
}

/// Harms that leave one number in the cell, and on the first page so many numbers, of which the first
/// is this, and no bytes; and more harms.
fn on_first_page(count: u16, number: u32, more: &[Harm]) -> Vec<Harm> {
    let first = [
        Cell(44),
        Numbers(0, count),
        Bytes(0, 0),
        Number(CELL_NUMBERS, number),
    ];
    [&first[..], more].concat()
}

/// Harms to a value that needs one page more than so many. Its last page has the last number.
fn on_many_pages(page: usize, pages: usize) -> Vec<Vec<Harm>> {
    let full = ((page - 4) / 4) as u16;
    let last = pages;
    // The page that the last number stands on, and how many numbers are there.
    let holder = (last - CELL_NUMBERS) / full as usize;
    let held = ((last - CELL_NUMBERS) % full as usize) as u16 + 1;
    vec![
        vec![],
        // A number on a page: past the store, 0, the first page and the page itself.
        vec![Number(last, u32::MAX)],
        vec![Number(last, 0)],
        vec![Number(last, 1)],
        vec![Number(last, holder as u32 + 1)],
        vec![Number(15, u32::MAX)],
        vec![Number(15, 1)],
        vec![Number(14, u32::MAX)],
        vec![Number(0, 2)],
        vec![Number(1, 1)],
        // Numbers more and less on the page that has the last ones.
        vec![Numbers(holder, held - 1)],
        vec![Numbers(holder, held + 1)],
        vec![Numbers(holder, held + 1), Bytes(holder, 0)],
        vec![Numbers(holder, 0)],
        vec![Numbers(0, 0)],
        vec![Numbers(0, full)],
        vec![Numbers(0, full), Bytes(0, 0)],
        vec![Numbers(last, 1)],
        vec![Bytes(holder, 0)],
        vec![Bytes(0, 1)],
        vec![Bytes(0, 0)],
        vec![Bytes(1, 0)],
        vec![Bytes(last, u16::MAX)],
        // Empty pages, also behind what is refused and before it.
        vec![Zero(0)],
        vec![Zero(holder)],
        vec![Zero(last)],
        vec![Empty(14)],
        vec![Empty(15)],
        vec![Empty(1), Empty(last)],
        vec![Empty(1), More(1)],
        vec![Empty(1), Bytes(last, u16::MAX)],
        vec![Empty(last), Bytes(1, u16::MAX)],
        vec![Empty(last), Length((last + 2) * page - 1)],
        vec![Empty(last), Numbers(holder, held - 1)],
        // The cell without its last number, with one more and with many more.
        vec![Cell(96)],
        vec![More(1)],
        vec![More(last as u32 + 1), Numbers(holder, held - 1)],
        (1..=pages as u32).map(More).collect(),
        // The store ends before the last page.
        vec![Length((last + 1) * page)],
        vec![Length((last + 2) * page - 1)],
        vec![Length(page)],
    ]
}

/// The smallest value with a page more than its bytes take, all numbers in the cell and an empty page
/// at the first place, in the middle or at the last place.
fn one_empty<R: Values>(comparison: &mut Comparison, form: Form) -> io::Result<()> {
    let page = R::PAGE_SIZE;
    let size = last_size(page, CELL_NUMBERS + 1) + 1;
    let pages = old_total(page, size);
    let numbers: Vec<u32> = (1..=pages as u32).collect();
    for empty in [0, pages / 2, pages - 1] {
        let mut left = size;
        let laid: Vec<Laid> = numbers
            .iter()
            .enumerate()
            .map(|(index, number)| {
                let room = if index == empty { 0 } else { page - 4 };
                let bytes = room.min(left);
                left -= bytes;
                (*number, vec![], bytes)
            })
            .collect();
        let length = (pages + 1) * page;
        let random = &mut Random::new(size as u64);
        let case = Case::laid_out::<R>(length, size, &numbers, &laid, random)?;
        comparison.check::<R>(form, &case)?;
    }
    Ok(())
}

/// A value of so many pages, 1 and so on, with one page behind them.
fn many<R: Values>(
    comparison: &mut Comparison,
    form: Form,
    size: usize,
    pages: usize,
    harms: &[Harm],
) -> io::Result<()> {
    let numbers: Vec<u32> = (1..=pages as u32).collect();
    let length = (pages + 2) * R::PAGE_SIZE;
    let case = Case::written::<R>(length, size, &numbers, harms)?;
    comparison.check::<R>(form, &case)?;
    Ok(())
}
