//! The library's functions with one call of one of them changed.

use super::{changed_if, PARTS};
use crate::{
    columns::{self, model::ROW, Way},
    saves::{self, FINISH, HAND_OUT, READ_BACK},
    values::{
        self,
        model::{Writer, CELL_NUMBERS},
        Linked, DECODE, DELETE, ENCODE, LOOKUP, READ, TOTAL,
    },
};
use mopsienna_sys::{values::Hash, Form, Lent, Reply, Save};
use std::{
    cell::{Cell, RefCell},
    collections::BTreeMap,
};

/// Of columns and rows, calls with a second buffer of so many places are changed.
pub const BUFFER: usize = 25;

/// The library, with one call of one operation changed. Operations are the reports of the comparison
/// that it is given to, of saves, of values or of columns and rows; that of lists has [`READ_BACK`] alone.
pub struct Changed {
    operation: usize,
    change: Option<(u64, usize)>,
    calls: Cell<u64>,
    /// For each number that a call of the operation gives, in the panel's form and in any other, the first
    /// such call that was lent places of everything; of totals, the first with more pages than a cell has
    /// numbers for; of columns and rows, the first of two rows' bytes or more with [`BUFFER`] places.
    pub first: RefCell<BTreeMap<(bool, u32), u64>>,
}

impl Changed {
    pub fn new(operation: usize, change: Option<(u64, usize)>) -> Changed {
        Changed {
            operation,
            change,
            calls: Cell::new(0),
            first: RefCell::default(),
        }
    }

    /// The reply, with what is to be changed of it. `wanted` tells whether the call may be the first
    /// of its number, and `change` changes one of the places lent.
    fn pass(
        &self,
        operation: usize,
        form: Form,
        reply: Reply,
        wanted: bool,
        change: impl FnOnce(usize),
    ) -> Reply {
        if operation != self.operation {
            return reply;
        }
        let call = self.calls.replace(self.calls.get() + 1);
        if wanted {
            let kind = (form == Form::Panel, reply.number);
            self.first.borrow_mut().entry(kind).or_insert(call);
        }
        match self.change.filter(|change| change.0 == call) {
            Some((_, part)) if part < PARTS => changed_if(true, part, reply),
            Some((_, part)) => {
                change(part - PARTS);
                reply
            }
            None => reply,
        }
    }
}

impl saves::Library for Changed {
    fn read_list(
        &self,
        form: Form,
        store: &[u8],
        head: u32,
        pages: &mut [u32],
        entries: &mut [u32],
        map: &mut [u8],
    ) -> Reply {
        let reply = form.read_list(store, head, pages, entries, map);
        let places = !pages.is_empty() && !entries.is_empty() && !map.is_empty();
        self.pass(READ_BACK, form, reply, places, |part| match part {
            0 | 1 => change_end(pages, part),
            2 | 3 => change_end(entries, part),
            _ => change_end(map, part),
        })
    }

    fn hand_out(&self, form: Form, save: &Save, pages: &[u32], entries: &[u32]) -> Reply {
        let reply = form.hand_out(save, pages, entries);
        self.pass(HAND_OUT, form, reply, true, |_| ())
    }

    fn finish(&self, form: Form, save: &Save, freed: &[u32], lent: &mut Lent) -> Reply {
        let reply = form.finish(save, freed, lent);
        let lengths = [
            lent.pages.len(),
            lent.entries.len(),
            lent.buffer.len(),
            lent.numbers.len(),
            lent.map.len(),
        ];
        let places = !lengths.contains(&0);
        self.pass(FINISH, form, reply, places, |part| match part {
            0 | 1 => change_end(&mut lent.pages, part),
            2 | 3 => change_end(&mut lent.entries, part),
            4 | 5 => change_end(&mut lent.buffer, part),
            6 | 7 => change_end(&mut lent.numbers, part),
            _ => change_end(&mut lent.map, part),
        })
    }
}

impl values::Library for Changed {
    fn total(&self, form: Form, size: u64) -> Reply {
        let reply = form.total(size);
        let past_cell = reply.out[0] > CELL_NUMBERS as u64;
        self.pass(TOTAL, form, reply, past_cell, |_| ())
    }

    fn write_value_page(
        &self,
        form: Form,
        writer: Writer,
        value: &[u8],
        numbers: &[u32],
        index: u64,
        page: &mut [u8],
    ) -> Reply {
        let reply = Linked.write_value_page(form, writer, value, numbers, index, page);
        self.pass(
            values::write(writer),
            form,
            reply,
            !page.is_empty(),
            |part| change_end(page, part),
        )
    }

    fn encode_cell(
        &self,
        form: Form,
        size: u64,
        hash: &Hash,
        numbers: &[u32],
        cell: &mut [u8],
    ) -> Reply {
        let reply = form.encode_cell(size, hash, numbers, cell);
        self.pass(ENCODE, form, reply, !cell.is_empty(), |part| {
            change_end(cell, part)
        })
    }

    fn decode_cell(&self, form: Form, cell: &[u8], hash: &mut Hash) -> Reply {
        let reply = form.decode_cell(cell, hash);
        self.pass(DECODE, form, reply, true, |part| change_end(hash, part))
    }

    fn read_value(
        &self,
        form: Form,
        cell: &[u8],
        store: &[u8],
        numbers: &mut [u32],
        value: &mut [u8],
    ) -> Reply {
        let reply = form.read_value(cell, store, numbers, value);
        let places = !numbers.is_empty() && !value.is_empty();
        self.pass(READ, form, reply, places, |part| match part {
            0 | 1 => change_end(numbers, part),
            _ => change_end(value, part),
        })
    }

    fn delete_value(&self, form: Form, cell: &[u8], store: &[u8], numbers: &mut [u32]) -> Reply {
        let reply = form.delete_value(cell, store, numbers);
        let places = !numbers.is_empty();
        self.pass(DELETE, form, reply, places, |part| {
            change_end(numbers, part)
        })
    }

    fn lookup(
        &self,
        form: Form,
        numbers: &[u32],
        pending: &[u8],
        store: &[u8],
        page: u32,
    ) -> Reply {
        let reply = form.lookup(numbers, pending, store, page);
        self.pass(LOOKUP, form, reply, true, |_| ())
    }
}

impl columns::Library for Changed {
    fn rearrange(&self, way: Way, from: &[u8], to: &mut [u8]) -> Reply {
        let reply = columns::Linked.rearrange(way, from, to);
        let wanted = from.len() >= 2 * ROW && to.len() == BUFFER;
        self.pass(way as usize, Form::Fixed, reply, wanted, |place| {
            to[place] ^= 1
        })
    }
}

/// Changes one bit of the first place if the part is even, else of the last.
fn change_end<T: std::ops::BitXorAssign + From<u8>>(places: &mut [T], part: usize) {
    let place = match part % 2 {
        0 => places.first_mut(),
        _ => places.last_mut(),
    };
    if let Some(place) = place {
        *place ^= T::from(1);
    }
}
