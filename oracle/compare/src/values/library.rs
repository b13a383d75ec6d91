//! The library's functions of values and of page lookup, in any form.

use super::model::Writer;
use mopsienna_sys::{values::Hash, Form, Reply};

pub trait Library {
    fn total(&self, form: Form, size: u64) -> Reply;

    fn write_value_page(
        &self,
        form: Form,
        writer: Writer,
        value: &[u8],
        numbers: &[u32],
        index: u64,
        page: &mut [u8],
    ) -> Reply;

    fn encode_cell(
        &self,
        form: Form,
        size: u64,
        hash: &Hash,
        numbers: &[u32],
        cell: &mut [u8],
    ) -> Reply;

    fn decode_cell(&self, form: Form, cell: &[u8], hash: &mut Hash) -> Reply;

    fn read_value(
        &self,
        form: Form,
        cell: &[u8],
        store: &[u8],
        numbers: &mut [u32],
        value: &mut [u8],
    ) -> Reply;

    fn delete_value(&self, form: Form, cell: &[u8], store: &[u8], numbers: &mut [u32]) -> Reply;

    fn lookup(&self, form: Form, numbers: &[u32], pending: &[u8], store: &[u8], page: u32)
        -> Reply;
}

/// The library as it is.
pub struct Linked;

impl Library for Linked {
    fn total(&self, form: Form, size: u64) -> Reply {
        form.total(size)
    }

    fn write_value_page(
        &self,
        form: Form,
        writer: Writer,
        value: &[u8],
        numbers: &[u32],
        index: u64,
        page: &mut [u8],
    ) -> Reply {
        match writer {
            Writer::New => form.write_value_page(value, numbers, index, page),
            Writer::Old => form.write_old_value_page(value, numbers, index, page),
        }
    }

    fn encode_cell(
        &self,
        form: Form,
        size: u64,
        hash: &Hash,
        numbers: &[u32],
        cell: &mut [u8],
    ) -> Reply {
        form.encode_cell(size, hash, numbers, cell)
    }

    fn decode_cell(&self, form: Form, cell: &[u8], hash: &mut Hash) -> Reply {
        form.decode_cell(cell, hash)
    }

    fn read_value(
        &self,
        form: Form,
        cell: &[u8],
        store: &[u8],
        numbers: &mut [u32],
        value: &mut [u8],
    ) -> Reply {
        form.read_value(cell, store, numbers, value)
    }

    fn delete_value(&self, form: Form, cell: &[u8], store: &[u8], numbers: &mut [u32]) -> Reply {
        form.delete_value(cell, store, numbers)
    }

    fn lookup(
        &self,
        form: Form,
        numbers: &[u32],
        pending: &[u8],
        store: &[u8],
        page: u32,
    ) -> Reply {
        form.lookup(numbers, pending, store, page)
    }
}
