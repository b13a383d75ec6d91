//! The library's functions of lists and saves, with and without a page size.

use mopsienna_sys::{Form, Lent, Reply, Save};

pub trait Library {
    fn read_list(
        &self,
        form: Form,
        store: &[u8],
        head: u32,
        pages: &mut [u32],
        entries: &mut [u32],
        map: &mut [u8],
    ) -> Reply;

    fn hand_out(&self, form: Form, save: &Save, pages: &[u32], entries: &[u32]) -> Reply;

    fn finish(&self, form: Form, save: &Save, freed: &[u32], lent: &mut Lent) -> Reply;
}

/// The library as it is.
pub struct Linked;

impl Library for Linked {
    fn read_list(
        &self,
        form: Form,
        store: &[u8],
        head: u32,
        pages: &mut [u32],
        entries: &mut [u32],
        map: &mut [u8],
    ) -> Reply {
        form.read_list(store, head, pages, entries, map)
    }

    fn hand_out(&self, form: Form, save: &Save, pages: &[u32], entries: &[u32]) -> Reply {
        form.hand_out(save, pages, entries)
    }

    fn finish(&self, form: Form, save: &Save, freed: &[u32], lent: &mut Lent) -> Reply {
        form.finish(save, freed, lent)
    }
}
