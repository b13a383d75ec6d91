//! A simulated disk: a store whose page writes can be taken back.

/// A page that is to be written, and its number.
#[derive(Clone)]
pub struct Write {
    pub number: u32,
    pub bytes: Vec<u8>,
}

pub struct Disk {
    size: usize,
    pub store: Vec<u8>,
}

/// What a cut has changed: the store's length before, and the pages that were written over.
pub struct Undo {
    length: usize,
    pages: Vec<(usize, Vec<u8>)>,
}

impl Disk {
    pub fn new(size: usize, pages: usize) -> Disk {
        Disk {
            size,
            store: vec![0; size * pages],
        }
    }

    /// Grows the store by these bytes and writes these pages, each whole, in their order. A page past
    /// the end grows the store up to it, with zeros.
    pub fn cut(&mut self, extra: &[u8], writes: &[&Write]) -> Undo {
        let mut undo = Undo {
            length: self.store.len(),
            pages: Vec::new(),
        };
        self.store.extend_from_slice(extra);
        for write in writes {
            let start = self.size * write.number as usize;
            let end = start + self.size;
            if self.store.len() < end {
                self.store.resize(end, 0);
            }
            undo.pages.push((start, self.store[start..end].to_vec()));
            self.store[start..end].copy_from_slice(&write.bytes);
        }
        undo
    }

    pub fn take_back(&mut self, undo: Undo) {
        for (start, bytes) in undo.pages.iter().rev() {
            self.store[*start..start + bytes.len()].copy_from_slice(bytes);
        }
        self.store.truncate(undo.length);
    }
}
