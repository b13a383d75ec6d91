
/// Reaches this file's private items.
pub mod probe {
    use super::{Arc, File, FreeList, Mutex, Ordering, PageNumber, Store, StoreSync, SyncAllocator};

    pub use super::free_list::probe as free_list;

    /// A store whose list is not read from the file.
    pub fn open(file: Arc<File>, bump: PageNumber, max_bump: PageNumber, list: FreeList) -> Store {
        let sync = StoreSync {
            free_list: list,
            bump,
            max_bump,
        };
        Store {
            file,
            sync: Arc::new(Mutex::new(sync)),
        }
    }

    pub fn bump_and_max_bump(store: &Store) -> (PageNumber, PageNumber) {
        let sync = store.sync.lock();
        (sync.bump, sync.max_bump)
    }

    pub fn look_at_list<T>(store: &Store, look: impl FnOnce(&FreeList) -> T) -> T {
        look(&store.sync.lock().free_list)
    }

    /// Takes so many numbers as handed out.
    pub fn set_allocations(allocator: &SyncAllocator, count: usize) {
        allocator.inner.allocations.store(count, Ordering::Relaxed);
    }

    /// The recorded length within a save.
    pub fn max_bump(allocator: &SyncAllocator) -> PageNumber {
        *allocator.inner.set_len_lock.lock()
    }
}
