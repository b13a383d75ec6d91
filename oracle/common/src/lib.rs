//! What the programs of this workspace share.

pub mod lists;
mod store;

pub use memory_file::memory_file;
pub use random::Random;
pub use store::Store;
