//! The Rust's allocator, free list and overflow values, built unchanged at one page size.
//!
//! `build.rs` prepares them. Every `nomt-<page size>` package builds this same file.

pub mod io;
mod plain;
mod values;

pub use plain::Plain;
pub use values::reader;

include!(concat!(env!("OUT_DIR"), "/nomt.rs"));
