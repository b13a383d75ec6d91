//! Stands in for the crate crossbeam_channel: just what nomt's files use of it.

pub use std::sync::mpsc::{sync_channel as bounded, Receiver, SyncSender as Sender};
