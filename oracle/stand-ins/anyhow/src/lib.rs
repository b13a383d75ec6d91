//! Stands in for the crate anyhow: just what nomt's files use of it.

pub type Error = Box<dyn std::error::Error + Send + Sync>;
pub type Result<T> = std::result::Result<T, Error>;
