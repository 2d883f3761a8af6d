//! The two names that the Rust takes from its `error` module.

pub use thiserror::Error as ThisError;

/// An error that never occurs.
#[derive(Debug, ThisError)]
pub enum NoError {}
