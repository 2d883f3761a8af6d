//! The one name that `environment.rs` takes from its `domain` module.

/// What a constraint can be kept under.
pub trait Key: std::hash::Hash + Eq + Clone + std::fmt::Debug {}
