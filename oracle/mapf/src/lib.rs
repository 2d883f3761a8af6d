//! The Rust of open-rmf/mapf as published, compiled from its own files, with the pieces that the
//! source folder lacks filled by document 01's rules. `ask` runs its functions on plain numbers.

pub mod ask;
pub mod domain;
pub mod error;
pub mod fault;
pub mod motion;
pub mod ready;
