//! Runs the proved library and the Rust on the same inputs, in one process, layer by layer.

pub mod benches;
pub mod clock;
pub mod crossings;
pub mod draw;
pub mod hint_branches;
pub mod layers;
pub mod lendings;
pub mod lent;
pub mod lent_hints;
pub mod machine;
pub mod measure;
pub mod proved;
pub mod rarities;
pub mod report;
pub mod room;
pub mod rows;
pub mod stack;
pub mod table;
pub mod visits;
