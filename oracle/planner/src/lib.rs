//! The Rust as a whole planner by document 01's rules: a request comes in as the stream of `plan`,
//! and its lines come out. Beside it a generator of requests and the marked examples; and a year's
//! holding time by document 02's rules.

pub mod answers;
pub mod domain;
pub mod generate;
pub mod hint_walk;
pub mod holds;
pub mod lines;
pub mod marked;
pub mod plan;
pub mod replies;
pub mod request;
pub mod stream;
pub mod tally;
pub mod worked;
