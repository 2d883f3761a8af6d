//! What is timed. The inputs of each part are drawn once from the generator with a fixed seed, and
//! laid out for both sides before the clock runs.

pub mod asked;
pub mod calls;
pub mod plans;
pub mod tables;

use crate::measure::{measure, Sides};
use std::hint::black_box;

/// The seed of all inputs.
const SEED: u64 = 1;

/// A part: its name, and what times it in so many rounds and tells the figures.
pub struct Part {
    pub name: &'static str,
    pub time: fn(rounds: usize) -> String,
}

macro_rules! parts {
    ($($name:literal: $time:path;)*) => {
        pub const ALL: &[Part] = &[$(Part { name: $name, time: $time },)*];
    };
}

parts! {
    "root": calls::root;
    "stationary": calls::stationary;
    "proximity": calls::proximity;
    "conflict": calls::conflict;
    "segment": tables::segment_part;
    "hints": tables::hints_part;
    "arrivals": tables::arrivals_part;
    "path": tables::path_part;
    "plan-empty": plans::empty;
    "plan-ordinary": plans::ordinary;
    "plan-sparse": plans::sparse;
    "plan-crowded": plans::crowded;
    "plan-long": plans::long;
}

/// Both sides on the same inputs.
pub fn sides<'a, T>(
    inputs: &'a [T],
    mut proved: impl FnMut(&T) -> u64 + 'a,
    mut rust: impl FnMut(&T) -> u64 + 'a,
) -> Sides<'a> {
    Sides {
        calls: inputs.len(),
        proved: Box::new(move || pass(inputs, &mut proved)),
        rust: Box::new(move || pass(inputs, &mut rust)),
    }
}

fn pass<T>(inputs: &[T], call: &mut impl FnMut(&T) -> u64) -> u64 {
    let add = |sum: u64, input| sum.wrapping_add(call(black_box(input)));
    inputs.iter().fold(0, add)
}

/// One line of figures under a name.
fn line(name: &str, sides: Sides, rounds: usize) -> String {
    format!("  {name}: {}\n", measure(sides, rounds))
}
