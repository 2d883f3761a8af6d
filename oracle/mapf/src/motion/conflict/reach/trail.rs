//! Tells which way a search for hints went by the lines of `conflict.rs` that it came by: those that
//! store a hint, and those that ask for a dot product or a direction. The lines are those of the
//! pinned file.

use std::cell::RefCell;
use std::panic::Location;
use terms::{HintTrail, Storing};

/// The lines that store a hint.
const STORES: [(u32, &str, Storing); 6] = [
    (1065, "wait_hints.push(", Storing::Crossing),
    (1111, "wait_hints.push(", Storing::Within),
    (1129, "wait_hints.push(", Storing::CaughtUp),
    (1159, "wait_hints.push(", Storing::Round),
    (1203, "wait_hints.push(", Storing::Standing),
    (1228, "wait_hints.push(", Storing::Oncoming),
];

type Counter = fn(&mut HintTrail) -> &mut usize;

/// Lines that a search comes by once each time, and what each time is one of.
const PASSES: [(u32, &str, Counter); 7] = [
    (1045, "try_normalize(", |t| &mut t.directions),
    (1076, "obs_v.dot(", |t| &mut t.legs),
    (1100, "dq.dot(", |t| &mut t.followed),
    (1103, "dq.dot(", |t| &mut t.apart),
    (1257, "alpha.dot(", |t| &mut t.lines),
    (1310, "v.dot(", |t| &mut t.line_ends),
    (1335, "v.dot(", |t| &mut t.places),
];

thread_local! {
    static TRAIL: RefCell<HintTrail> = RefCell::default();
}

/// Starts a trail afresh.
pub fn start() {
    take();
    nalgebra::asked::watch(pass);
}

/// The trail since the start.
pub fn take() -> HintTrail {
    TRAIL.with(|trail| trail.take())
}

/// A hint is about to be stored.
pub fn store(place: &Location<'_>) {
    let known = STORES.iter().find(|(line, _, _)| *line == place.line());
    let (_, _, storing) = known.expect("every line that stores a hint is known");
    TRAIL.with(|trail| trail.borrow_mut().stored.push(*storing));
}

fn pass(place: &'static Location<'static>) {
    let known = PASSES.iter().find(|(line, _, _)| *line == place.line());
    if let (Some((_, _, counter)), true) = (known, place.file().ends_with("/conflict.rs")) {
        TRAIL.with(|trail| *counter(&mut trail.borrow_mut()) += 1);
    }
}

#[cfg(test)]
mod tests {
    use super::*;

    fn pinned() -> String {
        let file = concat!(env!("MAPF_MOTION"), "/conflict.rs");
        std::fs::read_to_string(file).expect("the build found it")
    }

    #[test]
    fn the_lines_are_those_of_the_pinned_file() {
        let text = pinned();
        let lines: Vec<&str> = text.lines().collect();
        let stores = STORES.iter().map(|(line, words, _)| (line, words));
        let passes = PASSES.iter().map(|(line, words, _)| (line, words));
        for (line, words) in stores.chain(passes) {
            let there = lines[*line as usize - 1];
            assert_eq!(there.matches(words).count(), 1, "{line}: {there}");
        }
    }

    #[test]
    fn no_other_line_stores_a_hint() {
        assert_eq!(pinned().matches("wait_hints.push(").count(), STORES.len());
    }
}
