//! The Rust gives what was worked out on paper for each example of hints, found and ranked, and
//! goes the way that the example is for.

use mapf_watched::ask;
use planner::hint_walk::walk;
use planner::worked::examples;
use terms::{RankedHint, WaitHint};

fn plain(hints: Vec<RankedHint>) -> Vec<WaitHint> {
    hints.into_iter().map(|ranked| ranked.hint).collect()
}

#[test]
fn the_rust_finds_the_hints_worked_out() {
    for example in examples() {
        let (from, to) = example.leg;
        let found = ask::compute_wait_hints(from, to, &example.scene);
        let found = found.map_err(|fault| fault.number().expect("a refusal"));
        let worked_out = example.found.map(plain);
        assert_eq!(found, worked_out, "{}", example.name);
    }
}

#[test]
fn the_rust_ranks_them_so() {
    for example in examples() {
        let (from, to) = example.leg;
        let ranked = ask::compute_safe_linear_path_wait_hints(from, to, &example.scene);
        let ranked = ranked.map_err(|fault| fault.number().expect("a refusal"));
        assert_eq!(ranked, example.ranked(), "{}", example.name);
    }
}

#[test]
fn each_goes_the_way_that_it_is_for() {
    for example in examples() {
        let (from, to) = example.leg;
        let walked = walk(from, to, &example.scene);
        ask::compute_wait_hints(from, to, &example.scene).ok();
        assert_eq!(walked.trail, ask::hint_trail(), "{}", example.name);
        assert!(
            walked.branches.contains(&example.branch),
            "{}",
            example.name
        );
    }
}
