//! The generator reaches what it is for: every refusal that can occur occurs often, every answer's
//! shape occurs, and the Rust never stops where the rules have no number.

use planner::generate::{self, calls};
use planner::plan;
use planner::tally::Tally;
use std::collections::BTreeMap;

const CASES: u64 = 6_400;

#[test]
fn every_refusal_of_a_plan_occurs_often() {
    let mut tally = Tally::default();
    for number in 0..CASES {
        let case = generate::case(11, number, None);
        tally.add(case.kind, number, &plan::of_stream(&case.bytes));
    }
    assert_eq!(tally.odd(), [""; 0]);
    for number in [1, 2, 3, 4, 5, 7, 8, 10, 11, 12] {
        assert!(tally.refused(number) >= 20, "refusal {number}\n{tally}");
    }
    // 6 needs legs that a plan does not make, and 9 has never been seen
    assert_eq!((tally.refused(6), tally.refused(9)), (0, 0), "{tally}");
    for feature in [
        "64 hints",
        "a direct path",
        "a path with 2 waits or more",
        "a time without a path",
        "no arrival time",
        "10 pops or more",
    ] {
        assert!(tally.seen(feature) >= 5, "{feature}\n{tally}");
    }
}

#[test]
fn the_refusals_of_single_calls_occur_often() {
    let mut ends: BTreeMap<Option<u8>, usize> = BTreeMap::new();
    for number in 0..CASES {
        let m = calls::meeting(11, number);
        let near = mapf_watched::ask::detect_proximity(m.limit, m.a, m.b);
        *ends
            .entry(near.err().map(|f| f.number().expect("a refusal")))
            .or_default() += 1;
    }
    for end in [None, Some(5), Some(6)] {
        assert!(ends.get(&end) >= Some(&100), "{ends:?}");
    }
}
