//! How many of the compared cases took each branch of the search for hints. A walk by the rules tells
//! them, and is held to what the Rust finds and to what its own lines tell of its way.

use crate::report::Report;
use mapf_watched::ask;
use planner::hint_walk::{walk, Branch, Walked};
use planner::request::Request;
use terms::WaitHint;

/// Counts the branches that the search took for a request, none where it was refused before.
pub fn tell(report: &mut Report, request: Option<&Request>) {
    let walked = request.map(|r| walk(r.from, r.to, &r.scene));
    for (branch, name) in Branch::ALL {
        let taken = |walked: &Walked| walked.branches.contains(&branch);
        report.see_if(name, walked.as_ref().is_some_and(taken));
    }
    if let (Some(walked), Some(request)) = (walked, request) {
        report.hold(is_the_rusts(&walked, request), || {
            format!("{request:?}: the branches are not those of the Rust's search")
        });
    }
}

/// The walk finds what the Rust finds, by the same parts.
pub fn is_the_rusts(walked: &Walked, request: &Request) -> bool {
    let found = ask::compute_wait_hints(request.from, request.to, &request.scene);
    let same = match (&walked.found, &found) {
        (Ok(ours), Ok(rusts)) => ours.iter().map(bits).eq(rusts.iter().map(bits)),
        (Err(number), Err(fault)) => fault.number() == Some(*number),
        _ => false,
    };
    same && walked.trail == ask::hint_trail()
}

/// The fields of a hint, the doubles by their bits.
pub fn bits(hint: &WaitHint) -> (u64, u64, i64, usize) {
    (
        hint.x.to_bits(),
        hint.y.to_bits(),
        hint.until,
        hint.obstacle,
    )
}

#[cfg(test)]
mod tests {
    use super::*;
    use planner::marked::crossing;

    #[test]
    fn a_walk_that_goes_another_way_is_told() {
        let request = crossing();
        let walked = || walk(request.from, request.to, &request.scene);
        assert!(is_the_rusts(&walked(), &request));
        let mut elsewhere = walked();
        elsewhere.trail.places += 1;
        assert!(!is_the_rusts(&elsewhere, &request));
        let mut later = walked();
        later.found.as_mut().expect("a hint")[0].until += 1;
        assert!(!is_the_rusts(&later, &request));
    }
}
