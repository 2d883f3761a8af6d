//! The watched build is the Rust too: where it answers and the Rust leaves no order open, the plain
//! build's own top call gives the same paths; where it stops, the plain build says why.

use planner::generate;
use planner::plan::{self, Plan, Stop};
use planner::request::Request;
use planner::stream;
use terms::{Action, Fault};

const CASES: u64 = 3_200;

/// Two hints that the Rust's ranking does not tell apart.
fn has_ties(plan: &Plan) -> bool {
    let alike = |w: &[terms::RankedHint]| w[0].contour == w[1].contour && w[0].reach == w[1].reach;
    plan.hints.windows(2).any(alike)
}

fn plain(r: &Request) -> Result<Vec<Vec<Action>>, Fault> {
    mapf::ask::compute_safe_linear_paths(r.from, r.to, &r.scene)
}

/// Why the plain build has no answer. An endless arrival search is asked by itself, where it is cut.
fn plain_fault(r: &Request, number: u8) -> Option<Fault> {
    match number {
        8 => mapf::ask::compute_safe_arrival_times(r.to, &r.scene).err(),
        _ => plain(r).err(),
    }
}

#[test]
fn the_plain_build_gives_the_same_paths() {
    let (mut same, mut tied) = (0, 0);
    for number in 0..CASES {
        let case = generate::case(7, number, None);
        let Some(r) = stream::read(&case.bytes) else {
            continue;
        };
        match plan::of(&r) {
            Ok(plan) if has_ties(&plan) => tied += 1,
            Ok(plan) => {
                let paths: Vec<_> = plan.paths.into_iter().map(|p| p.actions).collect();
                assert_eq!(plain(&r), Ok(paths), "{} {number}", case.kind.name());
                same += 1;
            }
            // the rules refuse what the Rust would answer, or are not the Rust's to refuse
            Err(Stop::Refused(1 | 2 | 7 | 10 | 11 | 12)) => {}
            Err(Stop::Refused(n)) => {
                let fault = plain_fault(&r, n).and_then(|f| f.number());
                assert_eq!(fault, Some(n), "{} {number}", case.kind.name());
            }
            Err(Stop::Odd(fault)) => panic!("{} {number}: {fault:?}", case.kind.name()),
        }
    }
    assert!(
        same > CASES as usize / 2,
        "{same} compared, {tied} with ties"
    );
}
