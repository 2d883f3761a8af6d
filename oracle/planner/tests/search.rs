//! What the watched build tells of a search, on searches that can be followed by hand: P10 with
//! hints that were lent.

use mapf_watched::ask;
use planner::marked::{crossing, S};
use planner::plan::hold;
use terms::{Fault, Path, RankedHint, Search, WaitHint};

/// A hint where P10's own is, of another rank and another end.
fn hint(contour: i64, reach: f64, until: i64) -> RankedHint {
    let place = WaitHint {
        x: 4.0,
        y: 0.0,
        until,
        obstacle: 0,
    };
    RankedHint {
        contour,
        reach,
        hint: place,
    }
}

/// P10's own hint.
fn own() -> RankedHint {
    hint(2 * S, 4.0, 6 * S)
}

/// The path to an arrival time, and what was done to find it.
fn asked(arrival: i64, hints: &[RankedHint]) -> (Result<Option<Path>, Fault>, Search) {
    let r = crossing();
    ask::search();
    let found = ask::compute_safe_arrival_path(r.from, r.to, arrival, hints, &r.scene, 4096);
    (found, ask::search())
}

fn actions(found: Result<Option<Path>, Fault>) -> usize {
    let path = found.expect("no refusal").expect("a path");
    path.actions.len()
}

#[test]
fn the_root_alone() {
    let (found, search) = asked(10 * S, &[own()]);
    assert_eq!(actions(found), 3);
    let told = Search {
        pops: 1,
        ..Search::default()
    };
    assert_eq!(search, told);
}

#[test]
fn a_root_that_cannot_move_up() {
    let (found, search) = asked(10 * S, &[hint(S, 4.0, 4 * S)]);
    assert_eq!(found, Ok(None));
    let told = Search {
        pops: 1,
        ..Search::default()
    };
    assert_eq!(search, told);
}

#[test]
fn a_root_that_moves_up_and_takes_the_lower_one_for_its_child() {
    let (found, search) = asked(10 * S, &[hint(S, 4.0, 4 * S), own()]);
    assert_eq!(actions(found), 5);
    let told = Search {
        pops: 3,
        roots_moved_up: 1,
        children_tried: 1,
        ..Search::default()
    };
    assert_eq!(search, told);
}

#[test]
fn a_child_passed_over() {
    let (found, search) = asked(10 * S, &[hint(S, 4.5, 4 * S), own()]);
    assert_eq!(actions(found), 3);
    let told = Search {
        pops: 3,
        roots_moved_up: 1,
        children_passed_over: 1,
        ..Search::default()
    };
    assert_eq!(search, told);
}

#[test]
fn a_child_whose_own_start_is_late() {
    let (found, search) = asked(10 * S, &[hint(S, 4.0, 3 * S), own()]);
    assert_eq!(actions(found), 3);
    let told = Search {
        pops: 4,
        roots_moved_up: 1,
        children_tried: 1,
        children_failed: 1,
        own_starts_failed: 1,
        ..Search::default()
    };
    assert_eq!(search, told);
}

#[test]
fn a_root_whose_own_start_is_late() {
    let (found, search) = asked(10 * S, &[hint(2 * S, 4.0, -9 * S)]);
    assert_eq!(found, Ok(None));
    let told = Search {
        pops: 1,
        own_starts_failed: 1,
        ..Search::default()
    };
    assert_eq!(search, told);
}

#[test]
fn a_way_backward_is_a_short_range_or_refused() {
    let late = |by| [hint(S, 4.0, 6 * S), hint(2 * S, 4.0, 6 * S - by)];
    let told = Search {
        pops: 2,
        children_tried: 1,
        backward_ways: 1,
        ..Search::default()
    };
    let (found, search) = asked(23 * S / 2, &late(99_999));
    let path = found.expect("no refusal").expect("a path");
    assert_eq!(hold(&path.actions), Some(2 * S - 99_999));
    let short = Search {
        short_backward_ways: 1,
        ..told
    };
    assert_eq!(search, short);
    let (found, search) = asked(23 * S / 2, &late(100_000));
    assert_eq!((found, search), (Err(Fault::Apart), told));
}
