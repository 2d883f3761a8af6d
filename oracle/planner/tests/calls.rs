//! Each function of the Rust that the oracle reaches, private ones included, on a case that can be
//! worked out by hand.

use mapf::ask;
use planner::marked::*;
use terms::{Adjustment, Obstacle, Profile, Waypoint};

/// From (-3,0) to (3,0) in 6 s.
fn passing_leg() -> terms::Leg {
    only_leg(&passing())
}

#[test]
fn a_leg_has_a_position_from_its_start_to_its_end() {
    let at = |time| ask::position(passing_leg(), time).expect("an instant");
    assert_eq!(ask::velocity(passing_leg()), Ok(Some((1.0, 0.0))));
    assert_eq!(at(0), Some((-3.0, 0.0)));
    assert_eq!(at(3 * S), Some((0.0, 0.0)));
    assert_eq!(at(6 * S), Some((3.0, 0.0)));
    assert_eq!((at(-1), at(6 * S + 1)), (None, None));
}

#[test]
fn a_leg_of_no_duration_is_near_nothing() {
    let here = (point(0), point(0));
    let (x, y) = ask::position(here, 0)
        .expect("an instant")
        .expect("a position");
    assert!(x.is_nan() && y.is_nan());
    let found = ask::detect_proximity(LIMIT, here, here).expect("a short range");
    assert_eq!((found.enter, found.exit), (None, None));
    let short = (point(0), point(1));
    let found = ask::detect_proximity(LIMIT, short, short).expect("a short range");
    assert_eq!((found.enter, found.exit), (Some(0), None));
}

#[test]
fn distances_between_profiles() {
    let bare = Profile {
        footprint: 0.0,
        follow: 0.0,
    };
    let wary = Profile {
        footprint: 0.5,
        follow: 2.0,
    };
    assert_eq!(ask::critical_distance(bare, bare), 1e-3);
    assert_eq!(ask::critical_distance(HALF, wary), 1.0);
    assert_eq!(ask::critical_distance_squared(bare, bare), 1e-3 * 1e-3);
    assert_eq!(ask::follow_distance(HALF, HALF), 2.0);
    assert_eq!(ask::follow_distance(HALF, wary), 3.0);
}

#[test]
fn boxes_are_grown_by_footprints_and_overlap_where_they_touch() {
    let leg = (Waypoint::new(0, 0.0, 0.0), Waypoint::new(S, 10.0, -2.0));
    assert_eq!(ask::box_for_line(HALF, leg), ((-0.5, -2.5), (10.5, 0.5)));
    let whole = ask::box_for_trajectory(&turning_back());
    assert_eq!(whole, Some(((0.5, -0.5), (3.5, 0.5))));
    assert_eq!(ask::box_for_trajectory(&cart(&[])), None);
    let unit = ((0.0, 0.0), (1.0, 1.0));
    assert!(ask::boxes_overlap(unit, ((1.0, 1.0), (2.0, 2.0))));
    assert!(!ask::boxes_overlap(
        unit,
        ((1.0, 1.0 + f64::EPSILON), (2.0, 2.0))
    ));
}

#[test]
fn a_start_inside_the_limit_is_no_conflict() {
    let nearer: Obstacle = cart(&[(0, 0.5, 0.0), (6, 0.0, 0.0)]);
    let (a, b) = (stay(only_leg(&nearer)), only_leg(&nearer));
    let found = ask::detect_proximity(LIMIT, a, b).expect("they meet");
    assert_eq!(found.enter, Some(0));
    assert_eq!(ask::have_conflict(a, HALF, b, HALF, LIMIT), Ok(false));
}

#[test]
fn a_segment_is_safe_where_nothing_conflicts() {
    let r = crossing();
    assert_eq!(ask::is_safe_segment((r.from, r.to), &r.scene), Ok(false));
    let apart = scene(cart(&[(0, 5.0, 5.0), (10, 5.0, 15.0)]));
    assert_eq!(ask::is_safe_segment((r.from, r.to), &apart), Ok(true));
}

#[test]
fn near_a_point_and_near_a_line() {
    let near = |v| ask::compute_stationary_proximity((0.0, 0.0), (-3.0, 0.0), v, LIMIT);
    assert_eq!(near((1.0, 0.0)), Some((2.0, 4.0)));
    assert_eq!((near((0.0, 0.0)), near((0.0, 1.0))), (None, None));
    let line = |r| {
        let (p0, pf) = ((5.0, -5.0), (5.0, 5.0));
        ask::compute_quadratic_wait_hints((0.0, 0.0), r, p0, pf, 10.0, LIMIT)
    };
    assert_eq!(line((10.0, 0.0)), Some(Some((4.0, 6.0))));
    assert_eq!(line((0.0, 10.0)), Some(None));
    assert_eq!(line((0.0, 0.0)), None);
}

#[test]
fn a_candidate_time_is_pushed_to_the_exit() {
    let adjusted = |o: &Obstacle, candidate| {
        ask::adjust_candidate_time(point(0), candidate, o, LIMIT).expect("no refusal")
    };
    let quiet = Adjustment {
        pushed: false,
        result: None,
    };
    let pushed = Adjustment {
        pushed: true,
        result: Some(4 * S),
    };
    assert_eq!(adjusted(&passing(), 0), Some(quiet));
    assert_eq!(adjusted(&passing(), 3 * S), Some(pushed));
    assert_eq!(adjusted(&cart(&[]), 0), None);
}

#[test]
fn the_next_candidate_is_an_exit_or_a_finish_nearby() {
    let next = |o: &Obstacle, previous| {
        ask::find_next_candidate_time(previous, point(0), o, LIMIT).expect("no refusal")
    };
    assert_eq!(next(&passing(), 0), Some(4 * S));
    assert_eq!(next(&passing(), 4 * S), None);
    assert_eq!(next(&stopping(), 0), Some(3 * S));
    assert_eq!(next(&stopping(), 3 * S), None);
}
