//! Where the Rust panics, goes on without end, leaves an order open or answers what the rules
//! refuse: each entry of docs/DIFFERENCES.md that has an input, run.

use mapf::ask;
use planner::marked::*;
use planner::plan::{self, Stop};
use planner::request::Request;
use terms::{Action, Fault, Obstacle, Profile, Waypoint};

fn planned(r: &Request) -> Result<(), Stop> {
    plan::of(r).map(|_| ())
}

fn refused(r: &Request, number: u8) {
    assert_eq!(planned(r), Err(Stop::Refused(number)));
}

fn plain_hints(r: &Request) -> Result<usize, Fault> {
    ask::compute_wait_hints(r.from, r.to, &r.scene).map(|hints| hints.len())
}

/// Crossing with other obstacles.
fn among(obstacles: Vec<Obstacle>) -> Request {
    let mut r = crossing();
    r.scene.obstacles = obstacles;
    r
}

/// A cart of half a metre between two waypoints.
fn between(from: Waypoint, to: Waypoint) -> Obstacle {
    let mut o = cart(&[]);
    o.waypoints = vec![from, to];
    o
}

#[test]
fn legs_at_a_boundary() {
    use mapf_published::ask::compute_safe_arrival_times as published;
    let times = |o, asked| published(point(asked), &scene(o)).map(|found| found.times);
    assert_eq!(times(stopping(), 0), Ok(vec![0, 3 * S]));
    assert_eq!(times(stopping(), 5 * S / 2), Ok(vec![3 * S]));
    assert_eq!(times(turning_back(), 0), Ok(vec![0, 2 * S]));
}

#[test]
fn a_creeping_cart() {
    let leg = only_leg(&creeping());
    assert_eq!(
        ask::detect_proximity(LIMIT, stay(leg), leg),
        Err(Fault::Creep)
    );
    let mut r = among(vec![creeping()]);
    (r.from, r.to) = (Waypoint::new(0, -9.0, 0.0), point(10 * S));
    refused(&r, 5);
}

#[test]
fn a_touch_and_a_turn_back() {
    let found = ask::compute_safe_arrival_times(point(0), &scene(turning_back()));
    assert_eq!(found, Err(Fault::Endless));
    let mut r = among(vec![turning_back()]);
    (r.from, r.to) = (Waypoint::new(0, 0.0, -9.0), point(S));
    refused(&r, 8);
}

#[test]
fn an_agent_that_runs_backward() {
    let mut r = crossing();
    (r.from.time, r.to.time) = (S, 0);
    let found = ask::compute_safe_linear_paths(r.from, r.to, &r.scene);
    assert_eq!(found, Err(Fault::Backward));
    refused(&r, 3);
}

#[test]
fn an_agent_without_length() {
    let mut r = crossing();
    r.to = Waypoint::new(10 * S, 0.0, 0.0);
    let found = ask::compute_safe_linear_paths(r.from, r.to, &r.scene);
    assert_eq!(found, Err(Fault::NoLine));
    refused(&r, 4);
    r.to.x = 1e-8;
    assert_eq!(plain_hints(&r), Ok(0));
    assert_eq!(planned(&r), Ok(()));
}

#[test]
fn a_leg_without_a_direction() {
    let start = Waypoint::new(5 * S, 5.0, 0.0);
    let end = Waypoint::new(5 * S + 1_000, 5.0, 1e-9);
    let r = among(vec![between(start, end)]);
    assert_eq!(plain_hints(&r), Err(Fault::NoDirection));
    refused(&r, 4);
}

#[test]
fn legs_apart_in_time() {
    let (a, b) = ((point(0), point(S)), (point(2 * S), point(3 * S)));
    assert_eq!(ask::detect_proximity(LIMIT, a, b), Err(Fault::Apart));
    let backward = (point(S), point(0));
    assert_eq!(ask::detect_proximity(LIMIT, backward, a), Err(Fault::Apart));
}

#[test]
fn a_sawtooth_without_end() {
    let late = 999_999_999_000_000;
    let start = Waypoint::new(late, 100.0, 0.0);
    let end = Waypoint::new(late + 100, 9_000.0, 0.0);
    let mut r = among(vec![between(start, end)]);
    r.from = Waypoint::new(late, 0.0, 0.0);
    r.to = Waypoint::new(late + 10, 10_000.0, 0.0);
    assert_eq!(plain_hints(&r), Err(Fault::Endless));
    refused(&r, 10);
}

#[test]
fn more_hints_than_are_kept() {
    let bare = Profile {
        footprint: 0.0,
        follow: 0.0,
    };
    let mut r = among(vec![cart(&[(0, 1.0, 0.0), (10, 2.0, 0.0)])]);
    (r.scene.agent, r.scene.obstacles[0].profile) = (bare, bare);
    assert_eq!(plain_hints(&r), Ok(401));
    refused(&r, 10);
}

#[test]
fn hints_that_rank_alike() {
    let passing = crossing().scene.obstacles[0].clone();
    let r = among(vec![passing.clone(), passing]);
    let waits = |actions: &[Action]| -> Vec<usize> {
        let number = |a: &Action| match a {
            Action::Wait { obstacle, .. } => Some(*obstacle),
            Action::Move(_) => None,
        };
        actions.iter().filter_map(number).collect()
    };
    let theirs = ask::compute_safe_linear_paths(r.from, r.to, &r.scene).expect("a path");
    let mut seen = waits(&theirs[0]);
    seen.sort_unstable();
    assert_eq!(seen, [0, 1]);
    let ours = plan::of(&r).expect("a plan");
    assert_eq!(waits(&ours.paths[0].actions), [0, 1]);
}

#[test]
fn a_time_past_the_size_that_is_kept() {
    let mut r = among(vec![cart(&[(10, -10.0, 0.0), (90, 5_000.0, 0.0)])]);
    r.from = Waypoint::new(100 * S, 0.0, 0.0);
    r.to = Waypoint::new(200 * S, 0.02, 0.0);
    assert_eq!(plain_hints(&r), Ok(1));
    refused(&r, 7);
}

#[test]
fn a_search_without_budget() {
    let mut r = crossing();
    let theirs = ask::compute_safe_linear_paths(r.from, r.to, &r.scene).expect("a path");
    assert_eq!(theirs.len(), 1);
    r.budget = 0;
    refused(&r, 11);
}

#[test]
fn a_short_agent_asked_for_hints_alone() {
    let mut r = crossing();
    r.to.time = 9;
    assert_eq!(plain_hints(&r), Ok(1));
    assert_eq!(planned(&r), Ok(()));
}

#[test]
fn a_conflict_distance_that_is_carried() {
    use mapf::motion::environment::CircularProfile;
    let half = CircularProfile::new(0.5, 0.0, 0.0).expect("no radius below zero");
    assert_eq!(half.conflict_distance_squared_for(&half), 0.998_001);
    let (a, b) = head_on();
    let near = |limit| ask::detect_proximity(limit, a, b).expect("they meet").enter;
    assert_eq!(near(0.998_001), Some(4_500_500_000));
    assert_eq!(near(LIMIT), Some(4_500_000_000));
}

#[test]
fn zeros_of_both_signs_in_a_box() {
    let bare = Profile {
        footprint: 0.0,
        follow: 0.0,
    };
    let leg = (Waypoint::new(0, 0.0, 0.0), Waypoint::new(S, 0.0, -0.0));
    let (least, greatest) = ask::box_for_line(bare, leg);
    // which zero it is the Rust does not say; either is the same bound
    assert_eq!((least, greatest), ((0.0, 0.0), (0.0, 0.0)));
}
