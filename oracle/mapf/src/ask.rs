//! The Rust's functions on plain numbers. Each call is caught, and an endless one is cut.

use crate::fault::caught;
use crate::motion::carried::{CircularProfile, DynamicCircularObstacle, Floor};
use crate::motion::conflict::{self, reach, SafeAction};
use crate::motion::environment::{self, reach as boxes, BoundingBox};
use crate::motion::r2::{Point, Velocity, WaypointR2};
use crate::motion::{Interpolation, Motion, TimePoint, Trajectory};
use terms::*;

/// An arrival search that has read the obstacles so often for each leg and obstacle goes round
/// without end. By demand 3 an answered one makes at most L + O + 1 sweeps and lists as many times,
/// so it reads them at most twice as often.
const READINGS_EACH: usize = 8;

/// A sawtooth of hints that has converted so many seconds goes on without end.
const HINT_CONVERSIONS: u64 = 1_000_000;

/// A path search that has tested so many segments is given up.
const PATH_READINGS: usize = 1_000_000;

type Answer<T> = Result<T, Fault>;
type Pair = (f64, f64);

/// A box, by its least and its greatest coordinates.
pub type Bounds = (Pair, Pair);

fn waypoint(w: Waypoint) -> WaypointR2 {
    WaypointR2::new(TimePoint::new(w.time), w.x, w.y)
}

fn plain(w: WaypointR2) -> Waypoint {
    Waypoint::new(w.time.nanos_since_zero, w.position.x, w.position.y)
}

pub(crate) fn profile(p: Profile, conflict_squared: f64) -> CircularProfile {
    // the Rust's own constructor, so its refusals are its own
    let made = environment::CircularProfile::new(p.footprint, 0.0, p.follow);
    CircularProfile::new(made.expect("no radius below zero"), conflict_squared)
}

fn trajectory(waypoints: &[Waypoint]) -> Option<Trajectory<WaypointR2>> {
    Trajectory::from_iter(waypoints.iter().copied().map(waypoint)).ok()
}

pub(crate) fn floor(scene: &Scene) -> Floor {
    let obstacles = scene.obstacles.iter().map(|o| {
        DynamicCircularObstacle::new(
            profile(o.profile, o.conflict_squared),
            trajectory(&o.waypoints),
        )
    });
    Floor::new(profile(scene.agent, 0.0), obstacles.collect())
}

fn action(a: SafeAction<WaypointR2, conflict::WaitForObstacle>) -> Action {
    match a {
        SafeAction::Move(w) => Action::Move(plain(w)),
        SafeAction::Wait(w) => Action::Wait {
            obstacle: w.for_obstacle,
            until: w.time_estimate.nanos_since_zero,
        },
    }
}

pub fn critical_distance(a: Profile, b: Profile) -> f64 {
    profile(a, 0.0).critical_distance_for(&profile(b, 0.0))
}

pub fn critical_distance_squared(a: Profile, b: Profile) -> f64 {
    profile(a, 0.0).critical_distance_squared_for(&profile(b, 0.0))
}

pub fn follow_distance(a: Profile, b: Profile) -> f64 {
    profile(a, 0.0).follow_distance_for(&profile(b, 0.0))
}

pub fn box_for_line(p: Profile, leg: Leg) -> Bounds {
    let (from, to) = (waypoint(leg.0), waypoint(leg.1));
    boxes::bounds(&BoundingBox::for_line(&profile(p, 0.0), &from, &to))
}

pub fn box_for_trajectory(o: &Obstacle) -> Option<Bounds> {
    let made = DynamicCircularObstacle::new(profile(o.profile, 0.0), trajectory(&o.waypoints));
    made.bounding_box().map(boxes::bounds)
}

pub fn boxes_overlap(a: Bounds, b: Bounds) -> bool {
    boxes::bounding_box(a.0, a.1).overlaps(Some(boxes::bounding_box(b.0, b.1)))
}

/// Where a leg is at an instant, where it is anywhere then.
pub fn position(leg: Leg, time: i64) -> Answer<Option<Pair>> {
    caught(|| {
        let motion = waypoint(leg.0).interpolate(&waypoint(leg.1));
        let found = motion.compute_position(&TimePoint::new(time)).ok();
        found.map(|p| (p.x, p.y))
    })
}

pub fn velocity(leg: Leg) -> Answer<Option<Pair>> {
    caught(|| {
        let motion = waypoint(leg.0).interpolate(&waypoint(leg.1));
        let found = motion.compute_velocity(&TimePoint::new(leg.0.time)).ok();
        found.map(|v| (v.x, v.y))
    })
}

pub fn detect_proximity(limit: f64, a: Leg, b: Leg) -> Answer<Proximity> {
    let (a, b) = (line(a), line(b));
    caught(|| reach::proximity(limit, (&a.0, &a.1), (&b.0, &b.1)))
}

pub fn have_conflict(
    a: Leg,
    profile_a: Profile,
    b: Leg,
    profile_b: Profile,
    limit: f64,
) -> Answer<bool> {
    let (a, b) = (line(a), line(b));
    let (pa, pb) = (profile(profile_a, 0.0), profile(profile_b, limit));
    caught(|| conflict::have_conflict((&a.0, &a.1), None, &pa, (&b.0, &b.1), None, &pb, limit))
}

pub fn is_safe_segment(a: Leg, scene: &Scene) -> Answer<bool> {
    let (a, floor) = (line(a), floor(scene));
    caught(|| conflict::is_safe_segment((&a.0, &a.1), None, &floor))
}

/// The times, in seconds, at which something at `p0` with velocity `v` is within a distance of `r`.
pub fn compute_stationary_proximity(r: Pair, p0: Pair, v: Pair, limit: f64) -> Option<Pair> {
    let (r, p0) = (Point::new(r.0, r.1), Point::new(p0.0, p0.1));
    conflict::compute_stationary_proximity(r, p0, Velocity::new(v.0, v.1), limit)
}

/// The quadratic hints of a line from `q` to `r`, whose direction is made as its caller makes it.
pub fn compute_quadratic_wait_hints(
    q: Pair,
    r: Pair,
    p0: Pair,
    pf: Pair,
    dt: f64,
    limit: f64,
) -> Option<Option<Pair>> {
    let point = |p: Pair| Point::new(p.0, p.1);
    let (q, r) = (point(q), point(r));
    let u = (r - q).try_normalize(1e-8)?;
    Some(reach::quadratic_wait_hints(
        q,
        r,
        u,
        point(p0),
        point(pf),
        dt,
        limit,
    ))
}

pub fn compute_wait_hints(from: Waypoint, to: Waypoint, scene: &Scene) -> Answer<Vec<WaitHint>> {
    let (leg, floor) = (line((from, to)), floor(scene));
    time_point::allow_conversions(HINT_CONVERSIONS);
    start(usize::MAX);
    let found = caught(|| {
        let bb = BoundingBox::for_line(&floor.profile, &leg.0, &leg.1);
        reach::wait_hints((&leg.0, &leg.1), &bb, &floor)
    });
    time_point::allow_conversions(u64::MAX);
    found
}

pub fn compute_safe_linear_path_wait_hints(
    from: Waypoint,
    to: Waypoint,
    scene: &Scene,
) -> Answer<Vec<RankedHint>> {
    let (leg, floor) = (line((from, to)), floor(scene));
    time_point::allow_conversions(HINT_CONVERSIONS);
    start(usize::MAX);
    let found = caught(|| {
        let hints = conflict::compute_safe_linear_path_wait_hints((&leg.0, &leg.1), None, &floor);
        reach::ranked(&hints)
    });
    time_point::allow_conversions(u64::MAX);
    found
}

/// What the obstacle does to a candidate time at a place; nothing where it has no trajectory.
pub fn adjust_candidate_time(
    point: Waypoint,
    candidate: i64,
    obstacle: &Obstacle,
    limit: f64,
) -> Answer<Option<Adjustment>> {
    let path = trajectory(&obstacle.waypoints);
    let at = TimePoint::new(candidate);
    caught(|| path.map(|path| reach::adjustment(waypoint(point), at, &path, limit)))
}

pub fn find_next_candidate_time(
    previous: i64,
    point: Waypoint,
    obstacle: &Obstacle,
    limit: f64,
) -> Answer<Option<i64>> {
    let path = trajectory(&obstacle.waypoints);
    let at = TimePoint::new(previous);
    caught(|| path.and_then(|path| reach::next_candidate(at, waypoint(point), &path, limit)))
}

/// The list and its sweeps. The unchanged loop reads the obstacles once a sweep, and once more
/// after each time that it lists.
pub fn compute_safe_arrival_times(point: Waypoint, scene: &Scene) -> Answer<Arrivals> {
    let floor = floor(scene);
    floor.allow(READINGS_EACH * (scene.legs() + scene.moving() + 1));
    caught(|| {
        let found = conflict::compute_safe_arrival_times(waypoint(point), &floor);
        let times: Vec<i64> = found.iter().map(|t| t.nanos_since_zero).collect();
        let sweeps = floor.readings() - times.len();
        Arrivals { times, sweeps }
    })
}

/// A path to one arrival time. The pops are counted, and the budget kept, only where the lists are
/// watched.
pub fn compute_safe_arrival_path(
    from: Waypoint,
    to: Waypoint,
    arrival: i64,
    hints: &[RankedHint],
    scene: &Scene,
    budget: usize,
) -> Answer<Option<Path>> {
    let floor = floor(scene);
    floor.allow(PATH_READINGS);
    let hints = reach::lent(hints);
    start(budget);
    caught(|| {
        let found = conflict::compute_safe_arrival_path(
            waypoint(from),
            waypoint(to),
            TimePoint::new(arrival),
            &hints,
            &floor,
        );
        ended();
        found.map(|path| Path {
            actions: path.into_iter().map(action).collect(),
            pops: pops(),
        })
    })
}

/// All paths as the Rust's own top call gives them.
pub fn compute_safe_linear_paths(
    from: Waypoint,
    to: Waypoint,
    scene: &Scene,
) -> Answer<Vec<Vec<Action>>> {
    let floor = floor(scene);
    floor.allow(PATH_READINGS);
    time_point::allow_conversions(HINT_CONVERSIONS * 100);
    start(usize::MAX);
    let found = caught(|| {
        let paths = conflict::compute_safe_linear_paths(waypoint(from), waypoint(to), &floor);
        let plain = paths
            .into_iter()
            .map(|path| path.into_iter().map(action).collect());
        plain.collect()
    });
    time_point::allow_conversions(u64::MAX);
    found
}

pub(crate) fn line(leg: Leg) -> (WaypointR2, WaypointR2) {
    (waypoint(leg.0), waypoint(leg.1))
}

/// Which way the last search for hints went.
#[cfg(feature = "watched")]
pub use reach::trail::take as hint_trail;

#[cfg(feature = "watched")]
pub use reach::watch::search;

#[cfg(feature = "watched")]
use reach::watch::{ended, pops, start};

#[cfg(not(feature = "watched"))]
fn start(_: usize) {}

#[cfg(not(feature = "watched"))]
fn ended() {}

#[cfg(not(feature = "watched"))]
fn pops() -> usize {
    0
}
