//! Each limit of the domain (RULES, section 3) is allowed, one step beyond it is refused, and the refusals
//! come in their order (RULES 5.1 to 5.6).

use planner::domain::refused;
use planner::marked::{cart, crossing, S};
use planner::plan::{self, Stop};
use planner::request::Request;
use terms::{Obstacle, Waypoint};

const LATEST: i64 = 1_000_000_000_000_000;

type Change = fn(&mut Request);

fn after(change: Change) -> Option<u8> {
    let mut r = crossing();
    change(&mut r);
    refused(&r)
}

fn up(x: f64) -> f64 {
    f64::from_bits(x.to_bits() + 1)
}

/// An obstacle of so many waypoints, a second apart.
fn long(waypoints: usize) -> Obstacle {
    let mut o = cart(&[]);
    o.waypoints = (0..waypoints)
        .map(|k| Waypoint::new(k as i64 * S, 0.0, 50.0))
        .collect();
    o
}

#[test]
fn the_limits_are_allowed() {
    let allowed: &[Change] = &[
        |r| r.to.time = LATEST,
        |r| r.scene.obstacles[0].waypoints[1].time = LATEST,
        |r| r.from.x = -10_000.0,
        |r| r.to.y = 10_000.0,
        |r| r.scene.obstacles[0].waypoints[0].x = 10_000.0,
        |r| r.scene.agent.footprint = 100.0,
        |r| r.scene.agent.follow = -0.0,
        |r| r.scene.obstacles[0].profile.follow = 100.0,
        |r| r.scene.obstacles[0].conflict_squared = 1_000_000.0,
        |r| r.scene.obstacles[0].conflict_squared = -0.0,
        |r| r.scene.obstacles = vec![long(0); 32],
        |r| r.scene.obstacles = vec![long(257)],
        |r| r.scene.obstacles = vec![long(129), long(129)],
        |r| r.budget = 65_535,
    ];
    for (n, change) in allowed.iter().enumerate() {
        assert_eq!(after(*change), None, "the change of number {n}");
    }
}

#[test]
fn one_step_beyond_is_refused() {
    let beyond: &[(u8, Change)] = &[
        (1, |r| r.to.time = LATEST + 1),
        (1, |r| r.scene.obstacles[0].waypoints[1].time = LATEST + 1),
        (1, |r| r.from.x = -up(10_000.0)),
        (1, |r| r.to.y = up(10_000.0)),
        (1, |r| r.to.y = f64::NAN),
        (1, |r| r.scene.obstacles[0].waypoints[0].y = f64::INFINITY),
        (1, |r| r.scene.agent.footprint = up(100.0)),
        (1, |r| r.scene.agent.follow = -5e-324),
        (1, |r| r.scene.obstacles[0].profile.footprint = f64::NAN),
        (1, |r| {
            r.scene.obstacles[0].conflict_squared = up(1_000_000.0)
        }),
        (2, |r| r.scene.obstacles = vec![long(0); 33]),
        (2, |r| r.scene.obstacles = vec![long(258)]),
        (2, |r| r.scene.obstacles = vec![long(129), long(130)]),
        (2, |r| r.scene.obstacles = vec![long(1)]),
        (2, |r| r.scene.obstacles[0].waypoints[1].time = 0),
        (3, |r| r.from.time = r.to.time + 1),
    ];
    for (n, (number, change)) in beyond.iter().enumerate() {
        assert_eq!(after(*change), Some(*number), "the change of number {n}");
    }
}

#[test]
fn refusals_come_in_order() {
    let both: Change = |r| {
        r.scene.agent.footprint = f64::NAN;
        r.scene.obstacles.push(long(1));
    };
    assert_eq!(after(both), Some(2));
    let backward: Change = |r| {
        r.scene.obstacles[0].conflict_squared = -1.0;
        r.from.time = r.to.time + 1;
    };
    assert_eq!(after(backward), Some(1));
}

#[test]
fn the_short_move_comes_before_the_missing_line() {
    let mut r = crossing();
    r.to = Waypoint::new(9, 0.0, 0.0);
    let short = plan::of(&r).expect("a Move");
    assert_eq!(
        (
            short.hints.len(),
            short.arrivals,
            short.sweeps,
            short.paths.len()
        ),
        (0, 0, 0, 1)
    );
    assert_eq!(short.paths[0].actions, [terms::Action::Move(r.to)]);
    r.to.time = 10;
    assert_eq!(plan::of(&r), Err(Stop::Refused(4)));
}
