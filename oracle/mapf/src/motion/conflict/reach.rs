//! The private functions of `conflict.rs`, reached from a module inside it.

use super::*;
use crate::motion::carried::Floor;
use terms as t;

pub type Line<'a> = (&'a WaypointR2, &'a WaypointR2);

pub fn proximity(limit: f64, a: Line, b: Line) -> t::Proximity {
    let found = detect_proximity(limit, a, b);
    t::Proximity {
        enter: found.enter.map(|at| at.nanos_since_zero),
        exit: found.exit.map(|at| at.nanos_since_zero),
    }
}

pub fn adjustment(
    point: WaypointR2,
    candidate: TimePoint,
    trajectory: &Trajectory<WaypointR2>,
    limit: f64,
) -> t::Adjustment {
    let found = adjust_candidate_time(point, candidate, trajectory, limit);
    t::Adjustment {
        pushed: found.pushed,
        result: found.result.map(|at| at.nanos_since_zero),
    }
}

pub fn next_candidate(
    previous: TimePoint,
    point: WaypointR2,
    trajectory: &Trajectory<WaypointR2>,
    limit: f64,
) -> Option<i64> {
    find_next_candidate_time(previous, point, trajectory, limit).map(|at| at.nanos_since_zero)
}

pub fn wait_hints(line: Line, bb: &BoundingBox, floor: &Floor) -> Vec<t::WaitHint> {
    compute_wait_hints(line, bb, floor)
        .into_iter()
        .map(plain)
        .collect()
}

pub fn quadratic_wait_hints(
    q: Point,
    r: Point,
    u: Vector2,
    p0: Point,
    pf: Point,
    dt: f64,
    limit: f64,
) -> Option<(f64, f64)> {
    compute_quadratic_wait_hints(q, r, u, p0, pf, dt, limit)
}

pub fn ranked(hints: &RankedHints) -> Vec<t::RankedHint> {
    hints
        .iter()
        .map(|h| t::RankedHint {
            contour: h.contour.nanos,
            reach: h.reach,
            hint: plain(h.hint),
        })
        .collect()
}

/// Hints that were lent, as the Rust's own.
pub fn lent(hints: &[t::RankedHint]) -> RankedHints {
    hints
        .iter()
        .map(|h| RankedHint {
            contour: Duration::new(h.contour),
            reach: h.reach,
            hint: WaitHint {
                at_point: Point::new(h.hint.x, h.hint.y),
                until: TimePoint::new(h.hint.until),
                for_obstacle: h.hint.obstacle,
            },
        })
        .collect()
}

fn plain(hint: WaitHint) -> t::WaitHint {
    t::WaitHint {
        x: hint.at_point.x,
        y: hint.at_point.y,
        until: hint.until.nanos_since_zero,
        obstacle: hint.for_obstacle,
    }
}

#[cfg(feature = "watched")]
pub mod trail;

#[cfg(feature = "watched")]
pub mod watch;
