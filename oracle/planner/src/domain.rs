//! Which requests are answered: the table of the domain (RULES, section 3) and the order in which its
//! refusals come (RULES 5.1 to 5.4).

use crate::request::Request;
use terms::{Leg, Obstacle, Profile, Waypoint};

pub const LATEST: i64 = 1_000_000_000_000_000;
pub const FARTHEST: f64 = 10_000.0;
pub const WIDEST: f64 = 100.0;
pub const LARGEST_CONFLICT: f64 = 1_000_000.0;
pub const OBSTACLES: usize = 32;
pub const LEGS: usize = 256;

/// In pops.
pub const BUDGET: u64 = 65_535;

/// The refusal that comes before any work: 2, then 1 by fields in stream order, then 3.
pub fn refused(r: &Request) -> Option<u8> {
    if !shaped(r) {
        return Some(2);
    }
    if !numbers_allowed(r) {
        return Some(1);
    }
    if r.to.time < r.from.time {
        return Some(3);
    }
    None
}

fn shaped(r: &Request) -> bool {
    let obstacles = &r.scene.obstacles;
    obstacles.len() <= OBSTACLES && obstacles.iter().all(trajectory) && r.scene.legs() <= LEGS
}

/// No waypoint or two and more, their times strictly rising.
pub fn trajectory(o: &Obstacle) -> bool {
    o.waypoints.len() != 1 && o.waypoints.windows(2).all(|leg| leg[0].time < leg[1].time)
}

fn numbers_allowed(r: &Request) -> bool {
    profile(r.scene.agent)
        && waypoint(&r.from)
        && waypoint(&r.to)
        && r.scene.obstacles.iter().all(|o| {
            profile(o.profile) && limit(o.conflict_squared) && o.waypoints.iter().all(waypoint)
        })
}

pub fn profile(p: Profile) -> bool {
    (0.0..=WIDEST).contains(&p.footprint) && (0.0..=WIDEST).contains(&p.follow)
}

/// A conflict distance squared.
pub fn limit(x: f64) -> bool {
    (0.0..=LARGEST_CONFLICT).contains(&x)
}

pub fn time(t: i64) -> bool {
    (0..=LATEST).contains(&t)
}

pub fn coordinate(x: f64) -> bool {
    (-FARTHEST..=FARTHEST).contains(&x)
}

pub fn waypoint(w: &Waypoint) -> bool {
    time(w.time) && coordinate(w.x) && coordinate(w.y)
}

pub fn leg(leg: Leg) -> bool {
    waypoint(&leg.0) && waypoint(&leg.1)
}
