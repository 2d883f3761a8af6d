//! The marked examples P1 to P10 (RULES, section 16), as inputs. What each must give stands in
//! `tests/marked.rs`, and `oracle marked` prints what the Rust gives.

use crate::request::Request;
use terms::{Leg, Obstacle, Profile, Scene, Waypoint};

/// A second, in nanoseconds.
pub const S: i64 = 1_000_000_000;

/// The limit of P1 to P9, squared.
pub const LIMIT: f64 = 1.0;

/// Two footprints of half a metre make the critical distance of 1 m.
pub const HALF: Profile = Profile {
    footprint: 0.5,
    follow: 0.0,
};

/// An obstacle of half a metre through these places at these seconds.
pub fn cart(places: &[(i64, f64, f64)]) -> Obstacle {
    let waypoints = places.iter().map(|&(s, x, y)| Waypoint::new(s * S, x, y));
    Obstacle {
        profile: HALF,
        conflict_squared: LIMIT,
        waypoints: waypoints.collect(),
    }
}

pub fn scene(obstacle: Obstacle) -> Scene {
    Scene {
        agent: HALF,
        obstacles: vec![obstacle],
    }
}

/// The point of P1 to P7.
pub fn point(time: i64) -> Waypoint {
    Waypoint::new(time, 0.0, 0.0)
}

/// P1 and P2: past the point.
pub fn passing() -> Obstacle {
    cart(&[(0, -3.0, 0.0), (6, 3.0, 0.0)])
}

/// P3 and P4: onto the point, where it vanishes.
pub fn stopping() -> Obstacle {
    cart(&[(0, -3.0, 0.0), (3, 0.0, 0.0)])
}

/// P5: touches the clearance and turns back.
pub fn turning_back() -> Obstacle {
    cart(&[(0, 3.0, 0.0), (2, 1.0, 0.0), (4, 3.0, 0.0)])
}

/// P6: creeps at the limit.
pub fn creeping() -> Obstacle {
    cart(&[(0, 1.0, 0.0), (1000, 1.09, 0.0)])
}

/// P7: creeps well inside the limit.
pub fn creeping_inside() -> Obstacle {
    cart(&[(0, 0.5, 0.0), (1000, 0.59, 0.0)])
}

/// P8: head on.
pub fn head_on() -> (Leg, Leg) {
    (
        leg(10, (0.0, 0.0), (10.0, 0.0)),
        leg(10, (10.0, 0.0), (0.0, 0.0)),
    )
}

/// P9: passing at exactly the limit.
pub fn grazing() -> (Leg, Leg) {
    (
        leg(6, (0.0, 0.0), (0.0, 0.0)),
        leg(6, (-3.0, 1.0), (3.0, 1.0)),
    )
}

/// P10: Crossing.
pub fn crossing() -> Request {
    Request {
        budget: 4096,
        scene: scene(cart(&[(0, 5.0, -5.0), (10, 5.0, 5.0)])),
        from: Waypoint::new(0, 0.0, 0.0),
        to: Waypoint::new(10 * S, 10.0, 0.0),
    }
}

/// A leg of an obstacle with one leg.
pub fn only_leg(o: &Obstacle) -> Leg {
    (o.waypoints[0], o.waypoints[1])
}

/// A stay at the point for as long as a leg lasts.
pub fn stay(leg: Leg) -> Leg {
    (point(leg.0.time), point(leg.1.time))
}

fn leg(seconds: i64, from: (f64, f64), to: (f64, f64)) -> Leg {
    (
        Waypoint::new(0, from.0, from.1),
        Waypoint::new(seconds * S, to.0, to.1),
    )
}
