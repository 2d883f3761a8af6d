//! The Rust's functions on its own types, made beforehand: nothing is converted, counted or caught
//! while they run, so that they can be timed. Only what is answered may be asked.

use crate::ask;
use crate::motion::carried::{CircularProfile, Floor};
use crate::motion::conflict::{self, reach, RankedHints, SafeAction, SafeArrivalTimes};
use crate::motion::r2::WaypointR2;
use crate::motion::TimePoint;
use smallvec::SmallVec;
use terms::{Leg, Profile, Proximity, Scene};

type Line = (WaypointR2, WaypointR2);

/// A path as the Rust has it.
pub type Path = SmallVec<[SafeAction<WaypointR2, conflict::WaitForObstacle>; 5]>;

/// Two carts, each with one leg, and a squared distance.
pub struct Meeting {
    a: Line,
    b: Line,
    profiles: (CircularProfile, CircularProfile),
    limit: f64,
}

impl Meeting {
    pub fn new(a: (Profile, Leg), b: (Profile, Leg), limit: f64) -> Self {
        Meeting {
            a: ask::line(a.1),
            b: ask::line(b.1),
            profiles: (ask::profile(a.0, 0.0), ask::profile(b.0, limit)),
            limit,
        }
    }

    pub fn proximity(&self) -> Proximity {
        let (a, b) = (&self.a, &self.b);
        reach::proximity(self.limit, (&a.0, &a.1), (&b.0, &b.1))
    }

    pub fn conflict(&self) -> bool {
        let ((a, b), (p, q)) = ((&self.a, &self.b), &self.profiles);
        conflict::have_conflict((&a.0, &a.1), None, p, (&b.0, &b.1), None, q, self.limit)
    }
}

/// An agent's leg among obstacles, their boxes worked out.
pub struct Trip {
    from: WaypointR2,
    to: WaypointR2,
    floor: Floor,
}

impl Trip {
    pub fn new(leg: Leg, scene: &Scene) -> Self {
        let (from, to) = ask::line(leg);
        let floor = ask::floor(scene);
        Trip { from, to, floor }
    }

    pub fn is_safe_segment(&self) -> bool {
        conflict::is_safe_segment((&self.from, &self.to), None, &self.floor)
    }

    pub fn hints(&self) -> RankedHints {
        let line = (&self.from, &self.to);
        conflict::compute_safe_linear_path_wait_hints(line, None, &self.floor)
    }

    pub fn arrival_times(&self) -> SafeArrivalTimes {
        conflict::compute_safe_arrival_times(self.to, &self.floor)
    }

    pub fn path(&self, arrival: TimePoint, hints: &RankedHints) -> Option<Path> {
        conflict::compute_safe_arrival_path(self.from, self.to, arrival, hints, &self.floor)
    }

    pub fn paths(&self) -> SmallVec<[Path; 3]> {
        conflict::compute_safe_linear_paths(self.from, self.to, &self.floor)
    }
}
