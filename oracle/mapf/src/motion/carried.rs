//! The Rust's own profiles and obstacles, carrying one number more: the conflict distance squared,
//! which document 01 has each obstacle bring along instead of working it out (RULES 2.16).

use super::environment;
use super::r2::WaypointR2;
use super::{Environment, Trajectory, Waypoint};
use std::cell::Cell;
use std::ops::Deref;
use std::panic::panic_any;

/// The Rust's profile, with the number that stands in for `conflict_distance_squared_for`.
#[derive(Clone, Copy, Debug)]
pub struct CircularProfile {
    profile: environment::CircularProfile,
    conflict_squared: f64,
}

impl CircularProfile {
    pub fn new(profile: environment::CircularProfile, conflict_squared: f64) -> Self {
        CircularProfile {
            profile,
            conflict_squared,
        }
    }

    /// The other's own number. It stands before the method of the same name that the deref reaches.
    pub fn conflict_distance_squared_for(&self, other: &CircularProfile) -> f64 {
        other.conflict_squared
    }
}

impl Deref for CircularProfile {
    type Target = environment::CircularProfile;

    fn deref(&self) -> &Self::Target {
        &self.profile
    }
}

/// The Rust's obstacle, its box included, under a profile that carries the number.
#[derive(Clone, Debug)]
pub struct DynamicCircularObstacle<W: Waypoint> {
    obstacle: environment::DynamicCircularObstacle<W>,
    profile: CircularProfile,
}

impl<W: Waypoint + Into<WaypointR2>> DynamicCircularObstacle<W> {
    pub fn new(profile: CircularProfile, trajectory: Option<Trajectory<W>>) -> Self {
        DynamicCircularObstacle {
            obstacle: environment::DynamicCircularObstacle::new(profile.profile)
                .with_trajectory(trajectory),
            profile,
        }
    }

    pub fn profile(&self) -> &CircularProfile {
        &self.profile
    }
}

impl<W: Waypoint> Deref for DynamicCircularObstacle<W> {
    type Target = environment::DynamicCircularObstacle<W>;

    fn deref(&self) -> &Self::Target {
        &self.obstacle
    }
}

/// The payload of a call that read the obstacles more often than it was allowed to.
pub struct Endless;

/// The agent and the obstacles. It counts how often the obstacles are read, which tells the sweeps
/// of an arrival search from outside, and cuts a search that goes round without end.
pub struct Floor {
    pub profile: CircularProfile,
    pub obstacles: Vec<DynamicCircularObstacle<WaypointR2>>,
    readings: Cell<usize>,
    most: Cell<usize>,
}

impl Floor {
    pub fn new(
        profile: CircularProfile,
        obstacles: Vec<DynamicCircularObstacle<WaypointR2>>,
    ) -> Self {
        Floor {
            profile,
            obstacles,
            readings: Cell::new(0),
            most: Cell::new(usize::MAX),
        }
    }

    /// Lets the obstacles be read at most so often.
    pub fn allow(&self, most: usize) {
        self.most.set(most);
    }

    /// How often the obstacles were read.
    pub fn readings(&self) -> usize {
        self.readings.get()
    }
}

impl Environment<CircularProfile, DynamicCircularObstacle<WaypointR2>> for Floor {
    type Obstacles<'a> = std::slice::Iter<'a, DynamicCircularObstacle<WaypointR2>>;

    fn agent_profile(&self) -> &CircularProfile {
        &self.profile
    }

    fn obstacles(&self) -> Self::Obstacles<'_> {
        if self.readings.get() == self.most.get() {
            panic_any(Endless);
        }
        self.readings.set(self.readings.get() + 1);
        #[cfg(feature = "watched")]
        super::conflict::reach::watch::way_begins();
        self.obstacles.iter()
    }
}
