//! The Rust's module `motion`: its files as they are, and around them what they name and the
//! source folder lacks.

macro_rules! published {
    ($file:literal) => {
        include!(concat!(env!("MAPF_MOTION"), "/", $file));
    };
}

#[allow(unused, unreachable_code, clippy::all)]
pub mod conflict {
    published!("conflict.rs");
    pub mod reach;
}

#[allow(unused, unreachable_code, clippy::all)]
pub mod environment {
    published!("environment.rs");
    pub mod reach;
}

#[allow(unused, unreachable_code, clippy::all)]
pub mod timed {
    published!("timed.rs");
}

#[allow(unused, unreachable_code, clippy::all)]
pub mod waypoint {
    published!("waypoint.rs");
}

#[cfg(feature = "published")]
#[allow(unused, unreachable_code, clippy::all)]
pub mod trajectory {
    published!("trajectory.rs");
}

#[cfg(not(feature = "published"))]
pub mod trajectory;

pub mod carried;
pub mod r2;
pub mod se2;

pub use carried::{CircularProfile, DynamicCircularObstacle};
pub use environment::{BoundingBox, Environment};
pub use time_point::{Duration, TimePoint};
pub use timed::{MaybeTimed, Timed};
pub use trajectory::Trajectory;
pub use waypoint::{Arclength, IntegrateWaypoints, Measurable, Waypoint};

/// Why a motion has no position at an instant.
#[derive(Clone, Copy, Debug, PartialEq, Eq)]
pub enum InterpError {
    OutOfBounds {
        range: [TimePoint; 2],
        request: TimePoint,
    },
}

/// Where something is, and how fast, at an instant.
pub trait Motion<Position, Velocity> {
    fn compute_position(&self, time: &TimePoint) -> Result<Position, InterpError>;
    fn compute_velocity(&self, time: &TimePoint) -> Result<Velocity, InterpError>;
}

/// The motion from one waypoint to another.
pub trait Interpolation<Position, Velocity> {
    type Motion: Motion<Position, Velocity>;

    fn interpolate(&self, up_to: &Self) -> Self::Motion;
}
