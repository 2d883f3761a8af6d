//! Turning carts stay out (RULES 1.12): the types that the Rust names for them have no values.

use super::TimePoint;
use nalgebra::Vector2;
use std::ops::Div;

/// An orientation. There is none.
#[derive(Clone, Copy, Debug)]
pub enum Orientation {}

impl Orientation {
    pub fn angle(&self) -> f64 {
        match *self {}
    }
}

impl Div for Orientation {
    type Output = Self;

    fn div(self, _: Self) -> Self {
        match self {}
    }
}

pub trait MaybeOriented {
    fn maybe_oriented(&self) -> Option<Orientation>;
}

/// A place with an orientation.
pub struct Pose {
    pub translation: Vector2<f64>,
    pub rotation: Orientation,
}

/// A waypoint with an orientation.
pub struct WaypointSE2 {
    pub time: TimePoint,
    pub position: Pose,
}

impl WaypointSE2 {
    pub fn new(_: TimePoint, _: f64, _: f64, _: f64) -> Self {
        unreachable!("turning carts stay out")
    }
}
