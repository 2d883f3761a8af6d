//! The plane: the names around the Rust's own `timed_position.rs`, whose `Motion` and
//! `compute_position` are the ones in use (RULES 2.4, 2.5, 8.1 and 8.2).

#[allow(unused, unreachable_code, clippy::all)]
pub mod timed_position {
    published!("r2/timed_position.rs");
}

pub use timed_position::WaypointR2;

pub type Point = nalgebra::Point2<f64>;
pub type Position = nalgebra::Point2<f64>;
pub type Velocity = nalgebra::Vector2<f64>;

pub trait Positioned {
    fn point(&self) -> Point;
}

pub trait MaybePositioned {
    fn maybe_point(&self) -> Option<Point>;
}

impl Positioned for Point {
    fn point(&self) -> Point {
        *self
    }
}
