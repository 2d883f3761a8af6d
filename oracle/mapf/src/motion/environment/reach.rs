//! The bounds of the Rust's boxes, which are private to its file.

use super::{BoundingBox, Vector2};

pub fn bounding_box(min: (f64, f64), max: (f64, f64)) -> BoundingBox {
    BoundingBox {
        min: Vector2::new(min.0, min.1),
        max: Vector2::new(max.0, max.1),
    }
}

pub fn bounds(b: &BoundingBox) -> ((f64, f64), (f64, f64)) {
    ((b.min.x, b.min.y), (b.max.x, b.max.y))
}
