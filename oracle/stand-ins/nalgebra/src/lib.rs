//! Stands in for nalgebra, which Debian does not have: vectors and points of the plane, each
//! operation rounded as RULES 2.12 to 2.15 say. In the watched build each dot product and each
//! direction is told with the place that asks for it.

#[cfg(feature = "watched")]
pub mod asked;

use std::ops::{Add, Deref, Div, Mul, Sub};

#[derive(Clone, Copy, Debug, PartialEq)]
pub struct Vector2<T> {
    pub x: T,
    pub y: T,
}

#[derive(Clone, Copy, Debug, PartialEq)]
pub struct Point2<T> {
    pub coords: Vector2<T>,
}

impl Vector2<f64> {
    pub fn new(x: f64, y: f64) -> Self {
        Vector2 { x, y }
    }

    pub fn from_element(v: f64) -> Self {
        Vector2::new(v, v)
    }

    pub fn zeros() -> Self {
        Vector2::from_element(0.0)
    }

    /// x*x' + y*y', three roundings.
    #[cfg_attr(feature = "watched", track_caller)]
    pub fn dot(&self, other: &Self) -> f64 {
        #[cfg(feature = "watched")]
        asked::tell();
        self.x * other.x + self.y * other.y
    }

    pub fn norm_squared(&self) -> f64 {
        self.dot(self)
    }

    pub fn norm(&self) -> f64 {
        self.norm_squared().sqrt()
    }

    /// Needs a norm above `least`, and divides each coordinate by it.
    #[cfg_attr(feature = "watched", track_caller)]
    pub fn try_normalize(&self, least: f64) -> Option<Self> {
        #[cfg(feature = "watched")]
        asked::tell();
        let norm = self.norm();
        (norm > least).then(|| *self / norm)
    }
}

impl Point2<f64> {
    pub fn new(x: f64, y: f64) -> Self {
        Point2 {
            coords: Vector2::new(x, y),
        }
    }
}

/// The coordinates of a point, by their names.
impl Deref for Point2<f64> {
    type Target = Vector2<f64>;

    fn deref(&self) -> &Vector2<f64> {
        &self.coords
    }
}

impl Add for Vector2<f64> {
    type Output = Self;

    fn add(self, v: Self) -> Self {
        Vector2::new(self.x + v.x, self.y + v.y)
    }
}

impl Sub for Vector2<f64> {
    type Output = Self;

    fn sub(self, v: Self) -> Self {
        Vector2::new(self.x - v.x, self.y - v.y)
    }
}

impl Mul<f64> for Vector2<f64> {
    type Output = Self;

    fn mul(self, s: f64) -> Self {
        Vector2::new(self.x * s, self.y * s)
    }
}

impl Mul<Vector2<f64>> for f64 {
    type Output = Vector2<f64>;

    fn mul(self, v: Vector2<f64>) -> Vector2<f64> {
        Vector2::new(self * v.x, self * v.y)
    }
}

impl Div<f64> for Vector2<f64> {
    type Output = Self;

    fn div(self, s: f64) -> Self {
        Vector2::new(self.x / s, self.y / s)
    }
}

impl Sub for Point2<f64> {
    type Output = Vector2<f64>;

    fn sub(self, p: Self) -> Vector2<f64> {
        self.coords - p.coords
    }
}

impl Add<Vector2<f64>> for Point2<f64> {
    type Output = Self;

    fn add(self, v: Vector2<f64>) -> Self {
        Point2 {
            coords: self.coords + v,
        }
    }
}

impl Sub<Vector2<f64>> for Point2<f64> {
    type Output = Self;

    fn sub(self, v: Vector2<f64>) -> Self {
        Point2 {
            coords: self.coords - v,
        }
    }
}
