//! Places, vectors and boxes of the plane, each operation rounded once (RULES 2.12, 2.13, 7.6 to 7.11).

use terms::{Leg, Obstacle, Waypoint};

pub type Pair = (f64, f64);

pub fn place(w: Waypoint) -> Pair {
    (w.x, w.y)
}

pub fn sum(p: Pair, v: Pair) -> Pair {
    (p.0 + v.0, p.1 + v.1)
}

pub fn difference(p: Pair, q: Pair) -> Pair {
    (p.0 - q.0, p.1 - q.1)
}

pub fn times(v: Pair, t: f64) -> Pair {
    (v.0 * t, v.1 * t)
}

pub fn parted(v: Pair, t: f64) -> Pair {
    (v.0 / t, v.1 / t)
}

pub fn dot(v: Pair, w: Pair) -> f64 {
    v.0 * w.0 + v.1 * w.1
}

pub fn norm(v: Pair) -> f64 {
    dot(v, v).sqrt()
}

/// The second where it is above the first (RULES 6.6).
pub fn larger(x: f64, y: f64) -> f64 {
    if x < y {
        y
    } else {
        x
    }
}

/// The second where it is below the first (RULES 6.6).
pub fn smaller(x: f64, y: f64) -> f64 {
    if y < x {
        y
    } else {
        x
    }
}

/// The least and the greatest coordinates.
#[derive(Clone, Copy)]
pub struct Bounds(Pair, Pair);

impl Bounds {
    fn of(places: impl Iterator<Item = Pair> + Clone, footprint: f64) -> Option<Self> {
        let first = places.clone().next()?;
        let over = |pick: fn(f64, f64) -> f64| {
            places
                .clone()
                .fold(first, |b, p| (pick(b.0, p.0), pick(b.1, p.1)))
        };
        Some(Bounds(over(smaller), over(larger)).grown(footprint))
    }

    /// Of a leg (RULES 7.9).
    pub fn of_leg(leg: Leg, footprint: f64) -> Self {
        let places = [place(leg.0), place(leg.1)].into_iter();
        Bounds::of(places, footprint).expect("a leg has two places")
    }

    /// Of a whole obstacle, none without a trajectory (RULES 7.10).
    pub fn of_obstacle(o: &Obstacle) -> Option<Self> {
        Bounds::of(o.waypoints.iter().copied().map(place), o.profile.footprint)
    }

    /// RULES 7.8.
    pub fn grown(self, by: f64) -> Self {
        let Bounds(least, greatest) = self;
        Bounds(difference(least, (by, by)), sum(greatest, (by, by)))
    }

    /// RULES 7.11.
    pub fn overlaps(self, other: Bounds) -> bool {
        let apart = |a: Pair, b: Pair| a.0 < b.0 || a.1 < b.1;
        !apart(self.1, other.0) && !apart(other.1, self.0)
    }
}
