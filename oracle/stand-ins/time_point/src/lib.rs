//! Stands in for the crate `time_point`, which neither the source folder nor Debian has: instants
//! and spans of whole nanoseconds by RULES 6.1 to 6.4. A value past 2^53 in size stops the call
//! with the payload [`Strayed`] (RULES 4.7), at the place where the Rust works it out.

use std::cell::Cell;
use std::ops::{Add, Sub};
use std::panic::panic_any;

/// The payload of a time that strayed.
pub struct Strayed;

/// The payload of a call that converted more seconds than it was allowed to.
pub struct Runaway;

const REACH: i64 = 1 << 53;

thread_local! {
    static CONVERSIONS_LEFT: Cell<u64> = const { Cell::new(u64::MAX) };
}

/// Cuts a loop that converts seconds without end: at most `count` conversions from here on.
pub fn allow_conversions(count: u64) {
    CONVERSIONS_LEFT.with(|left| left.set(count));
}

fn kept(ns: i128) -> i64 {
    if ns.abs() > i128::from(REACH) {
        panic_any(Strayed);
    }
    ns as i64
}

fn seconds(ns: i64) -> f64 {
    ns as f64 / 1e9
}

fn nanoseconds(s: f64) -> i64 {
    CONVERSIONS_LEFT.with(|left| match left.get() {
        0 => panic_any(Runaway),
        n => left.set(n - 1),
    });
    let product = s * 1e9;
    if product.is_nan() || product.abs() > REACH as f64 {
        panic_any(Strayed);
    }
    product as i64
}

#[derive(Clone, Copy, Debug, PartialEq, Eq, PartialOrd, Ord, Hash)]
pub struct TimePoint {
    pub nanos_since_zero: i64,
}

#[derive(Clone, Copy, Debug, PartialEq, Eq, PartialOrd, Ord, Hash)]
pub struct Duration {
    pub nanos: i64,
}

impl TimePoint {
    pub fn new(nanos_since_zero: i64) -> Self {
        TimePoint { nanos_since_zero }
    }

    pub fn as_secs_f64(&self) -> f64 {
        seconds(self.nanos_since_zero)
    }

    pub fn from_secs_f64(s: f64) -> Self {
        Self::new(nanoseconds(s))
    }
}

impl Duration {
    pub fn new(nanos: i64) -> Self {
        Duration { nanos }
    }

    pub fn as_secs_f64(&self) -> f64 {
        seconds(self.nanos)
    }

    pub fn from_secs_f64(s: f64) -> Self {
        Self::new(nanoseconds(s))
    }
}

// Each operand is an instant or a span itself, so it is held to the same size as the result.
impl Sub for TimePoint {
    type Output = Duration;

    fn sub(self, earlier: TimePoint) -> Duration {
        let (x, y) = (
            kept(self.nanos_since_zero.into()),
            kept(earlier.nanos_since_zero.into()),
        );
        Duration::new(kept(i128::from(x) - i128::from(y)))
    }
}

impl Add<Duration> for TimePoint {
    type Output = TimePoint;

    fn add(self, by: Duration) -> TimePoint {
        let (x, y) = (kept(self.nanos_since_zero.into()), kept(by.nanos.into()));
        TimePoint::new(kept(i128::from(x) + i128::from(y)))
    }
}
