//! One file for each layer that is compared.

pub mod arrivals;
pub mod boxes;
pub mod conflict;
pub mod hints;
pub mod holds;
pub mod path;
pub mod plan;
pub mod positions;
pub mod profiles;
pub mod program;
pub mod proximity;
pub mod roots;
pub mod segment;
pub mod stationary;
pub mod times;

use crate::report::Report;

/// A layer: its name, and what compares so many of a seed's cases.
pub struct Layer {
    pub name: &'static str,
    pub compare: fn(seed: u64, count: u64) -> Report,
}

pub const ALL: &[Layer] = &[
    Layer {
        name: "roots",
        compare: roots::compare,
    },
    Layer {
        name: "times",
        compare: times::compare,
    },
    Layer {
        name: "profiles",
        compare: profiles::compare,
    },
    Layer {
        name: "boxes",
        compare: boxes::compare,
    },
    Layer {
        name: "positions",
        compare: positions::compare,
    },
    Layer {
        name: "proximity",
        compare: proximity::compare,
    },
    Layer {
        name: "conflict",
        compare: conflict::compare,
    },
    Layer {
        name: "segment",
        compare: segment::compare,
    },
    Layer {
        name: "stationary",
        compare: stationary::compare,
    },
    Layer {
        name: "hints",
        compare: hints::compare,
    },
    Layer {
        name: "arrivals",
        compare: arrivals::compare,
    },
    Layer {
        name: "path",
        compare: path::compare,
    },
    Layer {
        name: "plan",
        compare: plan::compare,
    },
    Layer {
        name: "program",
        compare: program::compare,
    },
    Layer {
        name: "holds",
        compare: holds::compare,
    },
];
