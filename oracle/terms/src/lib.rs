//! What a planner is asked and what it answers, in plain numbers, so that every build of the Rust
//! and the proved library can be asked the same thing.

use std::sync::Mutex;

/// Held while a build of the Rust puts its panic hook before the one that is there. A process has one
/// hook, and two builds at once would each put theirs before the same one, so that one were lost.
pub static HOOKS: Mutex<()> = Mutex::new(());

/// A place at an instant, in nanoseconds and metres.
#[derive(Clone, Copy, Debug, PartialEq)]
pub struct Waypoint {
    pub time: i64,
    pub x: f64,
    pub y: f64,
}

impl Waypoint {
    pub fn new(time: i64, x: f64, y: f64) -> Self {
        Waypoint { time, x, y }
    }

    pub fn at(self, time: i64) -> Self {
        Waypoint { time, ..self }
    }
}

/// A leg: from its first waypoint to its second.
pub type Leg = (Waypoint, Waypoint);

/// A footprint's radius and the buffer kept when following, in metres.
#[derive(Clone, Copy, Debug, PartialEq)]
pub struct Profile {
    pub footprint: f64,
    pub follow: f64,
}

/// An obstacle carries its own conflict distance squared (RULES 2.16). It has no trajectory where it
/// has no waypoint.
#[derive(Clone, Debug, PartialEq)]
pub struct Obstacle {
    pub profile: Profile,
    pub conflict_squared: f64,
    pub waypoints: Vec<Waypoint>,
}

impl Obstacle {
    pub fn moves(&self) -> bool {
        !self.waypoints.is_empty()
    }

    pub fn legs(&self) -> usize {
        self.waypoints.len().saturating_sub(1)
    }
}

/// The agent's profile and all obstacles.
#[derive(Clone, Debug, PartialEq)]
pub struct Scene {
    pub agent: Profile,
    pub obstacles: Vec<Obstacle>,
}

impl Scene {
    /// L of demand 3: the legs of all obstacles.
    pub fn legs(&self) -> usize {
        self.obstacles.iter().map(Obstacle::legs).sum()
    }

    /// O of demand 3: the obstacles with a trajectory.
    pub fn moving(&self) -> usize {
        self.obstacles.iter().filter(|o| o.moves()).count()
    }
}

/// When two legs come within a distance and when they leave it again.
#[derive(Clone, Copy, Debug, PartialEq, Eq)]
pub struct Proximity {
    pub enter: Option<i64>,
    pub exit: Option<i64>,
}

/// What an obstacle does to a candidate time.
#[derive(Clone, Copy, Debug, PartialEq, Eq)]
pub struct Adjustment {
    pub pushed: bool,
    pub result: Option<i64>,
}

/// Where to wait, until when, and for which obstacle.
#[derive(Clone, Copy, Debug, PartialEq)]
pub struct WaitHint {
    pub x: f64,
    pub y: f64,
    pub until: i64,
    pub obstacle: usize,
}

/// A hint with the two numbers that rank it.
#[derive(Clone, Copy, Debug, PartialEq)]
pub struct RankedHint {
    pub contour: i64,
    pub reach: f64,
    pub hint: WaitHint,
}

/// One step of a path.
#[derive(Clone, Copy, Debug, PartialEq)]
pub enum Action {
    Move(Waypoint),
    Wait { obstacle: usize, until: i64 },
}

/// The list of safe arrival times and how many sweeps it took.
#[derive(Clone, Debug, PartialEq, Eq)]
pub struct Arrivals {
    pub times: Vec<i64>,
    pub sweeps: usize,
}

/// A path and how many elements the search removed from its stack.
#[derive(Clone, Debug, PartialEq)]
pub struct Path {
    pub actions: Vec<Action>,
    pub pops: usize,
}

/// What searches for paths did.
#[derive(Clone, Copy, Debug, Default, PartialEq, Eq)]
pub struct Search {
    pub pops: usize,
    pub roots_moved_up: usize,
    pub children_tried: usize,
    pub children_failed: usize,
    pub children_passed_over: usize,
    pub own_starts_failed: usize,
    /// Ways that end before they start, near an obstacle.
    pub backward_ways: usize,
    /// Those of them that a leg of the obstacle spans, by less than 100,000 ns: short ranges.
    pub short_backward_ways: usize,
}

/// What stores a hint.
#[derive(Clone, Copy, Debug, PartialEq, Eq)]
pub enum Storing {
    /// RULES 10.13.
    Crossing,
    /// Within the follow distance (RULES 10.19).
    Within,
    /// Caught up by then (RULES 10.20).
    CaughtUp,
    /// A round of the sawtooth (RULES 10.22).
    Round,
    /// RULES 10.27.
    Standing,
    /// RULES 10.28.
    Oncoming,
}

/// Which way a search for hints went, as far as it can be told from outside.
#[derive(Clone, Debug, Default, PartialEq, Eq)]
pub struct HintTrail {
    /// Legs whose boxes overlap the agent's and that were not refused before their aligned speed
    /// was worked out (RULES 10.14).
    pub legs: usize,
    /// Motions held against a line, and those of them that came to its end (RULES 10.30, 10.35).
    pub lines: usize,
    pub line_ends: usize,
    /// Motions held against a place (RULES 10.38).
    pub places: usize,
    /// Legs whose direction was asked for (RULES 10.10).
    pub directions: usize,
    /// Legs to follow, and those of them that are not too near (RULES 10.17).
    pub followed: usize,
    pub apart: usize,
    /// What stored each hint, a refused one too.
    pub stored: Vec<Storing>,
}

/// Why a call of the Rust gave no answer, told apart by where it stopped.
#[derive(Clone, Debug, PartialEq, Eq)]
pub enum Fault {
    /// The agent's end is before its start: the assert of `compute_safe_linear_paths`.
    Backward,
    /// The agent has no length: the asserts on `dist`.
    NoLine,
    /// An obstacle's leg has no direction: the `unwrap` of `obs_u`.
    NoDirection,
    /// Hardly any relative motion, and yet some: the assert on `b` in `detect_proximity`.
    Creep,
    /// Legs that do not meet in time: the `unwrap` of a position in `compute_p0_v`.
    Apart,
    /// A time or a hint's place left the sizes that are kept (RULES 4.7).
    Strayed,
    /// The arrival search went round without end.
    Endless,
    /// The assert of 10,000 ns in `adjust_candidate_time`.
    Late,
    /// A 65th hint was about to be stored (RULES 4.10).
    Full,
    /// A pop past the budget was about to be made (RULES 4.11).
    Spent,
    /// The lower root came out above the upper one: the assert on `t_m` and `t_p`.
    RootOrder,
    /// The sort found that the Rust's comparison is no order.
    Unordered,
    /// Any other panic, with its place and words.
    Other(String),
}

impl Fault {
    /// The refusal that stands in the fault's place, where the rules name one.
    pub fn number(&self) -> Option<u8> {
        match self {
            Fault::Backward => Some(3),
            Fault::NoLine | Fault::NoDirection => Some(4),
            Fault::Creep => Some(5),
            Fault::Apart => Some(6),
            Fault::Strayed => Some(7),
            Fault::Endless => Some(8),
            Fault::Late => Some(9),
            Fault::Full => Some(10),
            Fault::Spent => Some(11),
            Fault::RootOrder | Fault::Unordered | Fault::Other(_) => None,
        }
    }
}
