//! Questions for single calls, drawn from requests of every kind.

use planner::domain;
use planner::generate::dice::Dice;
use planner::generate::{case, Kind};
use planner::request::Request;
use planner::stream;
use terms::{Leg, Obstacle, Scene, Waypoint};

/// A request of some kind, and dice to choose from it.
pub struct Drawn {
    pub kind: Kind,
    pub request: Request,
    pub dice: Dice,
}

/// How many questions are drawn from one request.
const EACH: usize = 8;

/// A stream of dice that no case uses.
const APART: u64 = 1 << 40;

/// Dice for the questions about a case.
pub fn beside(seed: u64, number: u64) -> Dice {
    Dice::new(seed, APART + number)
}

/// Calls `ask` so often as is asked for, with requests of all kinds in turn. Bytes that are no
/// stream are passed over.
pub fn each(seed: u64, count: u64, mut ask: impl FnMut(&mut Drawn)) {
    let mut asked = 0;
    for number in 0.. {
        let made = case(seed, number, None);
        let Some(request) = stream::read(&made.bytes) else {
            continue;
        };
        let dice = beside(seed, number);
        let mut drawn = Drawn {
            kind: made.kind,
            request,
            dice,
        };
        for _ in 0..EACH {
            if asked == count {
                return;
            }
            ask(&mut drawn);
            asked += 1;
        }
    }
}

impl Drawn {
    /// An obstacle of the request, or one made of the agent where it has none.
    pub fn obstacle(&mut self) -> Obstacle {
        let Request {
            scene, from, to, ..
        } = &self.request;
        if scene.obstacles.is_empty() {
            return Obstacle {
                profile: scene.agent,
                conflict_squared: 1.0,
                waypoints: vec![*from, *to],
            };
        }
        let last = scene.obstacles.len() - 1;
        scene.obstacles[self.dice.count(0, last)].clone()
    }

    /// A leg of an obstacle, mostly one of its own.
    pub fn leg_of(&mut self, obstacle: &Obstacle) -> Leg {
        let d = &mut self.dice;
        let waypoints = &obstacle.waypoints;
        if waypoints.len() < 2 {
            return (self.request.from, self.request.to);
        }
        let at = d.count(0, waypoints.len() - 2);
        let (start, end) = (waypoints[at], waypoints[at + 1]);
        match d.whole(0, 19) {
            0 => (end, start),
            1 => (start, end.at(start.time)),
            2 => (start, end.at(start.time.saturating_add(1))),
            _ => (start, end),
        }
    }

    /// A leg of the agent's: the whole one, a part, standing at the goal, or backward.
    pub fn agent_leg(&mut self, other: Leg) -> Leg {
        let Request { from, to, .. } = self.request;
        let d = &mut self.dice;
        match d.whole(0, 9) {
            0 => (to.at(other.0.time), to.at(other.1.time)),
            1 => (from.at(other.0.time), to.at(other.1.time)),
            2 => (from, to.at(other.0.time)),
            3 => (from.at(other.1.time), to),
            4 => (from, halfway(from, to)),
            5 => {
                let end = from
                    .time
                    .saturating_add(d.pick(&[0, 1, 9, 10, 99_999, 100_000]));
                (from, to.at(end))
            }
            6 => {
                let start = other
                    .1
                    .time
                    .saturating_sub(d.pick(&[-100_000, -99_999, 0, 1, 99_999]));
                (from.at(start), to.at(start.saturating_add(1_000_000_000)))
            }
            7 if d.one_in(4) => (to, from),
            _ => (from, to),
        }
    }

    /// An obstacle, a leg of the agent's, one of the obstacle's, and a squared distance.
    pub fn meeting(&mut self) -> (Obstacle, Leg, Leg, f64) {
        let obstacle = self.obstacle();
        let b = self.leg_of(&obstacle);
        let a = self.agent_leg(b);
        let limit = self.limit(&obstacle);
        (obstacle, a, b, limit)
    }

    /// A squared distance: the obstacle's own, or another.
    pub fn limit(&mut self, obstacle: &Obstacle) -> f64 {
        let d = &mut self.dice;
        match d.whole(0, 9) {
            0 => d.pick(&[0.0, -0.0, 1e6, 5e-324, 1.0, 0.25]),
            1 => d.spread(1e-3, 1e5),
            2 if d.one_in(8) => {
                d.pick(&[-1.0, -5e-324, 1_000_000.000_000_1, f64::NAN, f64::INFINITY])
            }
            _ => obstacle.conflict_squared,
        }
    }

    /// A room of about so many words, too small in some cases.
    pub fn room(&mut self, words: usize) -> usize {
        match self.dice.whole(0, 15) {
            0 => words.saturating_sub(1),
            1 => 0,
            2 => words + 3,
            _ => words,
        }
    }
}

/// The nearest coordinate that is on the floor.
pub fn on_floor(x: f64) -> f64 {
    x.clamp(-domain::FARTHEST, domain::FARTHEST)
}

/// How many legs one obstacle more may have.
pub fn legs_left(scene: &Scene) -> usize {
    match scene.obstacles.len() < domain::OBSTACLES {
        true => domain::LEGS.saturating_sub(scene.legs()),
        false => 0,
    }
}

/// By a chance: leaves an obstacle a single waypoint, lets its times fall, or takes its trajectory;
/// mostly it stays as it is.
pub fn misshape(o: &mut Obstacle, chance: i64) {
    match chance {
        0 => o.waypoints.truncate(1),
        1 => o.waypoints.reverse(),
        2 => o.waypoints.clear(),
        _ => (),
    }
}

fn halfway(from: Waypoint, to: Waypoint) -> Waypoint {
    let time = from.time / 2 + to.time / 2;
    Waypoint::new(time, (from.x + to.x) / 2.0, (from.y + to.y) / 2.0)
}
