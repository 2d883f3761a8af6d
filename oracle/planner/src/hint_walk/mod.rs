//! The search for hints by RULES, section 10, told branch by branch. Which way the Rust goes can be
//! seen from outside only in part; this walk says all of it, and is held in each case to the Rust's
//! hints, to what stored each of them, and to how often the Rust came by each part.

mod branch;
mod chase;
mod near;
mod plane;

pub use branch::Branch;
pub use near::{LineEnd, NeverNear, NeverThere};

use near::{near_line, near_place, Line, Motion};
use plane::{difference, dot, larger, norm, parted, place, sum, times, Bounds, Pair};
use std::collections::BTreeSet;
use terms::{HintTrail, Leg, Obstacle, Profile, Scene, Storing, WaitHint, Waypoint};

/// Below it a way has no direction.
const SHORTEST: f64 = 1e-8;

/// What the box of a leg is grown by (RULES 10.4).
const MARGIN: f64 = 1e-3;

/// A leg that goes along no faster stands (RULES 10.15).
const SLOWEST: f64 = 1e-2;

/// The sizes of RULES 4.7.
const REACH: i64 = 1 << 53;
const FAR: f64 = 1e6;

/// At most so many hints are stored (RULES 4.10).
const MOST: usize = 64;

const NO_DIRECTION: u8 = 4;
const STRAYED: u8 = 7;
const FULL: u8 = 10;

/// The hints in order of finding or the number of a refusal, the trail, and the branches taken.
pub struct Walked {
    pub found: Result<Vec<WaitHint>, u8>,
    pub trail: HintTrail,
    pub branches: BTreeSet<Branch>,
}

/// The hints for an agent's leg, in the box of its own footprint.
pub fn walk(from: Waypoint, to: Waypoint, scene: &Scene) -> Walked {
    let mut walk = Walk::default();
    let ended = match Agent::of(from, to) {
        Some(agent) => walk.obstacles(&agent, scene),
        None => {
            walk.take(Branch::AgentHardlyMoves);
            Ok(())
        }
    };
    Walked {
        found: ended.map(|()| walk.hints),
        trail: walk.trail,
        branches: walk.branches,
    }
}

fn seconds(ns: i64) -> f64 {
    ns as f64 / 1e9
}

/// RULES 6.3.
fn nanoseconds(s: f64) -> Result<i64, u8> {
    let product = s * 1e9;
    match product.abs() <= REACH as f64 {
        true => Ok(product as i64),
        false => Err(STRAYED),
    }
}

/// A leg in motion (RULES 10.2, 10.7).
struct Run {
    start: i64,
    end: i64,
    motion: Motion,
    velocity: Pair,
}

impl Run {
    fn of(leg: Leg) -> Self {
        let motion = Motion {
            from: place(leg.0),
            to: place(leg.1),
            seconds: seconds(leg.1.time - leg.0.time),
        };
        Run {
            start: leg.0.time,
            end: leg.1.time,
            velocity: motion.velocity(),
            motion,
        }
    }
}

/// The agent's leg (RULES 10.1, 10.2).
struct Agent {
    leg: Leg,
    run: Run,
    line: Line,
    speed: f64,
    length: f64,
}

impl Agent {
    fn of(from: Waypoint, to: Waypoint) -> Option<Self> {
        let run = Run::of((from, to));
        let line = line(&run.motion)?;
        Some(Agent {
            leg: (from, to),
            speed: norm(run.velocity),
            length: norm(difference(line.to, line.from)),
            line,
            run,
        })
    }

    fn after(&self, t: f64) -> Pair {
        sum(self.line.from, times(self.run.velocity, t))
    }
}

/// The line of a motion, where it has a direction (RULES 2.14).
fn line(motion: &Motion) -> Option<Line> {
    let way = difference(motion.to, motion.from);
    let length = norm(way);
    (length > SHORTEST).then(|| Line {
        from: motion.from,
        to: motion.to,
        direction: parted(way, length),
    })
}

/// The distances that the agent keeps from an obstacle (RULES 7.2 to 7.4), and its number.
struct Kept {
    critical: f64,
    squared: f64,
    follow: f64,
    obstacle: usize,
}

impl Kept {
    fn of(a: Profile, b: Profile, obstacle: usize) -> Self {
        let critical = larger(a.footprint + b.footprint, 1e-3);
        Kept {
            critical,
            squared: critical * critical,
            follow: larger(larger(a.follow, b.follow), critical) + critical,
            obstacle,
        }
    }
}

#[derive(Default)]
struct Walk {
    hints: Vec<WaitHint>,
    trail: HintTrail,
    branches: BTreeSet<Branch>,
}

impl Walk {
    fn take(&mut self, branch: Branch) {
        self.branches.insert(branch);
    }

    /// RULES 10.42, 10.43.
    fn store(&mut self, by: Storing, at: Pair, until: i64, kept: &Kept) -> Result<(), u8> {
        self.trail.stored.push(by);
        let near = |c: f64| (-FAR..=FAR).contains(&c);
        if !(near(at.0) && near(at.1)) {
            self.take(Branch::PlaceStrayed);
            return Err(STRAYED);
        }
        if self.hints.len() == MOST {
            self.take(Branch::Full);
            return Err(FULL);
        }
        self.hints.push(WaitHint {
            x: at.0,
            y: at.1,
            until,
            obstacle: kept.obstacle,
        });
        Ok(())
    }

    /// RULES 10.3 to 10.6.
    fn obstacles(&mut self, agent: &Agent, scene: &Scene) -> Result<(), u8> {
        let bounds = Bounds::of_leg(agent.leg, scene.agent.footprint);
        for (number, o) in scene.obstacles.iter().enumerate() {
            match Bounds::of_obstacle(o) {
                None => self.take(Branch::NoTrajectory),
                Some(around) if !bounds.overlaps(around) => self.take(Branch::ObstacleApart),
                Some(_) => {
                    let kept = Kept::of(scene.agent, o.profile, number);
                    self.legs(agent, bounds, o, &kept)?;
                }
            }
        }
        Ok(())
    }

    fn legs(&mut self, agent: &Agent, bounds: Bounds, o: &Obstacle, kept: &Kept) -> Result<(), u8> {
        for pair in o.waypoints.windows(2) {
            let leg = (pair[0], pair[1]);
            let around = Bounds::of_leg(leg, o.profile.footprint).grown(MARGIN);
            if bounds.overlaps(around) {
                let run = Run::of(leg);
                self.crossing(agent, &run, kept)?;
                self.part(agent, &run, kept)?;
            } else {
                self.take(Branch::LegApart);
            }
        }
        Ok(())
    }

    /// RULES 10.9 to 10.11.
    fn crossing(&mut self, agent: &Agent, leg: &Run, kept: &Kept) -> Result<(), u8> {
        let end = match near_line(&mut self.trail, agent.line, leg.motion, kept.squared) {
            Err(why) => {
                self.take(Branch::NoObstruction(why));
                return Ok(());
            }
            Ok(spell) => {
                self.take(Branch::Obstruction(spell.line_end));
                spell.end
            }
        };
        self.trail.directions += 1;
        let Some(across) = line(&leg.motion) else {
            self.take(Branch::LegWithoutDirection);
            return Err(NO_DIRECTION);
        };
        match near_line(&mut self.trail, across, agent.run.motion, kept.squared) {
            Err(why) => self.take(Branch::NoWaitingPlace(why)),
            Ok(spell) if 0.0 <= spell.begin => {
                return self.before_crossing(agent, leg, spell.begin, end, kept);
            }
            Ok(_) => self.take(Branch::WaitBeforeStart),
        }
        Ok(())
    }

    /// RULES 10.12, 10.13.
    fn before_crossing(
        &mut self,
        agent: &Agent,
        leg: &Run,
        wait: f64,
        end: f64,
        kept: &Kept,
    ) -> Result<(), u8> {
        let until = leg.start + nanoseconds(end)?;
        let arrival = agent.run.start + nanoseconds(wait)?;
        if arrival > until {
            self.take(Branch::ComesTooLate);
            return Ok(());
        }
        let (u, v) = (agent.line.direction, leg.velocity);
        self.take(match u.0 * v.1 < u.1 * v.0 {
            true => Branch::CrossedFromLeft,
            false => Branch::CrossedFromRight,
        });
        self.store(Storing::Crossing, agent.after(wait), until, kept)
    }

    /// RULES 10.14, 10.15.
    fn part(&mut self, agent: &Agent, leg: &Run, kept: &Kept) -> Result<(), u8> {
        self.trail.legs += 1;
        let aligned = dot(leg.velocity, agent.line.direction);
        let ahead = agent.run.start <= leg.end;
        if !(aligned >= 0.0 && ahead) {
            self.take(match ahead {
                true => Branch::Against,
                false => Branch::EndsBeforeStart,
            });
            return self.oncoming(agent, leg, kept);
        }
        if agent.speed <= aligned {
            self.take(Branch::Outpaced);
            return Ok(());
        }
        if aligned > SLOWEST {
            self.take(Branch::Follows);
            return self.following(agent, leg, aligned, kept);
        }
        self.take(Branch::Stands);
        self.standing(agent, leg, kept)
    }

    /// When the agent comes near a place (RULES 10.37).
    fn near(&mut self, agent: &Agent, at: Pair, kept: &Kept) -> Option<f64> {
        let (from, v) = (agent.line.from, agent.run.velocity);
        match near_place(&mut self.trail, at, from, v, kept.squared) {
            Ok((begin, _)) => Some(begin),
            Err(why) => {
                self.take(Branch::NeverAtPlace(why));
                None
            }
        }
    }

    /// RULES 10.24 to 10.27.
    fn standing(&mut self, agent: &Agent, leg: &Run, kept: &Kept) -> Result<(), u8> {
        let first = self.near(agent, leg.motion.from, kept);
        let second = self.near(agent, leg.motion.to, kept);
        let (branch, wait) = match (first, second) {
            (None, Some(_)) => (Branch::FirstEndAside, None),
            (Some(_), None) => (Branch::SecondEndAside, None),
            (None, None) => (Branch::BothEndsAside, None),
            (Some(t), Some(u)) => sooner(t, u),
        };
        self.take(branch);
        match wait {
            Some(wait) => self.store(Storing::Standing, agent.after(wait), leg.end, kept),
            None => Ok(()),
        }
    }

    /// RULES 10.28.
    fn oncoming(&mut self, agent: &Agent, leg: &Run, kept: &Kept) -> Result<(), u8> {
        match self.near(agent, leg.motion.to, kept) {
            None => self.take(Branch::OncomingAside),
            Some(wait) if wait >= 0.0 => {
                self.take(Branch::OncomingHint);
                return self.store(Storing::Oncoming, agent.after(wait), leg.end, kept);
            }
            Some(_) => self.take(Branch::OncomingPassed),
        }
        Ok(())
    }
}

/// Which of two begins counts (RULES 10.25, 10.26).
fn sooner(first: f64, second: f64) -> (Branch, Option<f64>) {
    match (first >= 0.0, second >= 0.0) {
        (false, false) => (Branch::BothEndsPassed, None),
        (true, false) => (Branch::FirstEndAlone, Some(first)),
        (false, true) => (Branch::SecondEndAlone, Some(second)),
        (true, true) if second < first => (Branch::SecondEndSooner, Some(second)),
        (true, true) if first < second => (Branch::FirstEndSooner, Some(first)),
        (true, true) => (Branch::EndsLevel, Some(first)),
    }
}
