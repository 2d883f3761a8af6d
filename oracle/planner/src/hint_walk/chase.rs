//! Following a leg that goes along the agent's line more slowly (RULES 10.16 to 10.23).

use super::plane::{difference, dot, sum, times, Pair};
use super::{nanoseconds, seconds, Agent, Branch, Kept, Run, Walk};
use terms::Storing;

/// The numbers that stay the same from round to round (RULES 10.18, 10.22).
struct Chase<'a> {
    agent: &'a Agent,
    leg: &'a Run,
    kept: &'a Kept,
    /// How far ahead the leg is first seen.
    ahead: f64,
    aligned: f64,
}

/// Where the agent is, in metres, and when, in seconds.
#[derive(Clone, Copy)]
struct At {
    s: f64,
    t: f64,
}

impl Chase<'_> {
    fn place(&self, s: f64) -> Pair {
        let line = self.agent.line;
        sum(line.from, times(line.direction, s))
    }

    /// Steps 1 to 6 of a round: where it ends, and whether that is the end of the line.
    fn round(&self, At { s, t }: At) -> (At, bool) {
        let Agent { speed, length, .. } = *self.agent;
        let there = self.ahead + self.aligned * (t - seconds(self.leg.start));
        let delta = ((there - s) - self.kept.critical) / (speed - self.aligned);
        let s = s + speed * delta;
        let t = t + (delta + self.kept.follow / self.aligned);
        match s >= length {
            true => {
                let t = t - (s - length) / speed;
                (At { s: length, t }, true)
            }
            false => (At { s, t }, false),
        }
    }
}

impl Walk {
    pub(super) fn following(
        &mut self,
        agent: &Agent,
        leg: &Run,
        aligned: f64,
        kept: &Kept,
    ) -> Result<(), u8> {
        let (apart, t) = self.first_seen(agent, leg);
        self.trail.followed += 1;
        if dot(apart, apart) < kept.squared {
            self.take(Branch::TooNear);
            return Ok(());
        }
        self.trail.apart += 1;
        let ahead = dot(apart, agent.line.direction);
        if ahead < 0.0 {
            self.take(Branch::Behind);
            return Ok(());
        }
        let chase = Chase {
            agent,
            leg,
            kept,
            ahead,
            aligned,
        };
        let first = self.opening(&chase, t)?;
        self.rounds(&chase, first)
    }

    /// RULES 10.16.
    fn first_seen(&mut self, agent: &Agent, leg: &Run) -> (Pair, f64) {
        let from = agent.line.from;
        if leg.start < agent.run.start {
            self.take(Branch::SeenAtAgentsStart);
            let moved = times(leg.velocity, seconds(agent.run.start - leg.start));
            let there = sum(leg.motion.from, moved);
            return (difference(there, from), seconds(agent.run.start));
        }
        self.take(Branch::SeenAtOwnStart);
        (difference(leg.motion.from, from), seconds(leg.start))
    }

    /// RULES 10.19 to 10.21.
    fn opening(&mut self, chase: &Chase, t: f64) -> Result<At, u8> {
        let Chase { agent, kept, .. } = chase;
        let (ahead, follow) = (chase.ahead, kept.follow);
        let reached = agent.speed * (t - seconds(agent.run.start));
        if ahead <= follow {
            self.take(Branch::WithinFollowDistance);
            let t = t + (follow - ahead) / chase.aligned;
            let until = nanoseconds(t)?;
            self.store(Storing::Within, agent.line.from, until, kept)?;
            return Ok(At { s: 0.0, t });
        }
        if ahead - reached <= follow {
            self.take(Branch::CaughtUp);
            // x of rule 10.20 is not below 0, since s0 is above F
            let s = agent.speed * ((ahead - follow) / agent.speed);
            let until = nanoseconds(t)?;
            self.store(Storing::CaughtUp, chase.place(s), until, kept)?;
            return Ok(At { s, t });
        }
        self.take(Branch::FarAhead);
        Ok(At { s: reached, t })
    }

    /// RULES 10.22.
    fn rounds(&mut self, chase: &Chase, first: At) -> Result<(), u8> {
        let end = chase.leg.end;
        let mut at = first;
        for count in 1.. {
            let (next, line_reached) = chase.round(at);
            let tp = nanoseconds(next.t).inspect_err(|_| self.take(Branch::RoundStrayed))?;
            let until = tp.min(end);
            self.store(Storing::Round, chase.place(next.s), until, chase.kept)?;
            if line_reached || tp >= end {
                self.rounds_over(count, line_reached, tp >= end);
                break;
            }
            at = next;
        }
        Ok(())
    }

    fn rounds_over(&mut self, count: usize, line_reached: bool, leg_over: bool) {
        self.take(match count {
            1 => Branch::OneRound,
            2..=9 => Branch::FewRounds,
            _ => Branch::ManyRounds,
        });
        self.take(match (line_reached, leg_over) {
            (true, false) => Branch::LineReached,
            (true, true) => Branch::LineReachedAndLegOver,
            (false, _) => Branch::LegOver,
        });
    }
}
