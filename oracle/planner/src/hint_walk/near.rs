//! When something in motion is near a line (RULES 10.29 to 10.36) or a place (RULES 10.37 to 10.39),
//! and why it is not.

use super::plane::{difference, dot, parted, smaller, times, Pair};
use terms::HintTrail;

/// Motion that is slower than 1e-4 m/s, squared.
const STILL: f64 = 1e-8;

/// Something that goes from a place to another in so many seconds.
#[derive(Clone, Copy)]
pub struct Motion {
    pub from: Pair,
    pub to: Pair,
    pub seconds: f64,
}

impl Motion {
    pub fn velocity(self) -> Pair {
        parted(difference(self.to, self.from), self.seconds)
    }
}

/// A line from a place to another, and its direction.
#[derive(Clone, Copy)]
pub struct Line {
    pub from: Pair,
    pub to: Pair,
    pub direction: Pair,
}

/// Why something is never near a line during its motion.
#[derive(Clone, Copy, Debug, PartialEq, Eq, PartialOrd, Ord)]
pub enum NeverNear {
    /// RULES 10.31.
    HardlyAcross,
    /// RULES 10.32.
    Far,
    /// RULES 10.33.
    OnlyAfter,
    /// RULES 10.34.
    OnlyBefore,
}

/// What rule 10.35 does to the end.
#[derive(Clone, Copy, Debug, PartialEq, Eq, PartialOrd, Ord)]
pub enum LineEnd {
    /// It goes the other way, or is not past the end by then.
    NotPast,
    /// It is past the end, and never near it.
    Missed,
    /// It is near the end for as long.
    AsLong,
    /// It leaves the end before.
    Cut,
}

/// Near a line from `begin` to `end`.
pub struct Spell {
    pub begin: f64,
    pub end: f64,
    pub line_end: LineEnd,
}

fn radicand(a: f64, b: f64, c: f64) -> f64 {
    b * b - (4.0 * a) * c
}

fn roots(a: f64, b: f64, radicand: f64) -> Pair {
    let s = radicand.sqrt();
    ((-b - s) / (2.0 * a), (-b + s) / (2.0 * a))
}

/// Q of rule 10.29.
pub fn near_line(
    trail: &mut HintTrail,
    line: Line,
    motion: Motion,
    limit: f64,
) -> Result<Spell, NeverNear> {
    trail.lines += 1;
    let (v, u) = (motion.velocity(), line.direction);
    let alpha = difference(v, times(u, dot(v, u)));
    let k = dot(difference(motion.from, line.from), u);
    let beta = difference(difference(motion.from, times(u, k)), line.from);
    let (a, b) = (dot(alpha, alpha), 2.0 * dot(alpha, beta));
    let radicand = radicand(a, b, dot(beta, beta) - limit);
    if a < STILL {
        return Err(NeverNear::HardlyAcross);
    }
    if radicand < 0.0 {
        return Err(NeverNear::Far);
    }
    let (begin, last) = roots(a, b, radicand);
    if motion.seconds < begin {
        return Err(NeverNear::OnlyAfter);
    }
    let end = smaller(last, motion.seconds);
    if end < 0.0 {
        return Err(NeverNear::OnlyBefore);
    }
    let (end, line_end) = past_end(trail, line, motion, limit, end);
    Ok(Spell {
        begin,
        end,
        line_end,
    })
}

/// RULES 10.35.
fn past_end(
    trail: &mut HintTrail,
    line: Line,
    motion: Motion,
    limit: f64,
    end: f64,
) -> (f64, LineEnd) {
    trail.line_ends += 1;
    let v = motion.velocity();
    let along = dot(v, line.direction);
    let past = dot(difference(line.to, motion.from), line.direction) / along;
    if !(past < end && along > 0.0) {
        return (end, LineEnd::NotPast);
    }
    match near_place(trail, line.to, motion.from, v, limit) {
        Err(_) => (end, LineEnd::Missed),
        Ok((_, leaves)) if leaves < end => (leaves, LineEnd::Cut),
        Ok(_) => (end, LineEnd::AsLong),
    }
}

/// Why something is never near a place.
#[derive(Clone, Copy, Debug, PartialEq, Eq, PartialOrd, Ord)]
pub enum NeverThere {
    HardlyMoves,
    Far,
}

/// S of rule 10.37: about the place r, of something at p0 that goes by v.
pub fn near_place(
    trail: &mut HintTrail,
    r: Pair,
    p0: Pair,
    v: Pair,
    limit: f64,
) -> Result<Pair, NeverThere> {
    trail.places += 1;
    let m = difference(p0, r);
    let (a, b) = (dot(v, v), 2.0 * dot(v, m));
    let radicand = radicand(a, b, dot(m, m) - limit);
    match (a >= STILL, radicand >= 0.0) {
        (false, _) => Err(NeverThere::HardlyMoves),
        (true, false) => Err(NeverThere::Far),
        (true, true) => Ok(roots(a, b, radicand)),
    }
}
