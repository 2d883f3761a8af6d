//! A whole plan: the Rust's calls in its own order, stopped where the rules refuse.

use crate::domain;
use crate::request::Request;
use crate::stream;
use mapf_watched::ask;
use terms::{Action, Fault, RankedHint};

/// The actions that `plan` has room for, over all paths (RULES 14.18).
pub const ROOM: usize = 1_600;

/// A duration below this is not worth a search, in nanoseconds.
const SHORT: i64 = 10;

const REACH: i64 = 1 << 53;

#[derive(Clone, Debug, PartialEq)]
pub struct Plan {
    pub hints: Vec<RankedHint>,
    pub arrivals: usize,
    pub sweeps: usize,
    pub paths: Vec<PlannedPath>,
}

#[derive(Clone, Debug, PartialEq)]
pub struct PlannedPath {
    pub arrival: i64,
    pub pops: usize,
    pub hold: i64,
    pub actions: Vec<Action>,
}

/// Why there is no plan.
#[derive(Clone, Debug, PartialEq)]
pub enum Stop {
    Refused(u8),
    /// The Rust stopped where the rules have no refusal: a finding.
    Odd(Fault),
}

impl From<Fault> for Stop {
    fn from(fault: Fault) -> Self {
        match fault.number() {
            Some(n) => Stop::Refused(n),
            None => Stop::Odd(fault),
        }
    }
}

/// The plan of a stream.
pub fn of_stream(bytes: &[u8]) -> Result<Plan, Stop> {
    match stream::read(bytes) {
        Some(request) => of(&request),
        None => Err(Stop::Refused(2)),
    }
}

/// The plan of a request, in the room that `plan` has.
pub fn of(r: &Request) -> Result<Plan, Stop> {
    let plan = whole(r)?;
    if plan.paths.iter().map(|p| p.actions.len()).sum::<usize>() > ROOM {
        return Err(Stop::Refused(12));
    }
    Ok(plan)
}

/// The plan of a request, however many actions it has.
pub fn whole(r: &Request) -> Result<Plan, Stop> {
    if let Some(number) = domain::refused(r) {
        return Err(Stop::Refused(number));
    }
    if r.to.time - r.from.time < SHORT {
        return short(r);
    }
    let hints = ask::compute_safe_linear_path_wait_hints(r.from, r.to, &r.scene)?;
    let found = ask::compute_safe_arrival_times(r.to, &r.scene)?;
    let mut paths = Vec::new();
    for &arrival in &found.times {
        paths.extend(path(r, arrival, &hints)?);
    }
    Ok(Plan {
        hints,
        arrivals: found.times.len(),
        sweeps: found.sweeps,
        paths,
    })
}

/// A duration under 10 ns: the Rust's own answer, which is one Move.
fn short(r: &Request) -> Result<Plan, Stop> {
    let paths = ask::compute_safe_linear_paths(r.from, r.to, &r.scene)?;
    let paths = paths.into_iter().map(|actions| PlannedPath {
        arrival: r.to.time,
        pops: 0,
        hold: 0,
        actions,
    });
    Ok(Plan {
        hints: Vec::new(),
        arrivals: 0,
        sweeps: 0,
        paths: paths.collect(),
    })
}

fn path(r: &Request, arrival: i64, hints: &[RankedHint]) -> Result<Option<PlannedPath>, Stop> {
    let budget = r.budget.into();
    let found = ask::compute_safe_arrival_path(r.from, r.to, arrival, hints, &r.scene, budget)?;
    let Some(path) = found else {
        return Ok(None);
    };
    Ok(Some(PlannedPath {
        arrival,
        pops: path.pops,
        hold: hold(&path.actions).ok_or(Stop::Refused(7))?,
        actions: path.actions,
    }))
}

/// The sum, over the waits, of the wait's end minus the arrival there (RULES 13.25, 13.26); none where a
/// span or the running sum passes 2^53.
pub fn hold(actions: &[Action]) -> Option<i64> {
    let kept = |ns: i64| (ns.abs() <= REACH).then_some(ns);
    let mut sum = 0;
    let mut arrived = 0;
    for action in actions {
        match action {
            Action::Move(w) => arrived = w.time,
            Action::Wait { until, .. } => sum = kept(sum + kept(until - arrived)?)?,
        }
    }
    Some(sum)
}
