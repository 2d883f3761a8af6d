//! The ranked hints of a leg of the agent's among all obstacles (RULES, sections 10 and 11): every
//! field of every hint by its bits, and their order. Where contour and reach are both equal the
//! Rust's order is open (RULES 11.7); there its own order of finding decides. How many of the cases
//! took each branch of the search is told by a walk of its own, which is held to the Rust's.

use crate::draw::{each, misshape, on_floor, Drawn};
use crate::hint_branches::{self, bits};
use crate::lent::ask_once;
use crate::lent_hints;
use crate::proved;
use crate::rarities;
use crate::report::Report;
use crate::room::Expected;
use mapf_watched::ask;
use planner::domain;
use planner::generate::dice::Dice;
use planner::request::Request;
use terms::{Fault, Leg, Obstacle, Profile, RankedHint, Waypoint};

/// Under so many nanoseconds the call is refused 4 (RULES 4.13).
const SHORT: i64 = 10;

const NO_LINE: u64 = 4;

/// In one case of so many the lists do not fit one another.
const SPOILT_IN: u32 = 64;

pub fn compare(seed: u64, count: u64) -> Report {
    let mut report = Report::default();
    each(seed, count, |drawn| {
        let request = asked(drawn);
        let (profile, leg) = (request.scene.agent, (request.from, request.to));
        let right = |report: &mut Report| {
            let expected = expected(&request);
            look(report, &expected);
            let searched = refused_before(&request).is_none();
            hint_branches::tell(report, searched.then_some(&request));
            expected
        };
        ask_once(
            &mut report,
            drawn,
            &request,
            SPOILT_IN,
            right,
            |table, out| proved::wait_hints(profile, leg, table, out),
        );
    });
    report
}

/// Counts what the right answers have.
fn look(report: &mut Report, expected: &Expected) {
    let words = match expected {
        Expected::Words(words) => words,
        Expected::Refused(10) => return report.see("a 65th hint"),
        Expected::Refused(_) => return,
    };
    let hints: Vec<&[u64]> = words[1..].chunks(6).collect();
    report.see(match hints.len() {
        0 => "no hint",
        1..=9 => "1 to 9 hints",
        10..=63 => "10 to 63 hints",
        _ => "64 hints",
    });
    if hints.windows(2).any(|pair| pair[0][..2] == pair[1][..2]) {
        report.see("hints level in contour and reach");
    }
    if hints.iter().any(|hint| (hint[0] as i64) < 0) {
        report.see("a contour below zero");
    }
}

/// The request with another leg of the agent's in some cases, and in some with other obstacles; or a
/// rare meeting.
fn asked(drawn: &mut Drawn) -> Request {
    let (from, to) = agent_leg(drawn);
    let mut request = Request {
        from,
        to,
        ..drawn.request.clone()
    };
    let d = &mut drawn.dice;
    if d.one_in(4) {
        rarities::asked(d, &mut request);
        return request;
    }
    let obstacles = &mut request.scene.obstacles;
    if d.one_in(2) && obstacles.len() < domain::OBSTACLES {
        let place = d.count(0, obstacles.len());
        obstacles.insert(place, across(d, (from, to), request.scene.agent));
    }
    if !obstacles.is_empty() {
        let at = d.count(0, obstacles.len() - 1);
        let chance = d.whole(0, 31);
        misshape(&mut obstacles[at], chance);
        match chance {
            3..=5 => obstacles.push(obstacles[at].clone()),
            6 => obstacles.swap(0, at),
            _ => (),
        }
    }
    request
}

/// A cart of the agent's own kind that goes across the agent's way or along it at about its time.
fn across(d: &mut Dice, (from, to): Leg, profile: Profile) -> Obstacle {
    let (x, y) = ((from.x + to.x) / 2.0, (from.y + to.y) / 2.0);
    let (dx, dy) = ((to.x - from.x) / 2.0, (to.y - from.y) / 2.0);
    let middle = from.time / 2 + to.time / 2;
    let lasts = to.time.saturating_sub(from.time).max(2);
    let (ahead, aside) = d.pick(&[(0.0, 1.0), (0.5, 1.0), (0.5, 0.0), (-0.5, 0.25), (0.0, 0.5)]);
    let at = |side: f64, time: i64| {
        let place = |middle: f64, moved: f64| on_floor(middle + side * moved);
        Waypoint::new(
            time.clamp(0, domain::LATEST),
            place(x, ahead * dx - aside * dy),
            place(y, ahead * dy + aside * dx),
        )
    };
    let half = lasts / d.pick(&[2, 2, 4, 10]) + 1;
    let start = at(-1.0, middle.saturating_sub(half));
    let end = at(1.0, middle.saturating_add(half));
    Obstacle {
        profile,
        conflict_squared: 1.0,
        waypoints: vec![start, end],
    }
}

/// The agent's own leg in most cases, with another time or the other way round in some.
fn agent_leg(drawn: &mut Drawn) -> Leg {
    let Request { from, to, .. } = drawn.request;
    let lasts = to.time.saturating_sub(from.time);
    let d = &mut drawn.dice;
    match d.whole(0, 15) {
        0 => {
            let obstacle = drawn.obstacle();
            let other = drawn.leg_of(&obstacle);
            drawn.agent_leg(other)
        }
        1 | 2 => (to.at(from.time), from.at(to.time)),
        3 => (from, to.at(from.time.saturating_add(lasts / 2))),
        4 => (from, to.at(to.time.saturating_add(lasts))),
        5 => (from.at(from.time.saturating_add(lasts / 3)), to),
        6 => {
            let later = d.pick(&[1, 1_000_000, lasts / 7, lasts]);
            (
                from.at(from.time.saturating_add(later)),
                to.at(to.time.saturating_add(later)),
            )
        }
        _ => (from, to),
    }
}

/// The refusal that comes before any search.
fn refused_before(request: &Request) -> Option<u64> {
    let brief = || request.to.time - request.from.time < SHORT;
    match domain::refused(request) {
        Some(number) => Some(number.into()),
        None => brief().then_some(NO_LINE),
    }
}

fn expected(request: &Request) -> Expected {
    if let Some(number) = refused_before(request) {
        return Expected::Refused(number);
    }
    match ranked(request) {
        Ok(hints) => Expected::Words(lent_hints::words(&hints)),
        Err(fault) => Expected::fault(&fault),
    }
}

/// The Rust's ranked hints, those that are level in the order in which it finds them.
fn ranked(request: &Request) -> Result<Vec<RankedHint>, Fault> {
    let Request {
        from, to, scene, ..
    } = request;
    let mut hints = ask::compute_safe_linear_path_wait_hints(*from, *to, scene)?;
    let found = ask::compute_wait_hints(*from, *to, scene)?;
    let level = |a: &RankedHint, b: &RankedHint| a.contour == b.contour && a.reach == b.reach;
    let mut ranked = Vec::new();
    while let Some(first) = hints.first().copied() {
        let same = hints.iter().take_while(|hint| level(&first, hint)).count();
        let mut run: Vec<RankedHint> = hints.drain(..same).collect();
        for hint in &found {
            let place = run.iter().position(|r| bits(&r.hint) == bits(hint));
            ranked.extend(place.map(|at| run.remove(at)));
        }
        ranked.append(&mut run);
    }
    Ok(ranked)
}

#[cfg(test)]
mod tests {
    use super::*;
    use crate::hint_branches::is_the_rusts;
    use crate::room::lend;
    use crate::table::Table;
    use planner::hint_walk::{walk, Branch};
    use planner::worked::examples;
    use std::collections::BTreeMap;

    /// So many cases, and each branch in one of a hundred of them.
    const CASES: u64 = 20_000;
    const SHARE: usize = 200;

    #[test]
    fn every_branch_comes_in_its_share() {
        let mut taken: BTreeMap<Branch, usize> = BTreeMap::new();
        each(11, CASES, |drawn| {
            let request = asked(drawn);
            if refused_before(&request).is_none() {
                let walked = walk(request.from, request.to, &request.scene);
                assert!(is_the_rusts(&walked, &request), "{request:?}");
                for branch in walked.branches {
                    *taken.entry(branch).or_default() += 1;
                }
            }
        });
        for (branch, name) in Branch::ALL {
            let count = taken.remove(&branch).unwrap_or_default();
            let held = match Branch::UNSEEN.contains(&branch) {
                true => count == 0,
                false => count >= SHARE,
            };
            assert!(held, "{name}: {count} of {CASES}");
        }
        assert_eq!(taken, BTreeMap::new());
    }

    #[test]
    fn the_proved_call_gives_the_hints_worked_out() {
        for example in examples() {
            let expected = match example.ranked() {
                Ok(hints) => Expected::Words(lent_hints::words(&hints)),
                Err(number) => Expected::Refused(number.into()),
            };
            let (table, len) = (Table::of(&example.scene), expected.room());
            let handed = lend(len, |out| {
                proved::wait_hints(example.scene.agent, example.leg, &table, out)
            });
            assert_eq!(handed, expected.in_room(len), "{}", example.name);
        }
    }
}
