//! The safe arrival times at a place and the sweeps that found them (RULES, section 12). A refusal 8
//! is expected exactly where the Rust goes round without end.

use crate::draw::each;
use crate::lent::ask_once;
use crate::proved;
use crate::report::Report;
use crate::room::Expected;
use crate::visits::{asked, is_touched};
use mapf_watched::ask;
use planner::domain;
use planner::request::Request;
use terms::{Arrivals, Fault, Obstacle, Scene, Waypoint};

/// In one case of so many the lists do not fit one another.
const SPOILT_IN: u32 = 64;

pub fn compare(seed: u64, count: u64) -> Report {
    let mut report = Report::default();
    each(seed, count, |drawn| {
        let request = asked(drawn);
        let (profile, place) = (request.scene.agent, request.to);
        ask_once(
            &mut report,
            drawn,
            &request,
            SPOILT_IN,
            |report| expected(report, &request),
            |table, out| proved::arrival_times(profile, place, table, out),
        );
    });
    report
}

fn expected(report: &mut Report, request: &Request) -> Expected {
    if let Some(number) = domain::refused(request) {
        return Expected::Refused(number.into());
    }
    let (scene, place) = (&request.scene, request.to);
    if is_violated(scene, place) {
        report.see("asked during a violation");
    }
    if is_touched(scene, place) {
        report.see("a leg that touches");
    }
    match ask::compute_safe_arrival_times(place, scene) {
        Ok(found) => {
            look(report, scene, place, &found);
            Expected::Words(words(&found))
        }
        Err(fault) => {
            if fault == Fault::Endless {
                report.see("stuck");
            }
            Expected::fault(&fault)
        }
    }
}

/// How many times and sweeps there are, and each time.
fn words(found: &Arrivals) -> Vec<u64> {
    let mut all = vec![found.times.len() as u64, found.sweeps as u64];
    all.extend(found.times.iter().map(|&t| t as u64));
    all
}

/// Counts what an answer has.
fn look(report: &mut Report, scene: &Scene, place: Waypoint, found: &Arrivals) {
    report.see(match found.times.len() {
        0 => "no time",
        1 => "1 time",
        2..=4 => "2 to 4 times",
        _ => "5 times or more",
    });
    report.see(match found.sweeps {
        1 => "1 sweep",
        2 => "2 sweeps",
        3..=9 => "3 to 9 sweeps",
        _ => "10 sweeps or more",
    });
    let bound = scene.legs() + scene.moving() + 1;
    match bound.checked_sub(found.sweeps) {
        Some(0) if scene.moving() > 0 => report.see("as many sweeps as the bound"),
        Some(1) => report.see("one sweep less than the bound"),
        Some(_) => (),
        None => report.see("more sweeps than the bound"),
    }
    if is_lost(scene, place, found) {
        report.see("a push with no result");
    }
}

/// Whether an obstacle is too near at the time that is asked for.
fn is_violated(scene: &Scene, place: Waypoint) -> bool {
    let pushes = |o: &Obstacle| {
        let limit = ask::critical_distance_squared(scene.agent, o.profile);
        let adjusted = ask::adjust_candidate_time(place, place.time, o, limit);
        matches!(adjusted, Ok(Some(adjusted)) if adjusted.pushed)
    };
    scene.obstacles.iter().any(pushes)
}

/// Whether a push with no result ended the search: it listed nothing, or there was a candidate after
/// the last time that it listed.
fn is_lost(scene: &Scene, place: Waypoint, found: &Arrivals) -> bool {
    let follows = |last: i64, o: &Obstacle| {
        let limit = ask::critical_distance_squared(scene.agent, o.profile);
        let next = ask::find_next_candidate_time(last, place, o, limit);
        matches!(next, Ok(Some(_)))
    };
    match found.times.last() {
        None => true,
        Some(&last) => scene.obstacles.iter().any(|o| follows(last, o)),
    }
}
