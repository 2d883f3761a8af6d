//! Calls that are lent a table of obstacles, on ordinary and crowded tables: the parts of a plan,
//! each alone.

use super::asked::{asked, Asked, CROWDED, HINTS_ROOM, ORDINARY, PATH_ROOM, TIMES_ROOM};
use super::{line, sides};
use crate::measure::Sides;
use crate::proved;
use mapf::ready::Trip;
use std::hint::black_box;

/// How many requests of each sort there are.
const EACH: usize = 100;

pub fn segment_part(rounds: usize) -> String {
    part("segment: a call", segment, 1, rounds)
}

pub fn hints_part(rounds: usize) -> String {
    part("hints: a call", hints, HINTS_ROOM, rounds)
}

pub fn arrivals_part(rounds: usize) -> String {
    part("arrivals: a call", arrivals, TIMES_ROOM, rounds)
}

pub fn path_part(rounds: usize) -> String {
    part(
        "path: a call for each arrival time",
        paths,
        PATH_ROOM,
        rounds,
    )
}

fn part(name: &str, of: fn(&[Asked]) -> Sides<'_>, words: usize, rounds: usize) -> String {
    let heading = format!(
        "{name}, {EACH} ordinary and {EACH} crowded requests that both answer; \
         room of {words} words, warm, not cleared before a call\n"
    );
    let lines = [("ordinary", ORDINARY), ("crowded", CROWDED)].map(|(sort, kinds)| {
        let asked = asked(kinds, EACH);
        line(sort, of(&asked), rounds)
    });
    heading + &lines.concat()
}

pub fn segment(asked: &[Asked]) -> Sides<'_> {
    let mut room = [0];
    sides(
        asked,
        move |a| proved::is_safe_segment(a.profile, a.leg, &a.table, &mut room),
        |a| black_box(a.trip.is_safe_segment()).into(),
    )
}

pub fn hints(asked: &[Asked]) -> Sides<'_> {
    let mut room = vec![0; HINTS_ROOM];
    sides(
        asked,
        move |a| proved::wait_hints(a.profile, a.leg, &a.table, &mut room),
        |a| black_box(a.trip.hints()).len() as u64,
    )
}

pub fn arrivals(asked: &[Asked]) -> Sides<'_> {
    let mut room = vec![0; TIMES_ROOM];
    sides(
        asked,
        move |a| proved::arrival_times(a.profile, a.leg.1, &a.table, &mut room),
        |a| black_box(a.trip.arrival_times()).len() as u64,
    )
}

/// The paths to all arrival times of a request, by the hints that are there already.
pub fn paths(asked: &[Asked]) -> Sides<'_> {
    let mut room = vec![0; PATH_ROOM];
    sides(
        asked,
        move |a| {
            let path = |&t: &i64| {
                let (leg, table) = (a.leg, &a.table);
                proved::arrival_path(a.profile, leg, t, a.budget, table, &a.hints, &mut room)
            };
            a.times.iter().map(path).sum()
        },
        |a| {
            let path = |&t: &_| black_box(a.trip.path(t, &a.rust_hints)).map_or(0, |p| p.len());
            a.rust_times.iter().map(path).sum::<usize>() as u64
        },
    )
}

/// Taking the table in: the proved side examines it and refuses the agent's leg, which is turned
/// round and is looked at last; the Rust makes its own types of it.
pub fn table(asked: &[Asked]) -> Sides<'_> {
    let mut room = [0];
    sides(
        asked,
        move |a| {
            let backward = (a.leg.1, a.leg.0);
            proved::is_safe_segment(a.profile, backward, &a.table, &mut room)
        },
        |a| {
            black_box(Trip::new(a.leg, &a.request.scene));
            0
        },
    )
}
