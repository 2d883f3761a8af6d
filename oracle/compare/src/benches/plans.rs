//! Whole plans, where their time goes, and the memory that they take.

use super::asked::{
    asked, Asked, ACTIONS_ROOM, CROWDED, EMPTY, LONG, ORDINARY, PATHS_ROOM, SPARSE,
};
use super::{line, sides, tables};
use crate::measure::Sides;
use crate::stack;
use planner::generate::Kind;
use std::hint::black_box;

/// How many requests are drawn.
const COUNT: usize = 200;

pub fn empty(rounds: usize) -> String {
    part("plan-empty", EMPTY, rounds)
}

pub fn ordinary(rounds: usize) -> String {
    part("plan-ordinary", ORDINARY, rounds)
}

pub fn sparse(rounds: usize) -> String {
    part("plan-sparse", SPARSE, rounds)
}

pub fn crowded(rounds: usize) -> String {
    part("plan-crowded", CROWDED, rounds)
}

pub fn long(rounds: usize) -> String {
    part("plan-long", LONG, rounds)
}

fn part(name: &str, kinds: &'static [Kind], rounds: usize) -> String {
    let asked = asked(kinds, COUNT);
    let names: Vec<&str> = kinds.iter().map(|kind| kind.name()).collect();
    let heading = format!(
        "{name}: {} requests ({}) that both answer; rooms of {PATHS_ROOM} and {ACTIONS_ROOM} words, \
         warm, not cleared before a call\n",
        asked.len(),
        names.join(", "),
    );
    let lines = [
        line("a plan", whole(&asked), rounds),
        line("in rooms that just fit", fitting(&asked), rounds),
        line("of it, hints", tables::hints(&asked), rounds),
        line("of it, arrival times", tables::arrivals(&asked), rounds),
        line("of it, paths", tables::paths(&asked), rounds),
        line("the table taken in", tables::table(&asked), rounds),
    ];
    heading + &about(&asked) + &lines.concat() + &memory(&asked)
}

fn whole(asked: &[Asked]) -> Sides<'_> {
    let (mut paths, mut actions) = (vec![0; PATHS_ROOM], vec![0; ACTIONS_ROOM]);
    sides(
        asked,
        move |a| a.plan_into(&mut paths, &mut actions),
        |a| black_box(a.trip.paths()).len() as u64,
    )
}

/// In rooms with the words of the answer alone, so that nothing is wiped behind them.
fn fitting(asked: &[Asked]) -> Sides<'_> {
    let (mut paths, mut actions) = (vec![0; PATHS_ROOM], vec![0; ACTIONS_ROOM]);
    sides(
        asked,
        move |a| {
            let rows = [1 + a.plan.paths.len(), a.actions()];
            a.plan_into(&mut paths[..4 * rows[0]], &mut actions[..4 * rows[1]])
        },
        |a| black_box(a.trip.paths()).len() as u64,
    )
}

/// What a plan has, on average.
fn about(asked: &[Asked]) -> String {
    let mean = |of: fn(&Asked) -> usize| {
        let sum: usize = asked.iter().map(of).sum();
        sum as f64 / asked.len() as f64
    };
    format!(
        "  on average {:.1} obstacles, {:.1} legs, {:.1} hints, {:.1} arrival times, {:.1} sweeps, \
         {:.1} paths with {:.1} pops and {:.1} actions\n",
        mean(|a| a.request.scene.obstacles.len()),
        mean(|a| a.request.scene.legs()),
        mean(|a| a.plan.hints.len()),
        mean(|a| a.plan.arrivals),
        mean(|a| a.plan.sweeps),
        mean(|a| a.plan.paths.len()),
        mean(|a| a.plan.paths.iter().map(|path| path.pops).sum()),
        mean(|a| a.actions()),
    )
}

/// The deepest stack of all the plans, and what is lent.
fn memory(asked: &[Asked]) -> String {
    let (mut paths, mut actions) = ([0; PATHS_ROOM], [0; ACTIONS_ROOM]);
    let proved = stack::depth(|| {
        for a in asked {
            black_box(a.plan_into(&mut paths, &mut actions));
        }
    });
    let rust = stack::depth(|| {
        for a in asked {
            black_box(a.trip.paths());
        }
    });
    let tables = asked.iter().map(|a| a.table.bytes()).max().unwrap_or(0);
    let rooms = 8 * (PATHS_ROOM + ACTIONS_ROOM);
    format!(
        "  memory: stack {proved} bytes at most (the Rust {rust}, and its heap), rooms {rooms}, \
         table {tables} at most, no heap\n"
    )
}
