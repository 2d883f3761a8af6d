//! Calls on plain numbers: roots, and two legs that meet.

use super::asked::{drawn, CROWDED, ORDINARY};
use super::{line, sides, SEED};
use crate::layers::roots;
use crate::proved;
use mapf::ask;
use mapf::ready::Meeting;
use planner::request::Request;
use std::hint::black_box;
use terms::{Leg, Profile};

const ROOTS: usize = 20_000;

/// How many requests of each sort lend their legs.
const REQUESTS: usize = 50;

/// The agent's leg and one of an obstacle's, for both sides.
struct Met {
    a: (Profile, Leg),
    b: (Profile, Leg),
    limit: f64,
    meeting: Meeting,
}

pub fn root(rounds: usize) -> String {
    // numbers above zero alone: what the planner takes roots of
    let all = (0..).map(|n| roots::number(SEED, n).1);
    let positive = all.filter(|x| x.is_finite() && *x > 0.0);
    let inputs: Vec<f64> = positive.take(ROOTS).collect();
    let mut room = [0];
    let both = sides(
        &inputs,
        move |&x| proved::square_root(x, &mut room) + room[0],
        |x| x.sqrt().to_bits(),
    );
    let told =
        format!("root: {ROOTS} numbers above zero, against the platform's; room of 1 word\n");
    told + &line("a root", both, rounds)
}

pub fn stationary(rounds: usize) -> String {
    let met = met();
    let mut room = [0; 3];
    let both = sides(
        &met,
        move |m| {
            let (place, from, by, limit) = still(m);
            proved::stationary_proximity(place, from, by, limit, &mut room)
        },
        |m| {
            let (place, from, by, limit) = still(m);
            u64::from(ask::compute_stationary_proximity(place, from, by, limit).is_some())
        },
    );
    heading("stationary", &met, 3) + &line("a call", both, rounds)
}

pub fn proximity(rounds: usize) -> String {
    let met = met();
    let mut room = [0; 3];
    let both = sides(
        &met,
        move |m| proved::detect_proximity(m.limit, m.a.1, m.b.1, &mut room),
        |m| black_box(m.meeting.proximity()).enter.is_some().into(),
    );
    heading("proximity", &met, 3) + &line("a call", both, rounds)
}

pub fn conflict(rounds: usize) -> String {
    let met = met();
    let mut room = [0; 1];
    let both = sides(
        &met,
        move |m| proved::have_conflict(m.a, m.b, m.limit, &mut room),
        |m| black_box(m.meeting.conflict()).into(),
    );
    heading("conflict", &met, 1) + &line("a call", both, rounds)
}

type Pair = (f64, f64);

/// The obstacle's place and the agent's motion, in the units of the call.
fn still(m: &Met) -> (Pair, Pair, Pair, f64) {
    let ((from, to), other) = (m.a.1, m.b.1 .0);
    let seconds = (to.time - from.time) as f64 / 1e9;
    let by = ((to.x - from.x) / seconds, (to.y - from.y) / seconds);
    ((other.x, other.y), (from.x, from.y), by, m.limit)
}

fn heading(name: &str, met: &[Met], words: usize) -> String {
    format!(
        "{name}: {} pairs of the agent's leg and an obstacle's that both answer, \
         from ordinary and crowded requests; room of {words} words\n",
        met.len()
    )
}

/// The agent's leg with each leg of an obstacle that shares a time with it, where both answer.
fn met() -> Vec<Met> {
    let requests = drawn(ORDINARY, REQUESTS).chain(drawn(CROWDED, REQUESTS));
    requests.flat_map(|(request, _)| legs(&request)).collect()
}

fn legs(request: &Request) -> Vec<Met> {
    let agent = (request.scene.agent, (request.from, request.to));
    let mut all = Vec::new();
    for o in &request.scene.obstacles {
        for pair in o.waypoints.windows(2) {
            let (b, limit) = ((o.profile, (pair[0], pair[1])), o.conflict_squared);
            let during = pair[1].time >= request.from.time && pair[0].time <= request.to.time;
            if during && both_answer(limit, agent.1, b.1) {
                let meeting = Meeting::new(agent, b, limit);
                all.push(Met {
                    a: agent,
                    b,
                    limit,
                    meeting,
                });
            }
        }
    }
    all
}

fn both_answer(limit: f64, a: Leg, b: Leg) -> bool {
    let rust = ask::detect_proximity(limit, a, b).is_ok();
    rust && proved::detect_proximity(limit, a, b, &mut [0; 3]) == 0
}
