//! Boxes of legs and of obstacles, and whether two overlap (RULES 7.6 to 7.11). Where a zero ties with
//! a zero of the other sign the Rust leaves open which one a bound is, so zeros are compared as equal
//! (`docs/DIFFERENCES.md`, 17).

use crate::draw::{each, Drawn};
use crate::proved;
use crate::report::Report;
use crate::room::{lend, Expected, Handed};
use mapf::ask::{self, Bounds};
use planner::domain;
use terms::{Leg, Obstacle, Profile};

pub fn compare(seed: u64, count: u64) -> Report {
    let mut report = Report::default();
    each(seed, count, |drawn| {
        let obstacle = odd_obstacle(drawn);
        let other = drawn.leg_of(&obstacle);
        let leg = drawn.agent_leg(other);
        let profile = drawn.request.scene.agent;
        let len = drawn.room(4);
        let handed = lend(len, |out| proved::box_of_leg(profile, leg, out));
        let expected = box_of_leg(profile, leg);
        report.add(
            "box_of_leg",
            &unsigned(handed),
            &unsigned(expected.in_room(len)),
            || format!("the box of {profile:?} on {leg:?} in {len} words"),
        );

        let len = drawn.room(5);
        let handed = lend(len, |out| proved::box_of_obstacle(&obstacle, out));
        let expected = box_of_obstacle(&obstacle);
        report.add(
            "box_of_obstacle",
            &unsigned(handed),
            &unsigned(expected.in_room(len)),
            || format!("the box of {obstacle:?} in {len} words"),
        );

        let (a, b) = two_boxes(drawn, profile, leg, &obstacle);
        let len = drawn.room(1);
        let handed = lend(len, |out| proved::boxes_overlap(a, b, out));
        let expected = match bounded(a) && bounded(b) {
            true => Expected::Words(vec![ask::boxes_overlap(a, b).into()]),
            false => Expected::Refused(1),
        };
        if let Expected::Words(words) = &expected {
            report.see(["boxes apart", "boxes that overlap"][words[0] as usize]);
        }
        report.add("boxes_overlap", &handed, &expected.in_room(len), || {
            format!("{a:?} and {b:?} in {len} words")
        });
    });
    report
}

/// The same room with every -0.0 a 0.0.
fn unsigned(mut handed: Handed) -> Handed {
    for word in &mut handed.room {
        if *word == (-0.0f64).to_bits() {
            *word = 0;
        }
    }
    handed
}

fn words((least, greatest): Bounds) -> [u64; 4] {
    [least.0, least.1, greatest.0, greatest.1].map(f64::to_bits)
}

fn box_of_leg(profile: Profile, leg: Leg) -> Expected {
    if !(domain::profile(profile) && domain::leg(leg)) {
        return Expected::Refused(1);
    }
    if leg.1.time < leg.0.time {
        return Expected::Refused(3);
    }
    Expected::Words(words(ask::box_for_line(profile, leg)).to_vec())
}

fn box_of_obstacle(o: &Obstacle) -> Expected {
    if !domain::trajectory(o) || o.legs() > domain::LEGS {
        return Expected::Refused(2);
    }
    if !(domain::profile(o.profile) && o.waypoints.iter().all(domain::waypoint)) {
        return Expected::Refused(1);
    }
    match ask::box_for_trajectory(o) {
        Some(bounds) => Expected::Words([&[1], &words(bounds)[..]].concat()),
        None => Expected::Words(vec![0]),
    }
}

/// An obstacle of the request, in some cases with its waypoints cut, doubled or turned round.
fn odd_obstacle(drawn: &mut Drawn) -> Obstacle {
    let mut obstacle = drawn.obstacle();
    let d = &mut drawn.dice;
    match d.whole(0, 15) {
        0 => obstacle.waypoints.clear(),
        1 => obstacle.waypoints.truncate(1),
        2 => obstacle.waypoints.reverse(),
        3 => {
            let count = d.pick(&[256, 257, 258]);
            let here = drawn.request.from;
            obstacle.waypoints = (0..count).map(|t| here.at(t)).collect();
        }
        _ => (),
    }
    obstacle
}

fn bounded((least, greatest): Bounds) -> bool {
    let all = [least.0, least.1, greatest.0, greatest.1];
    all.iter().all(|x| (-20_000.0..=20_000.0).contains(x))
}

/// Boxes of the two, and boxes of small whole numbers, which often touch.
fn two_boxes(
    drawn: &mut Drawn,
    profile: Profile,
    leg: Leg,
    obstacle: &Obstacle,
) -> (Bounds, Bounds) {
    let other = drawn.leg_of(obstacle);
    let d = &mut drawn.dice;
    let mut whole = || d.whole(-2, 2) as f64;
    let mut small = || ((whole(), whole()), (whole(), whole()));
    let (a, b) = (small(), small());
    let some = [
        -20_000.0,
        20_000.0,
        20_000.000_000_01,
        -0.0,
        f64::NAN,
        f64::NEG_INFINITY,
    ];
    match d.whole(0, 7) {
        0 => ((a.0, (d.pick(&some), a.1 .1)), b),
        1 => (a, ((b.0 .0, d.pick(&some)), b.1)),
        2 | 3
            if domain::profile(profile)
                && domain::leg(leg)
                && domain::profile(obstacle.profile) =>
        {
            (
                ask::box_for_line(profile, leg),
                ask::box_for_line(obstacle.profile, other),
            )
        }
        _ => (a, b),
    }
}
