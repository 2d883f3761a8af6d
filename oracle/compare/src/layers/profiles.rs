//! Critical and follow distances of two carts (RULES 7.1 to 7.4).

use crate::draw::{each, Drawn};
use crate::proved;
use crate::report::Report;
use crate::room::{lend, Expected};
use mapf::ask;
use planner::domain;
use terms::Profile;

type Asked = fn(Profile, Profile) -> f64;
type Proved = fn(Profile, Profile, &mut [u64]) -> u64;

const CALLS: [(&str, Asked, Proved); 3] = [
    (
        "critical_distance",
        ask::critical_distance,
        proved::critical_distance,
    ),
    (
        "critical_distance_squared",
        ask::critical_distance_squared,
        proved::critical_distance_squared,
    ),
    (
        "follow_distance",
        ask::follow_distance,
        proved::follow_distance,
    ),
];

pub fn compare(seed: u64, count: u64) -> Report {
    let mut report = Report::default();
    each(seed, count, |drawn| {
        let (p, q) = profiles(drawn);
        for (name, asked, proved) in CALLS {
            let expected = match domain::profile(p) && domain::profile(q) {
                true => Expected::Words(vec![asked(p, q).to_bits()]),
                false => Expected::Refused(1),
            };
            let len = drawn.room(1);
            let handed = lend(len, |out| proved(p, q, out));
            report.add(name, &handed, &expected.in_room(len), || {
                format!("{name} of {p:?} and {q:?} in {len} words")
            });
        }
    });
    report
}

fn profiles(drawn: &mut Drawn) -> (Profile, Profile) {
    let (mut p, mut q) = (drawn.request.scene.agent, drawn.obstacle().profile);
    let d = &mut drawn.dice;
    let some = [
        0.0,
        -0.0,
        5e-324,
        5e-4,
        1e-3,
        0.5,
        99.999,
        100.0,
        100.000_000_000_000_01,
        -5e-324,
        f64::NAN,
    ];
    match d.whole(0, 7) {
        0 => p.footprint = d.pick(&some),
        1 => p.follow = d.pick(&some),
        2 => q.footprint = d.pick(&some),
        3 => q.follow = d.pick(&some),
        4 => (p.footprint, q.footprint) = (d.spread(1e-5, 1e-2), d.spread(1e-5, 1e-2)),
        5 => (p.follow, q.follow) = (d.number(0.0, 100.0), d.number(0.0, 100.0)),
        _ => (),
    }
    (p, q)
}
