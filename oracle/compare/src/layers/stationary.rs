//! When something in motion is within a distance of a place (RULES 10.37 to 10.39).

use crate::draw::{each, Drawn};
use crate::proved;
use crate::report::Report;
use crate::room::{lend, Expected};
use mapf::ask;
use planner::domain;

type Pair = (f64, f64);

pub fn compare(seed: u64, count: u64) -> Report {
    let mut report = Report::default();
    each(seed, count, |drawn| {
        let (r, p0, v, limit) = asked(drawn);
        let expected = expected(r, p0, v, limit);
        if let Expected::Words(words) = &expected {
            report.see(if words.len() == 1 {
                "nothing"
            } else {
                "two roots"
            });
        }
        let len = drawn.room(3);
        let handed = lend(len, |out| {
            proved::stationary_proximity(r, p0, v, limit, out)
        });
        report.add(drawn.kind.name(), &handed, &expected.in_room(len), || {
            format!("{r:?} from {p0:?} by {v:?} within {limit:e} in {len} words")
        });
    });
    report
}

/// The goal and an obstacle's end as places, the agent's velocity and others.
fn asked(drawn: &mut Drawn) -> (Pair, Pair, Pair, f64) {
    let obstacle = drawn.obstacle();
    let (start, end) = drawn.leg_of(&obstacle);
    let limit = drawn.limit(&obstacle);
    let (from, to) = (drawn.request.from, drawn.request.to);
    let d = &mut drawn.dice;
    let seconds = (to.time - from.time) as f64 / 1e9;
    let v = match d.whole(0, 7) {
        0 => (d.whole(-2, 2) as f64, d.whole(-2, 2) as f64),
        1 => (d.spread(1e-6, 1e-2) * d.sign(), 0.0),
        2 => (d.spread(1.0, 1e14) * d.sign(), d.spread(1.0, 1e14)),
        3 => {
            let ends = [
                1e14,
                -1e14,
                1.000_000_000_000_001e14,
                f64::NAN,
                f64::INFINITY,
                -0.0,
            ];
            (d.pick(&ends), d.pick(&ends))
        }
        _ => ((to.x - from.x) / seconds, (to.y - from.y) / seconds),
    };
    let r = d.pick(&[(start.x, start.y), (end.x, end.y), (to.x, to.y)]);
    ((r.0, r.1), (from.x, from.y), v, limit)
}

fn expected(r: Pair, p0: Pair, v: Pair, limit: f64) -> Expected {
    let fast = |x: f64| (-1e14..=1e14).contains(&x);
    let places = [r.0, r.1, p0.0, p0.1].into_iter().all(domain::coordinate);
    if !(places && fast(v.0) && fast(v.1) && domain::limit(limit)) {
        return Expected::Refused(1);
    }
    match ask::compute_stationary_proximity(r, p0, v, limit) {
        Some((t, u)) => Expected::Words(vec![2, t.to_bits(), u.to_bits()]),
        None => Expected::Words(vec![0]),
    }
}
