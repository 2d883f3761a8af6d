//! Where a leg is at an instant, and how fast it goes (RULES 8.1 to 8.3).

use crate::draw::each;
use crate::proved;
use crate::report::Report;
use crate::room::{lend, Expected};
use mapf::ask;
use planner::domain;
use terms::Leg;

pub fn compare(seed: u64, count: u64) -> Report {
    let mut report = Report::default();
    each(seed, count, |drawn| {
        let obstacle = drawn.obstacle();
        let other = drawn.leg_of(&obstacle);
        let leg = drawn.agent_leg(other);
        let d = &mut drawn.dice;
        let (start, end) = (leg.0.time, leg.1.time);
        let time = match d.whole(0, 7) {
            0 => start,
            1 => end,
            2 => start.saturating_sub(1),
            3 => end.saturating_add(1),
            4 => d.pick(&[
                -1,
                0,
                domain::LATEST,
                domain::LATEST + 1,
                i64::MIN,
                i64::MAX,
            ]),
            _ => d.whole(start.min(end), start.max(end)),
        };
        let expected = expected(leg, time);
        if let Expected::Words(words) = &expected {
            report.see(if words.len() == 1 {
                "nowhere"
            } else {
                "a position"
            });
        }
        let len = drawn.room(5);
        let handed = lend(len, |out| proved::position(leg, time, out));
        report.add(drawn.kind.name(), &handed, &expected.in_room(len), || {
            format!("{leg:?} at {time} in {len} words")
        });
    });
    report
}

fn expected(leg: Leg, time: i64) -> Expected {
    if !(domain::leg(leg) && domain::time(time)) {
        return Expected::Refused(1);
    }
    if leg.1.time < leg.0.time {
        return Expected::Refused(3);
    }
    let found = ask::position(leg, time).and_then(|p| Ok((p, ask::velocity(leg)?)));
    match found {
        Ok((Some((x, y)), Some((vx, vy)))) => {
            Expected::Words([&[1], &[x, y, vx, vy].map(word)[..]].concat())
        }
        Ok(_) => Expected::Words(vec![0]),
        Err(fault) => Expected::fault(&fault),
    }
}

/// The bits of a double, and one pattern for all NaNs.
fn word(x: f64) -> u64 {
    match x.is_nan() {
        true => 0x7ff8_0000_0000_0000,
        false => x.to_bits(),
    }
}
