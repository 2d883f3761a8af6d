//! Whether two legs are in conflict (RULES 9.1 to 9.6).

use super::proximity::refused;
use crate::draw::each;
use crate::proved;
use crate::report::Report;
use crate::room::{lend, Expected};
use mapf::ask;
use planner::domain;
use planner::generate::calls::meeting;
use terms::{Leg, Profile};

/// A cart: its profile and a leg of its.
type Cart = (Profile, Leg);

pub fn compare(seed: u64, count: u64) -> Report {
    let mut report = Report::default();
    each(seed, count, |drawn| {
        let (obstacle, a, b, limit) = drawn.meeting();
        let len = drawn.room(1);
        let carts = ((drawn.request.scene.agent, a), (obstacle.profile, b));
        ask_once(&mut report, drawn.kind.name(), carts, limit, len);
    });
    let profile = Profile {
        footprint: 0.5,
        follow: 0.0,
    };
    for n in 0..count {
        let made = meeting(seed, n);
        let carts = ((profile, made.a), (profile, made.b));
        ask_once(&mut report, "close meetings", carts, made.limit, 1);
    }
    report
}

fn ask_once(report: &mut Report, kind: &'static str, carts: (Cart, Cart), limit: f64, len: usize) {
    let (a, b) = carts;
    let expected = expected(a, b, limit);
    if let Expected::Words(words) = &expected {
        report.see(["no conflict", "a conflict"][words[0] as usize]);
    }
    let handed = lend(len, |out| proved::have_conflict(a, b, limit, out));
    report.add(kind, &handed, &expected.in_room(len), || {
        format!("{a:?} and {b:?} within {limit:e} in {len} words")
    });
}

fn expected(a: Cart, b: Cart, limit: f64) -> Expected {
    match refused(limit, a.1, b.1) {
        Some(2) => return Expected::Refused(2),
        _ if !(domain::profile(a.0) && domain::profile(b.0)) => return Expected::Refused(1),
        Some(number) => return Expected::Refused(number),
        None => (),
    }
    match ask::have_conflict(a.1, a.0, b.1, b.0, limit) {
        Ok(conflict) => Expected::Words(vec![conflict.into()]),
        Err(fault) => Expected::fault(&fault),
    }
}
