//! When two legs come within a distance and when they leave it (RULES, section 8): legs of requests
//! of every kind, and pairs of legs made to meet closely.

use crate::draw::each;
use crate::proved;
use crate::report::Report;
use crate::room::{lend, Expected};
use mapf::ask;
use planner::domain;
use planner::generate::calls::meeting;
use terms::{Leg, Proximity};

pub fn compare(seed: u64, count: u64) -> Report {
    let mut report = Report::default();
    each(seed, count, |drawn| {
        let (_, a, b, limit) = drawn.meeting();
        let len = drawn.room(3);
        ask_once(&mut report, drawn.kind.name(), (limit, a, b), len);
    });
    for n in 0..count {
        let made = meeting(seed, n);
        let len = [3, 3, 2, 3, 3, 5, 0][(n % 7) as usize];
        ask_once(
            &mut report,
            "close meetings",
            (made.limit, made.a, made.b),
            len,
        );
    }
    report
}

fn ask_once(report: &mut Report, kind: &'static str, asked: (f64, Leg, Leg), len: usize) {
    let (limit, a, b) = asked;
    let expected = expected(limit, a, b);
    if let Expected::Words(words) = &expected {
        report.see(["neither", "an entry", "an entry and an exit"][words.len() - 1]);
    }
    let handed = lend(len, |out| proved::detect_proximity(limit, a, b, out));
    report.add(kind, &handed, &expected.in_room(len), || {
        format!("{a:?} and {b:?} within {limit:e} in {len} words")
    });
}

/// What is wrong with two legs and a limit, if anything is.
pub fn refused(limit: f64, a: Leg, b: Leg) -> Option<u64> {
    if b.1.time <= b.0.time {
        return Some(2);
    }
    if !(domain::leg(a) && domain::leg(b) && domain::limit(limit)) {
        return Some(1);
    }
    (a.1.time < a.0.time).then_some(3)
}

fn expected(limit: f64, a: Leg, b: Leg) -> Expected {
    if let Some(number) = refused(limit, a, b) {
        return Expected::Refused(number);
    }
    let instant = |t: i64| t as u64;
    match ask::detect_proximity(limit, a, b) {
        Ok(Proximity { enter: None, .. }) => Expected::Words(vec![0]),
        Ok(Proximity {
            enter: Some(t),
            exit: None,
        }) => Expected::Words(vec![1, instant(t)]),
        Ok(Proximity {
            enter: Some(t),
            exit: Some(u),
        }) => Expected::Words(vec![2, instant(t), instant(u)]),
        Err(fault) => Expected::fault(&fault),
    }
}
