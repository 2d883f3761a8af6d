//! Whether a leg of the agent's is safe among all obstacles (RULES 9.7 to 9.11), the table lent as
//! lists, in some cases lists that do not fit one another.

use crate::draw::{each, misshape, Drawn};
use crate::lent::ask_once;
use crate::proved;
use crate::report::Report;
use crate::room::Expected;
use mapf::ask;
use planner::domain;
use planner::request::Request;

/// In one case of so many the lists do not fit one another.
const SPOILT_IN: u32 = 16;

pub fn compare(seed: u64, count: u64) -> Report {
    let mut report = Report::default();
    each(seed, count, |drawn| {
        let request = asked(drawn);
        let (profile, leg) = (request.scene.agent, (request.from, request.to));
        let right = |report: &mut Report| {
            let expected = expected(&request);
            if let Expected::Words(words) = &expected {
                report.see(["safe", "not safe"][words[0] as usize]);
            }
            expected
        };
        ask_once(
            &mut report,
            drawn,
            &request,
            SPOILT_IN,
            right,
            |table, out| proved::is_safe_segment(profile, leg, table, out),
        );
    });
    report
}

/// The request with another leg of the agent's, and in some cases another trajectory.
fn asked(drawn: &mut Drawn) -> Request {
    let obstacle = drawn.obstacle();
    let other = drawn.leg_of(&obstacle);
    let (from, to) = drawn.agent_leg(other);
    let mut request = Request {
        from,
        to,
        ..drawn.request.clone()
    };
    let d = &mut drawn.dice;
    if let Some(o) = request.scene.obstacles.first_mut() {
        misshape(o, d.whole(0, 39));
    }
    if d.one_in(64) {
        let legs = d.pick(&[255, 256, 257]) - request.scene.legs() as i64;
        let here = request.to;
        if let Some(o) = request.scene.obstacles.iter_mut().find(|o| !o.moves()) {
            o.waypoints = (0..=legs.max(0)).map(|t| here.at(t)).collect();
        }
    }
    request
}

fn expected(request: &Request) -> Expected {
    if let Some(number) = domain::refused(request) {
        return Expected::Refused(number.into());
    }
    match ask::is_safe_segment((request.from, request.to), &request.scene) {
        Ok(safe) => Expected::Words(vec![u64::from(!safe)]),
        Err(fault) => Expected::fault(&fault),
    }
}
