//! A whole plan (RULES 13.1): its counts, each path's arrival time, pops and hold, and every action
//! by its bits, in two lent rooms.

use crate::crossings;
use crate::draw::each;
use crate::lent::Lent;
use crate::proved;
use crate::report::Report;
use crate::room::{lend_two, Expected, Lists};
use crate::rows::{self, look_at_pops, look_at_search, Path};
use mapf_watched::ask;
use planner::domain;
use planner::plan::{self, Plan, PlannedPath, Stop};
use planner::request::Request;

/// In one case of so many the lists do not fit one another.
const SPOILT_IN: u32 = 64;

/// In one case of so many there are 0 to 5 pops.
const FEW_IN: u32 = 3;

pub fn compare(seed: u64, count: u64) -> Report {
    let mut report = Report::default();
    each(seed, count, |drawn| {
        let mut request = crossings::asked(drawn);
        let budget = crossings::budget(&mut drawn.dice, request.budget, FEW_IN);
        request.budget = u16::try_from(budget).unwrap_or(u16::MAX);
        let (profile, leg) = (request.scene.agent, (request.from, request.to));
        let lent = Lent::of(drawn, &request.scene, SPOILT_IN, || {
            expected(&mut report, &request, budget)
        });
        let lens = lent.expected.rooms().map(|words| drawn.room(words));
        let handed = lend_two(lens, |paths, actions| {
            proved::linear_paths(profile, leg, budget, &lent.table, paths, actions)
        });
        report.add(lent.kind, &handed, &lent.expected.in_rooms(lens), || {
            format!(
                "{request:?} with budget {budget} as {:?} in {lens:?} words",
                lent.table
            )
        });
    });
    report
}

fn expected(report: &mut Report, request: &Request, budget: u64) -> Expected<Lists> {
    if budget > domain::BUDGET && domain::refused(request) != Some(2) {
        return Expected::Refused(1);
    }
    ask::search();
    let planned = plan::whole(request);
    let search = ask::search();
    look_at_search(report, &search);
    match planned {
        Ok(plan) => {
            look_at_pops(report, search.pops);
            look(report, &plan);
            Expected::Words(lists(&plan))
        }
        Err(Stop::Refused(number)) => Expected::Refused(number.into()),
        Err(Stop::Odd(fault)) => Expected::fault(&fault),
    }
}

fn path_of(path: &PlannedPath) -> Path<'_> {
    Path {
        pops: path.pops,
        hold: path.hold,
        actions: &path.actions,
    }
}

/// A row for the whole and one for each path; the rows of all their actions.
fn lists(plan: &Plan) -> Lists {
    let counts = [
        plan.hints.len(),
        plan.arrivals,
        plan.sweeps,
        plan.paths.len(),
    ];
    let whole = counts.map(|count| count as u64);
    let paths = plan.paths.iter().map(|p| path_of(p).row(p.arrival as u64));
    let actions = plan.paths.iter().flat_map(|p| rows::of_actions(&p.actions));
    [
        rows::words(std::iter::once(whole).chain(paths)),
        rows::words(actions),
    ]
}

/// Counts what a plan has.
fn look(report: &mut Report, plan: &Plan) {
    for path in &plan.paths {
        path_of(path).look(report);
    }
    report.see(match plan.paths.len() {
        0 => "plan: no path",
        1 => "plan: 1 path",
        _ => "plan: 2 paths or more",
    });
    report.see_if(
        "plan: a time without a path",
        plan.paths.len() < plan.arrivals,
    );
    report.see_if("plan: a short Move", plan.sweeps == 0);
}
