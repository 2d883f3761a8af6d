//! One path to one arrival time, with hints that were lent (RULES, section 13): whether there is
//! one, its pops and hold, and every action by its bits.

use crate::crossings;
use crate::draw::each;
use crate::lendings::{self, Lending, SHORT};
use crate::lent::ask_once;
use crate::lent_hints;
use crate::proved;
use crate::report::Report;
use crate::room::Expected;
use crate::rows::{self, look_at_pops, look_at_search, Path};
use mapf_watched::ask;
use planner::{domain, plan};
use terms::{RankedHint, Search};

/// In one case of so many the lists do not fit one another.
const SPOILT_IN: u32 = 64;

pub fn compare(seed: u64, count: u64) -> Report {
    let mut report = Report::default();
    each(seed, count, |drawn| {
        let request = crossings::asked(drawn);
        let asked = lendings::of(&mut drawn.dice, request);
        let Lending {
            request,
            arrival,
            budget,
            hints,
        } = &asked;
        let (profile, leg) = (request.scene.agent, (request.from, request.to));
        ask_once(
            &mut report,
            drawn,
            &asked,
            SPOILT_IN,
            |report| expected(report, &asked),
            |table, out| proved::arrival_path(profile, leg, *arrival, *budget, table, hints, out),
        );
    });
    report
}

/// The lent hints, or the refusal that comes before any work.
fn examined(asked: &Lending) -> Result<Vec<RankedHint>, u64> {
    let request = &asked.request;
    let refused = domain::refused(request);
    let hints = lent_hints::read(&asked.hints).ok_or(2u64)?;
    let numbers = domain::time(asked.arrival)
        && asked.budget <= domain::BUDGET
        && lent_hints::allowed(&hints, request.scene.obstacles.len());
    match refused {
        Some(2) => Err(2),
        _ if !numbers => Err(1),
        Some(number) => Err(number.into()),
        None if request.to.time - request.from.time < SHORT => Err(4),
        None => Ok(hints),
    }
}

fn expected(report: &mut Report, asked: &Lending) -> Expected {
    look_at_hints(report, asked);
    let hints = match examined(asked) {
        Ok(hints) => hints,
        Err(number) => return Expected::Refused(number),
    };
    let request = &asked.request;
    ask::search();
    let found = ask::compute_safe_arrival_path(
        request.from,
        request.to,
        asked.arrival,
        &hints,
        &request.scene,
        asked.budget as usize,
    );
    let search = ask::search();
    look_at_search(report, &search);
    match found {
        Ok(found) => answer(report, found, &search),
        Err(fault) => Expected::fault(&fault),
    }
}

/// Counts what was lent.
fn look_at_hints(report: &mut Report, asked: &Lending) {
    let obstacles = asked.request.scene.obstacles.len();
    report.see(match lent_hints::read(&asked.hints) {
        None => "lent: a wrong count",
        Some(hints) if !lent_hints::allowed(&hints, obstacles) => "lent: hints not allowed",
        Some(hints) => match hints.len() {
            0 => "lent: no hint",
            1..=9 => "lent: 1 to 9 hints",
            10..=63 => "lent: 10 to 63 hints",
            _ => "lent: 64 hints",
        },
    });
}

/// A row for the whole, and one for each action.
fn answer(report: &mut Report, found: Option<terms::Path>, search: &Search) -> Expected {
    look_at_pops(report, search.pops);
    let Some(path) = found else {
        report.see("path: none");
        return Expected::Words(vec![0, search.pops as u64, 0, 0]);
    };
    let Some(hold) = plan::hold(&path.actions) else {
        report.see("path: a hold past 2^53");
        return Expected::Refused(7);
    };
    let path = Path {
        pops: path.pops,
        hold,
        actions: &path.actions,
    };
    path.look(report);
    let rows = std::iter::once(path.row(1)).chain(rows::of_actions(path.actions));
    Expected::Words(rows::words(rows))
}
