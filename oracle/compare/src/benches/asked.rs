//! Requests that both sides answer, laid out for both before the clock runs.

use super::SEED;
use crate::proved;
use crate::table::Table;
use mapf::motion::conflict::{RankedHints, SafeArrivalTimes};
use mapf::ready::Trip;
use planner::generate::{case, Kind};
use planner::plan::{self, Plan};
use planner::request::Request;
use planner::stream;
use terms::{Leg, Profile};

pub const EMPTY: &[Kind] = &[Kind::empty];
pub const ORDINARY: &[Kind] = &[Kind::sparse, Kind::crossing];
pub const SPARSE: &[Kind] = &[Kind::sparse];
pub const CROWDED: &[Kind] = &[Kind::crowded];
pub const LONG: &[Kind] = &[Kind::long_search, Kind::many_hints];

/// Rooms that are always enough (include/igelbert.h); for actions what `plan` has.
pub const HINTS_ROOM: usize = 385;
pub const TIMES_ROOM: usize = 291;
pub const PATH_ROOM: usize = 520;
pub const PATHS_ROOM: usize = 1_160;
pub const ACTIONS_ROOM: usize = 4 * plan::ROOM;

/// A request as each side wants it, with the hints and times that each finds.
pub struct Asked {
    pub profile: Profile,
    pub leg: Leg,
    pub budget: u64,
    pub table: Table,
    pub hints: Vec<u64>,
    pub times: Vec<i64>,
    pub request: Request,
    pub trip: Trip,
    pub rust_hints: RankedHints,
    pub rust_times: SafeArrivalTimes,
    pub plan: Plan,
}

/// The first requests of these kinds, in turn, that the Rust answers with a search.
pub fn drawn(kinds: &'static [Kind], count: usize) -> impl Iterator<Item = (Request, Plan)> {
    let turn = |number: u64| kinds[number as usize % kinds.len()];
    let requests = (0..).filter_map(move |number| {
        let request = stream::read(&case(SEED, number, Some(turn(number))).bytes)?;
        let plan = plan::of(&request).ok()?;
        (plan.sweeps > 0).then_some((request, plan))
    });
    requests.take(count)
}

/// Those of them that the proved side answers too.
pub fn asked(kinds: &'static [Kind], count: usize) -> Vec<Asked> {
    drawn(kinds, count).filter_map(Asked::of).collect()
}

impl Asked {
    fn of((request, plan): (Request, Plan)) -> Option<Self> {
        let (profile, leg) = (request.scene.agent, (request.from, request.to));
        let table = Table::of(&request.scene);
        let (mut hints, mut times) = (vec![0; HINTS_ROOM], vec![0; TIMES_ROOM]);
        let ends = [
            proved::wait_hints(profile, leg, &table, &mut hints),
            proved::arrival_times(profile, leg.1, &table, &mut times),
        ];
        hints.truncate(1 + 6 * hints[0] as usize);
        let trip = Trip::new(leg, &request.scene);
        let (rust_hints, rust_times) = (trip.hints(), trip.arrival_times());
        let all = Asked {
            profile,
            leg,
            budget: request.budget.into(),
            table,
            hints,
            times: (0..times[0] as usize)
                .map(|k| times[2 + k] as i64)
                .collect(),
            request,
            trip,
            rust_hints,
            rust_times,
            plan,
        };
        let (mut paths, mut actions) = ([0; PATHS_ROOM], [0; ACTIONS_ROOM]);
        let answered = ends == [0, 0] && all.plan_into(&mut paths, &mut actions) == 0;
        answered.then_some(all)
    }

    /// The proved plan, in these rooms.
    pub fn plan_into(&self, paths: &mut [u64], actions: &mut [u64]) -> u64 {
        let (leg, table) = (self.leg, &self.table);
        proved::linear_paths(self.profile, leg, self.budget, table, paths, actions)
    }

    /// How many actions its paths have.
    pub fn actions(&self) -> usize {
        self.plan.paths.iter().map(|path| path.actions.len()).sum()
    }
}
