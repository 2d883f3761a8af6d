//! Paths as rows of four words, and what is counted of them.

use crate::report::Report;
use terms::{Action, Search};

pub type Row = [u64; 4];

/// A path: what its own row says of it, and its actions.
pub struct Path<'a> {
    pub pops: usize,
    pub hold: i64,
    pub actions: &'a [Action],
}

pub fn words(rows: impl IntoIterator<Item = Row>) -> Vec<u64> {
    rows.into_iter().flatten().collect()
}

pub fn of_actions(actions: &[Action]) -> impl Iterator<Item = Row> + '_ {
    actions.iter().map(|action| match action {
        Action::Move(w) => [1, w.time as u64, w.x.to_bits(), w.y.to_bits()],
        Action::Wait { obstacle, until } => [2, *obstacle as u64, *until as u64, 0],
    })
}

impl Path<'_> {
    /// Its own row, which begins with a word that depends on the call.
    pub fn row(&self, first: u64) -> Row {
        let actions = self.actions.len() as u64;
        [first, self.pops as u64, self.hold as u64, actions]
    }

    /// Counts what it has.
    pub fn look(&self, report: &mut Report) {
        let waits = |action: &&Action| matches!(action, Action::Wait { .. });
        report.see(match self.actions.iter().filter(waits).count() {
            0 => "path: direct",
            1 => "path: 1 wait",
            2 => "path: 2 waits",
            3 => "path: 3 waits",
            4..=15 => "path: 4 to 15 waits",
            _ => "path: 16 waits or more",
        });
        report.see_if("path: 100 pops or more", self.pops >= 100);
        report.see_if("path: a hold below zero", self.hold < 0);
    }
}

/// Counts the pops of one call that was answered.
pub fn look_at_pops(report: &mut Report, pops: usize) {
    report.see(match pops {
        0 => "pops: none",
        1..=5 => "pops: 1 to 5",
        6..=99 => "pops: 6 to 99",
        _ => "pops: 100 or more",
    });
}

/// Counts what the searches of one call did.
pub fn look_at_search(report: &mut Report, search: &Search) {
    let did = [
        ("search: a root moved up", search.roots_moved_up),
        ("search: a child failed", search.children_failed),
        ("search: a child passed over", search.children_passed_over),
        ("search: an own start failed", search.own_starts_failed),
        ("search: a backward way", search.backward_ways),
        ("search: a short backward way", search.short_backward_ways),
    ];
    for (sort, times) in did {
        report.see_if(sort, times > 0);
    }
}
