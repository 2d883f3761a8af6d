//! One call that is lent a table of obstacles, compared: its lists, in some cases lists that do not
//! fit one another, and a room that is too small in some.

use crate::draw::Drawn;
use crate::report::Report;
use crate::room::{lend, Expected};
use crate::table::Table;
use planner::request::Request;
use std::fmt::Debug;
use terms::Scene;

/// What such a call is asked.
pub trait Question: Debug {
    fn scene(&self) -> &Scene;
}

impl Question for Request {
    fn scene(&self) -> &Scene {
        &self.scene
    }
}

/// What a call is lent, under which name it is counted, and what it is to hand over.
pub struct Lent<L> {
    pub table: Table,
    pub kind: &'static str,
    pub expected: Expected<L>,
}

impl<L> Lent<L> {
    /// The lists of a scene, in one case of `spoilt_in` lists that are refused 2. What is `right` is
    /// asked only of lists that fit.
    pub fn of(
        drawn: &mut Drawn,
        scene: &Scene,
        spoilt_in: u32,
        right: impl FnOnce() -> Expected<L>,
    ) -> Self {
        let mut table = Table::of(scene);
        let spoilt = drawn.dice.one_in(spoilt_in) && table.spoil(&mut drawn.dice);
        let (kind, expected) = match spoilt {
            true => ("spoilt lists", Expected::Refused(2)),
            false => (drawn.kind.name(), right()),
        };
        Lent {
            table,
            kind,
            expected,
        }
    }
}

/// Asks once, with one room.
pub fn ask_once(
    report: &mut Report,
    drawn: &mut Drawn,
    question: &impl Question,
    spoilt_in: u32,
    right: impl FnOnce(&mut Report) -> Expected,
    call: impl FnOnce(&Table, &mut [u64]) -> u64,
) {
    let lent = Lent::of(drawn, question.scene(), spoilt_in, || right(report));
    let len = drawn.room(lent.expected.room());
    let handed = lend(len, |out| call(&lent.table, out));
    report.add(lent.kind, &handed, &lent.expected.in_room(len), || {
        format!("{question:?} as {:?} in {len} words", lent.table)
    });
}
