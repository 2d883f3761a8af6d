//! Questions for the calls below a whole plan. The search hands proximity legs that no request
//! has, backward ones too, and a single path can be asked with hints that were lent.

use super::dice::Dice;
use super::floors;
use crate::marked::S;
use crate::request::Request;
use terms::{Leg, RankedHint, Waypoint};

/// Two legs, and the squared distance to hold them to.
pub struct Meeting {
    pub limit: f64,
    pub a: Leg,
    pub b: Leg,
}

/// The legs of a number. All values are on the domain; the first leg may run backward.
pub fn meeting(seed: u64, number: u64) -> Meeting {
    let d = &mut Dice::new(seed, number);
    let (a, b) = match number % 6 {
        0 => (on_grid(d), on_grid(d)),
        1 => close_in_time(d),
        2 => {
            let (start, end) = on_grid(d);
            ((end, start), on_grid(d))
        }
        3 => creeping(d),
        4 => (anywhere(d), anywhere(d)),
        _ => (in_a_flash(d), in_a_flash(d)),
    };
    let limit = d.pick(&[0.0, 0.25, 1.0, 1.0, 4.0, 1e6]);
    Meeting { limit, a, b }
}

fn on_grid(d: &mut Dice) -> Leg {
    let begin = d.whole(0, 5) * S;
    let end = begin + d.whole(0, 4) * S;
    (grid_place(d, begin), grid_place(d, end))
}

fn grid_place(d: &mut Dice, time: i64) -> Waypoint {
    Waypoint::new(time, d.whole(-3, 3) as f64, d.whole(-3, 3) as f64)
}

/// The second leg begins, or the first ends, about 100,000 ns from the other's boundary.
fn close_in_time(d: &mut Dice) -> (Leg, Leg) {
    let a = (grid_place(d, S), grid_place(d, 3 * S));
    let off = d.pick(&[
        -100_001, -100_000, -99_999, -1, 0, 1, 99_999, 100_000, 100_001,
    ]);
    let begin = 3 * S - off;
    let end = begin + d.whole(0, 2) * S;
    let b = (grid_place(d, begin), grid_place(d, end));
    (a, b)
}

fn creeping(d: &mut Dice) -> (Leg, Leg) {
    let a = (
        Waypoint::new(0, 0.0, 0.0),
        Waypoint::new(1_000 * S, 0.0, 0.0),
    );
    let away = d.number(0.1, 2.0);
    let crept = d.spread(1e-3, 0.2) * d.sign();
    let b = (
        Waypoint::new(0, away, 0.0),
        Waypoint::new(1_000 * S, away + crept, 0.0),
    );
    (a, b)
}

fn anywhere(d: &mut Dice) -> Leg {
    let begin = d.whole(0, 20 * S);
    let mut place = |time| Waypoint::new(time, d.number(-10.0, 10.0), d.number(-10.0, 10.0));
    let start = place(begin);
    let end = place(begin);
    (start, end.at(begin + d.whole(0, 20 * S)))
}

fn in_a_flash(d: &mut Dice) -> Leg {
    let begin = d.whole(0, 200_000);
    let far = |d: &mut Dice| d.pick(&[-10_000.0, 10_000.0, -0.0, 5e-324, 1.0]);
    let start = Waypoint::new(begin, far(d), far(d));
    let end = Waypoint::new(begin + d.pick(&[0, 1, 10, 300_000]), far(d), far(d));
    (start, end)
}

/// A request whose path is asked for with hints that were lent.
pub struct Lent {
    pub request: Request,
    pub arrival: i64,
    pub hints: Vec<RankedHint>,
}

/// A request of a number and its own hints, some of them given another end. None where the
/// request has no hints.
pub fn lent(seed: u64, number: u64) -> Option<Lent> {
    let d = &mut Dice::new(seed, number);
    let request = match number % 3 {
        0 => floors::crossing(d),
        1 => floors::following(d),
        _ => floors::long_search(d),
    };
    let (from, to) = (request.from, request.to);
    let found = mapf_watched::ask::compute_safe_linear_path_wait_hints(from, to, &request.scene);
    let mut hints = found.ok().filter(|hints| !hints.is_empty())?;
    for hint in &mut hints {
        if d.one_in(2) {
            hint.hint.until += d.pick(&[-10 * S, -S, -100_000, 50_000, S]);
        }
    }
    let arrival = to.time + d.whole(0, 20) * S;
    Some(Lent {
        request,
        arrival,
        hints,
    })
}
