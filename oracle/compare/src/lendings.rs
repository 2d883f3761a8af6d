//! Questions for one path: a request's own ranked hints and arrival times, and both altered, so that
//! the agent comes late to a hint, waits where none asked it to, and is lent what is refused.

use crate::crossings;
use crate::lent::Question;
use crate::lent_hints::{self, FAR, MOST, REACH};
use mapf_watched::ask;
use planner::domain::{self, LATEST};
use planner::generate::dice::Dice;
use planner::marked::S;
use planner::request::Request;
use terms::{RankedHint, Scene, WaitHint, Waypoint};

/// Under so many nanoseconds the call is refused 4 (RULES 4.13).
pub const SHORT: i64 = 10;

/// In one case of so many there are 0 to 5 pops.
const FEW_IN: u32 = 8;

/// A path is asked for: the agent and the obstacles, when to arrive, how many pops, hints as words.
#[derive(Debug)]
pub struct Lending {
    pub request: Request,
    pub arrival: i64,
    pub budget: u64,
    pub hints: Vec<u64>,
}

impl Question for Lending {
    fn scene(&self) -> &Scene {
        &self.request.scene
    }
}

pub fn of(d: &mut Dice, mut request: Request) -> Lending {
    let budget = crossings::budget(d, request.budget, FEW_IN);
    // to a hint on its line that ended long ago the agent comes late, and meets a 5 (RULES 5.8)
    let mut hints = match d.one_in(24) && crossings::accompany(d, &mut request) {
        true => net(d, &Line::of(&request), 0.0),
        false => hints(d, &request),
    };
    let arrival = arrival(d, &request, &hints);
    let spoilt_in = if is_refused(&request) { 6 } else { 24 };
    if !hints.is_empty() && d.one_in(spoilt_in) {
        spoil(d, &mut hints, request.scene.obstacles.len());
    }
    let mut words = lent_hints::words(&hints);
    if d.one_in(spoilt_in) {
        spoil_words(d, &mut words);
    }
    Lending {
        request,
        arrival,
        budget,
        hints: words,
    }
}

/// Whether the request is refused whatever the hints are; more of those are spoilt, to see which
/// refusal comes first.
fn is_refused(r: &Request) -> bool {
    domain::refused(r).is_some() || r.to.time - r.from.time < SHORT
}

/// The request's own hints as they are, altered, or others.
fn hints(d: &mut Dice, request: &Request) -> Vec<RankedHint> {
    let mut hints = own(request);
    let line = Line::of(request);
    match d.whole(0, 23) {
        0..=5 => return hints,
        6..=12 if line.carts > 0 => hints = late_chain(d, &line),
        13 | 14 if line.carts > 0 => hints = net(d, &line, 2.0),
        15..=17 if line.carts > 0 => invent(d, &line, &mut hints),
        _ => (0..d.count(1, 3)).for_each(|_| alter(d, &mut hints)),
    }
    hints.sort_by(lent_hints::rank);
    hints.truncate(MOST);
    hints
}

/// The request's own hints; none where they are refused.
fn own(r: &Request) -> Vec<RankedHint> {
    if domain::refused(r).is_some() {
        return Vec::new();
    }
    ask::compute_safe_linear_path_wait_hints(r.from, r.to, &r.scene).unwrap_or_default()
}

fn alter(d: &mut Dice, hints: &mut Vec<RankedHint>) {
    match d.whole(0, 5) {
        0 => hints.retain(|_| !d.one_in(3)),
        1 | 2 => hints.iter_mut().for_each(|hint| shift(d, hint)),
        3 => copy(d, hints),
        4 => re_rank(d, hints),
        _ => end_long_ago(d, hints),
    }
}

/// The agent's line, to put hints on; its times are made such as may be.
struct Line {
    from: Waypoint,
    way: (f64, f64),
    lasts: i64,
    carts: usize,
}

impl Line {
    fn of(r: &Request) -> Self {
        let lasts = r.to.time.saturating_sub(r.from.time);
        Line {
            from: r.from.at(r.from.time.clamp(0, LATEST)),
            way: (r.to.x - r.from.x, r.to.y - r.from.y),
            lasts: lasts.clamp(0, LATEST),
            carts: r.scene.obstacles.len(),
        }
    }

    /// How long the agent takes for a part of the line.
    fn takes(&self, part: f64) -> i64 {
        (part * self.lasts as f64) as i64
    }

    /// A hint at a part of the line, so many lengths aside.
    fn hint(&self, d: &mut Dice, part: f64, aside: f64, until: i64, contour: i64) -> RankedHint {
        let (dx, dy) = self.way;
        let hint = WaitHint {
            x: (self.from.x + part * dx - aside * dy).clamp(-FAR, FAR),
            y: (self.from.y + part * dy + aside * dx).clamp(-FAR, FAR),
            until: until.clamp(-REACH, REACH),
            obstacle: d.count(0, self.carts - 1),
        };
        RankedHint {
            contour,
            reach: part * dx.hypot(dy),
            hint,
        }
    }
}

/// Lets a hint end at another time, its rank left as it is: the agent comes late to it or leaves it
/// late, by far or by a short range.
fn shift(d: &mut Dice, hint: &mut RankedHint) {
    if d.one_in(2) {
        return;
    }
    let by = match d.whole(0, 2) {
        0 => d.pick(&[-100_000, -99_999, -50_000, -1, 1, 99_999, 100_000]),
        1 => d.pick(&[-S, -S / 10, -200_000, S / 10, S]),
        _ => d.whole(-10 * S, 10 * S),
    };
    hint.hint.until = hint.hint.until.saturating_add(by);
}

/// Several of one kind, so that contour and reach are level.
fn copy(d: &mut Dice, hints: &mut Vec<RankedHint>) {
    if !hints.is_empty() {
        let at = d.count(0, hints.len() - 1);
        let more = d.pick(&[1, 1, 2, 3, 8, MOST]);
        let hint = hints[at];
        hints.extend(vec![hint; more]);
    }
}

/// Other contours or reaches.
fn re_rank(d: &mut Dice, hints: &mut [RankedHint]) {
    for hint in hints {
        match d.whole(0, 5) {
            0 => hint.contour = d.whole(-5 * S, 30 * S),
            1 => hint.contour = d.pick(&[0, -REACH, REACH, hint.contour + 1]),
            2 => hint.reach = d.number(-5.0, 40.0),
            3 => hint.reach = d.pick(&[0.0, -0.0, f64::MAX, f64::MIN, 5e-324]),
            _ => (),
        }
    }
}

/// One ended before anything was on the floor, or ends when nothing is any more.
fn end_long_ago(d: &mut Dice, hints: &mut [RankedHint]) {
    if let Some(last) = hints.len().checked_sub(1) {
        let any = d.count(0, last);
        let at = d.pick(&[last, any]);
        hints[at].hint.until = d.pick(&[0, S, -S, -REACH, S - REACH, REACH, REACH - S]);
    }
}

/// Hints that no obstacle gave: on the agent's line, or off it.
fn invent(d: &mut Dice, line: &Line, hints: &mut Vec<RankedHint>) {
    for _ in 0..d.pick(&[1, 2, 2, 4, 6, 12]) {
        let part = d.number(-0.1, 1.1);
        let aside = d.pick(&[0.0, 0.0, 0.0, 0.1, -0.5, 2.0, 1e4]);
        let some = d.whole(-2 * S, 20 * S);
        let delay = d.pick(&[0, some, some]);
        let until = line.from.time + line.takes(part) + delay;
        hints.push(line.hint(d, part, aside, until, delay));
    }
}

/// Hints along the line, the last of them the root: the agent can come to the first in time, and to
/// each of the others it comes late, by far or by a short range, or just in time.
fn late_chain(d: &mut Dice, line: &Line) -> Vec<RankedHint> {
    let most = d.count(2, 4);
    let step = d.number(0.05, 0.3);
    let begin = d.number(0.0, 0.3);
    let delay = d.pick(&[0, S, 5 * S, line.lasts, 2 * line.lasts, 60 * S]);
    let mut until = line.from.time + line.takes(begin) + delay;
    let chain = (0..most).map(|k| {
        if k > 0 {
            until += line.takes(step) - late(d);
        }
        if k > 0 && d.one_in(8) {
            until = d.pick(&[0, -S, -REACH, 1 - REACH, S - REACH]);
        }
        let contour = (k as i64 - most as i64 + 1) * S + S / 2;
        line.hint(d, begin + k as f64 * step, 0.0, until, contour)
    });
    chain.collect()
}

/// How late the agent comes to a hint.
fn late(d: &mut Dice) -> i64 {
    match d.whole(0, 3) {
        0 => d.pick(&[-1, 0, 1, 2, 100]),
        1 => d.pick(&[50_000, 99_000, 101_000]),
        2 => d.whole(100_001, S),
        _ => d.whole(-S, 0),
    }
}

/// Hints so many lengths aside that ended long ago, each in time for the next: the search goes
/// through all their chains, and only the root can be reached from the start, or none.
fn net(d: &mut Dice, line: &Line, aside: f64) -> Vec<RankedHint> {
    let most = d.pick(&[4, 5, 6, 7, 8, 10, 12]);
    let reachable = d.one_in(2);
    let knot = |k: i64| {
        let part = k as f64 / most as f64;
        let until = match reachable && k == most - 1 {
            true => line.from.time + 5 * line.lasts.max(S),
            false => k * S + line.takes(part) - 100 * line.lasts.max(S),
        };
        line.hint(d, part, aside, until, (k - most + 1) * S + S / 2)
    };
    (0..most).map(knot).collect()
}

/// One of the request's own arrival times, one at which a hint's contour is the goal's, or another.
fn arrival(d: &mut Dice, request: &Request, hints: &[RankedHint]) -> i64 {
    let Request {
        from, to, scene, ..
    } = request;
    match d.whole(0, 31) {
        0..=13 if domain::refused(request).is_none() => {
            let found = ask::compute_safe_arrival_times(*to, scene);
            let times = found.map_or(Vec::new(), |found| found.times);
            match times.is_empty() {
                true => to.time,
                false => d.pick(&times),
            }
        }
        14..=19 if !hints.is_empty() => {
            let contour = d.pick(hints).contour;
            let level = to.time.saturating_add(contour);
            level.clamp(0, LATEST) + d.pick(&[0, 0, 0, -1, 1])
        }
        20 => d.pick(&[0, LATEST, from.time]),
        21 if d.one_in(4) => d.pick(&[-1, LATEST + 1, i64::MIN, i64::MAX]),
        22..=25 => to.time.saturating_add(d.whole(-20, 60) * S),
        _ => to.time,
    }
}

/// Makes hints that are refused: too many, not ranked, or one with a number that it may not have.
fn spoil(d: &mut Dice, hints: &mut Vec<RankedHint>, obstacles: usize) {
    let at = d.count(0, hints.len() - 1);
    let ranked = &mut hints[at];
    let odd = d.pick(&[f64::NAN, f64::INFINITY, f64::NEG_INFINITY]);
    let far = d.pick(&[odd, 1_000_000.000_000_1, -1_000_000.000_000_1, f64::MAX]);
    let strayed = d.pick(&[REACH + 1, -REACH - 1, i64::MAX, i64::MIN]);
    match d.whole(0, 9) {
        0 => ranked.contour = strayed,
        1 => ranked.reach = odd,
        2 => ranked.hint.x = far,
        3 => ranked.hint.y = far,
        4 => ranked.hint.until = strayed,
        5 => ranked.hint.obstacle = d.pick(&[obstacles, obstacles + 1, usize::MAX]),
        6 => hints.resize(MOST + 1, hints[at]),
        7 => hints.swap(0, at),
        _ => hints.reverse(),
    }
}

/// Another count, fewer words or more.
fn spoil_words(d: &mut Dice, words: &mut Vec<u64>) {
    match d.whole(0, 5) {
        0 => words[0] += 1,
        1 => words[0] = d.pick(&[65, 1 << 32, u64::MAX, u64::MAX / 6 + 1]),
        2 => words.clear(),
        3 => words.truncate(words.len() - 1),
        4 => words[0] = words[0].saturating_sub(1),
        _ => words.extend([d.word(), d.word()]),
    }
}
