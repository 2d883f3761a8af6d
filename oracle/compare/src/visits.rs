//! Questions about arrival times: a place, a time and obstacles, drawn so that the obstacles come to
//! the place, touch its clearance, stop there and leave it.

use crate::draw::{legs_left, misshape, on_floor, Drawn};
use mapf_watched::ask;
use planner::domain::{self, FARTHEST, LATEST, OBSTACLES};
use planner::generate::dice::Dice;
use planner::marked::S;
use planner::request::Request;
use terms::{Leg, Obstacle, Profile, Proximity, Scene, Waypoint};

type Pair = (f64, f64);

/// A visit of more legs is a long one.
const LONG: usize = 20;

/// Axes, and a direction off them that has length 1 exactly.
const DIRECTIONS: [Pair; 5] = [(1.0, 0.0), (-1.0, 0.0), (0.0, 1.0), (0.0, -1.0), (0.6, 0.8)];

/// The request with what is asked for as both of the agent's waypoints: its own goal, or another
/// place and time, often among more obstacles.
pub fn asked(drawn: &mut Drawn) -> Request {
    let mut request = drawn.request.clone();
    let d = &mut drawn.dice;
    request.from = request.to;
    if domain::refused(&request).is_none() && !d.one_in(4) {
        request.to = redrawn(d, &mut request.scene, request.to);
    }
    spoil(d, &mut request);
    request.from = request.to;
    request
}

/// Another place or time to ask for, and what comes there.
fn redrawn(d: &mut Dice, scene: &mut Scene, goal: Waypoint) -> Waypoint {
    let place = match d.whole(0, 9) {
        0..=3 => goal,
        4 => Waypoint::new(goal.time, goal.x.round(), goal.y.round()),
        _ => by_the_way(d, scene, goal),
    };
    match d.whole(0, 63) {
        0 => crowd(d, scene, place),
        1..=20 => (0..d.count(1, 3)).for_each(|_| add_visitor(d, scene, place)),
        21..=31 => return before_visits(d, scene, place),
        _ => (),
    }
    if d.one_in(3) {
        add_copies(d, scene, place);
    }
    place.at(time(d, scene, place))
}

/// One visitor alone, in some cases with copies, asked about when it sets out: every exit and every
/// finish is still to come.
fn before_visits(d: &mut Dice, scene: &mut Scene, place: Waypoint) -> Waypoint {
    scene.obstacles.clear();
    add_visitor(d, scene, place);
    let begins = scene.obstacles[0].waypoints[0].time;
    if d.one_in(3) {
        add_copies(d, scene, place);
    }
    place.at(begins)
}

/// The number of an obstacle that has a trajectory.
fn moving(d: &mut Dice, scene: &Scene) -> Option<usize> {
    let all = 0..scene.obstacles.len();
    let moving: Vec<usize> = all.filter(|&o| scene.obstacles[o].moves()).collect();
    (!moving.is_empty()).then(|| d.pick(&moving))
}

/// A place on an obstacle's way or off it, often by exactly the clearance: before a waypoint where
/// the obstacle turns back in half of the cases, or beside a leg.
fn by_the_way(d: &mut Dice, scene: &mut Scene, goal: Waypoint) -> Waypoint {
    let Some(at) = moving(d, scene) else {
        return goal;
    };
    let cart = &mut scene.obstacles[at];
    let clearance = ask::critical_distance(scene.agent, cart.profile);
    let n = d.count(1, cart.legs());
    let (start, end) = (cart.waypoints[n - 1], cart.waypoints[n]);
    let (dx, dy) = (end.x - start.x, end.y - start.y);
    let length = dx.hypot(dy);
    let (ux, uy) = match length > 0.0 {
        true => (dx / length, dy / length),
        false => d.pick(&DIRECTIONS),
    };
    let off = clearance * d.pick(&[0.0, 0.5, 1.0, 1.0, 1.0, 1.000_000_000_1]);
    let (x, y) = match d.whole(0, 3) {
        0 => {
            let part = d.pick(&[0.5, 0.25, 0.75]);
            let (x, y) = (start.x + part * dx, start.y + part * dy);
            (x - off * uy, y + off * ux)
        }
        1 => {
            let (ax, ay) = d.pick(&DIRECTIONS);
            (end.x + off * ax, end.y + off * ay)
        }
        _ => (end.x + off * ux, end.y + off * uy),
    };
    if d.one_in(2) {
        turn_back(cart, n);
    }
    Waypoint::new(goal.time, on_floor(x), on_floor(y))
}

/// Lets an obstacle go back from a waypoint to the place of the one before.
fn turn_back(cart: &mut Obstacle, n: usize) {
    let (start, end) = (cart.waypoints[n - 1], cart.waypoints[n]);
    let later = 2 * end.time - start.time;
    match cart.waypoints.get_mut(n + 1) {
        Some(next) => *next = start.at(next.time),
        None => cart.waypoints.push(start.at(later)),
    }
}

fn add_visitor(d: &mut Dice, scene: &mut Scene, place: Waypoint) {
    let legs = d
        .pick(&[1, 2, 2, 2, 2, 3, 3, 4, 4, 6, 12, 12, 20, 40, 256])
        .min(legs_left(scene));
    if legs > 0 {
        let at = d.count(0, scene.obstacles.len());
        let cart = visitor(d, scene.agent, place, legs);
        scene.obstacles.insert(at, cart);
    }
}

/// As many obstacles as there may be, or as many legs.
fn crowd(d: &mut Dice, scene: &mut Scene, place: Waypoint) {
    let each = d.pick(&[2, 8, 20]);
    while legs_left(scene) > 0 {
        let legs = each.min(legs_left(scene));
        let cart = visitor(d, scene.agent, place, legs);
        scene.obstacles.push(cart);
    }
}

/// How a visitor goes about a place.
#[derive(Clone, Copy)]
enum Manner {
    /// Through it and back again and again, stopping in the end at exactly the clearance.
    Through,
    /// To the clearance or nearly so, and back.
    Touching,
    /// To a stop at the place or near it.
    Parking,
    Any,
}

/// How long its legs last.
#[derive(Clone, Copy)]
enum Pace {
    Seconds,
    Uneven,
    Short,
}

/// A cart in so many legs along a line through a place or beside it, at about the place's time.
fn visitor(d: &mut Dice, agent: Profile, place: Waypoint, legs: usize) -> Obstacle {
    let profile = Profile {
        footprint: d.pick(&[0.5, 0.5, agent.footprint, 0.25]),
        follow: 0.0,
    };
    let clearance = ask::critical_distance(agent, profile);
    let (ux, uy) = d.pick(&DIRECTIONS);
    let aside = clearance * d.pick(&[0.0, 0.0, 0.0, 0.5, 1.0]);
    let manner = manner(d, legs);
    let pace = d.pick(&[Pace::Seconds, Pace::Uneven, Pace::Uneven, Pace::Short]);
    let creeps = d.one_in(8);
    let (mut time, mut along) = (0, 0.0);
    let station = |k| {
        if creeps && k > 0 && d.one_in(3) {
            time += d.pick(&[100, 1_000]) * S;
            along += d.pick(&[0.09, 0.05, -0.09, 0.12]);
        } else {
            time += lasts(d, pace);
            along = clearance * distance(d, manner, k, legs);
        }
        let (x, y) = (along * ux - aside * uy, along * uy + aside * ux);
        Waypoint::new(time, on_floor(place.x + x), on_floor(place.y + y))
    };
    let waypoints: Vec<Waypoint> = (0..=legs).map(station).collect();
    let before = d.pick(&[-S, 0, 0, S, 5 * S, time / 2, time]);
    let cart = Obstacle {
        profile,
        conflict_squared: 1.0,
        waypoints,
    };
    later(&cart, (place.time - before).clamp(0, LATEST - time))
}

/// A long visit does not touch: the search would be stuck soon.
fn manner(d: &mut Dice, legs: usize) -> Manner {
    use Manner::{Any, Parking, Through, Touching};
    match legs {
        0..=LONG => d.pick(&[Through, Through, Touching, Parking, Any]),
        _ => d.pick(&[Through, Parking]),
    }
}

/// How far along its line a visitor's station is from the place, in clearances.
fn distance(d: &mut Dice, manner: Manner, k: usize, last: usize) -> f64 {
    let side = if k % 2 == 0 { 1.0 } else { -1.0 };
    match manner {
        Manner::Through if k == last => side,
        Manner::Through => 3.0 * side,
        Manner::Touching if k % 2 == 0 => d.whole(2, 4) as f64,
        Manner::Touching => d.pick(&[1.0, 1.0, 1.0, 0.5, 1.000_000_000_1]),
        Manner::Parking if k + 1 < last => 3.0 * side,
        Manner::Parking => d.pick(&[0.0, 0.5, 1.0, -1.0]),
        Manner::Any => d.pick(&[-3.0, -2.0, -1.0, -0.5, 0.0, 0.5, 1.0, 2.0, 3.0]),
    }
}

fn lasts(d: &mut Dice, pace: Pace) -> i64 {
    match pace {
        Pace::Seconds => d.whole(1, 3) * S,
        Pace::Uneven => d.whole(S / 10, 5 * S),
        Pace::Short => d.pick(&[1, 2, 99_999, 100_000, 100_001, 150_000, S]),
    }
}

/// Copies of an obstacle, one later than the other, so that each is still at the place, comes or has
/// left when the one before leaves. The later ones come first in half of the cases.
fn add_copies(d: &mut Dice, scene: &mut Scene, place: Waypoint) {
    let Some(at) = moving(d, scene) else {
        return;
    };
    let cart = scene.obstacles[at].clone();
    let stays = stay(scene.agent, place, &cart);
    let whole = finish(&cart) - cart.waypoints[0].time;
    let shift = d.pick(&[stays / 2, stays, stays, stays + 1, stays - 1, whole + S, 0]);
    let most = d.pick(&[1, 2, 3, 8, OBSTACLES]);
    let latest_first = d.one_in(2);
    for n in 1..=most {
        let copy = later(&cart, n as i64 * shift);
        if legs_left(scene) < cart.legs() || !domain::time(finish(&copy)) {
            return;
        }
        let place = if latest_first { at } else { at + n };
        scene.obstacles.insert(place, copy);
    }
}

fn later(cart: &Obstacle, span: i64) -> Obstacle {
    let moved = |w: &Waypoint| w.at(w.time + span);
    Obstacle {
        waypoints: cart.waypoints.iter().map(moved).collect(),
        ..cart.clone()
    }
}

fn finish(cart: &Obstacle) -> i64 {
    cart.waypoints.last().map_or(0, |w| w.time)
}

/// The legs of an obstacle that do not creep, and when each comes to a place and leaves it.
fn meetings(agent: Profile, place: Waypoint, cart: &Obstacle) -> Vec<(Leg, Proximity)> {
    let limit = ask::critical_distance_squared(agent, cart.profile);
    let met = cart.waypoints.windows(2).map(|leg| {
        let standing = (place.at(leg[0].time), place.at(leg[1].time));
        let leg = (leg[0], leg[1]);
        ask::detect_proximity(limit, standing, leg).map(|near| (leg, near))
    });
    met.flatten().collect()
}

/// Whether a leg of an obstacle only touches the place's clearance: it comes there at its end, leaves
/// at its start, or does both at one instant.
pub fn is_touched(scene: &Scene, place: Waypoint) -> bool {
    let touches = |(leg, near): &(Leg, Proximity)| {
        let at_once = near.enter.is_some() && near.enter == near.exit;
        at_once || near.enter == Some(leg.1.time) || near.exit == Some(leg.0.time)
    };
    let touched = |cart| meetings(scene.agent, place, cart).iter().any(touches);
    scene.obstacles.iter().any(touched)
}

/// How long an obstacle is at a place, from its first entry to the next exit; or its first leg.
fn stay(agent: Profile, place: Waypoint, cart: &Obstacle) -> i64 {
    let met = meetings(agent, place, cart);
    let entry = met.iter().find_map(|(_, near)| near.enter);
    let exit = met.iter().find_map(|(_, near)| near.exit);
    match (entry, exit) {
        (Some(entry), Some(exit)) if entry < exit => exit - entry,
        _ => cart.waypoints[1].time - cart.waypoints[0].time,
    }
}

/// The place's own time, or one at which an obstacle comes there, leaves, ends a leg or is under way.
fn time(d: &mut Dice, scene: &Scene, place: Waypoint) -> i64 {
    let Some(at) = moving(d, scene) else {
        return place.time;
    };
    let cart = &scene.obstacles[at];
    let met = meetings(scene.agent, place, cart);
    let times: Vec<i64> = match d.whole(0, 9) {
        0 | 1 => met.iter().filter_map(|(_, near)| near.exit).collect(),
        2 => met.iter().filter_map(|(_, near)| near.enter).collect(),
        3 => cart.waypoints.iter().map(|w| w.time).collect(),
        4 => vec![cart.waypoints[0].time, finish(cart)],
        5 | 6 => Vec::new(),
        _ => return place.time,
    };
    match times.is_empty() {
        true => d.whole(cart.waypoints[0].time, finish(cart)),
        false => d.pick(&times) + d.pick(&[0, 0, 0, 0, -1, 1]),
    }
}

/// In some cases spoils a number of what is asked, in some a trajectory, in some both.
fn spoil(d: &mut Dice, request: &mut Request) {
    let Request { scene, to, .. } = request;
    let odd = d.pick(&[f64::NAN, f64::INFINITY, -FARTHEST - 1.0, -5e-324]);
    let number = d.whole(0, 255);
    match number {
        0 => to.time = d.pick(&[-1, LATEST + 1, i64::MIN, i64::MAX]),
        1 => to.x = odd,
        2 => to.y = odd,
        3 => scene.agent.footprint = odd,
        4 => scene.agent.follow = odd,
        _ => (),
    }
    if !scene.obstacles.is_empty() {
        let at = d.count(0, scene.obstacles.len() - 1);
        let most = if number < 5 { 5 } else { 95 };
        misshape(&mut scene.obstacles[at], d.whole(0, most));
    }
}
