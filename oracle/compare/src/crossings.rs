//! Questions about paths: the agent's way among carts that cross it one after another, lead on it,
//! come against it or stand on it, so that a path takes several waits.

use crate::draw::{legs_left, misshape, on_floor, Drawn};
use mapf_watched::ask;
use planner::domain::{self, BUDGET, FARTHEST, LATEST};
use planner::generate::dice::Dice;
use planner::marked::S;
use planner::request::Request;
use terms::{Obstacle, Profile, Scene, Waypoint};

/// The seconds that the floor is known before the agent starts.
const BEFORE: i64 = 200;

/// The request as it is, or an agent among carts that meet it.
pub fn asked(drawn: &mut Drawn) -> Request {
    let mut request = drawn.request.clone();
    let d = &mut drawn.dice;
    if domain::refused(&request).is_none() && !d.one_in(4) {
        crowd(d, &mut request);
    }
    spoil(d, &mut request);
    request
}

/// A few pops in one case of so many, or the most that there may be, and in some cases more.
pub fn budget(d: &mut Dice, own: u16, few_in: u32) -> u64 {
    if d.one_in(few_in) {
        return d.whole(0, 5) as u64;
    }
    match d.whole(0, 31) {
        0..=7 => d.pick(&[8, 20, 60, 300]),
        8 => BUDGET,
        9 if d.one_in(2) => d.pick(&[BUDGET + 1, 1 << 32, u64::MAX]),
        10..=15 => 4096,
        _ => u64::from(own).min(4096),
    }
}

/// The agent's way, and how near a cart may come.
struct Way {
    from: Waypoint,
    u: (f64, f64),
    length: f64,
    speed: f64,
    profile: Profile,
    clearance: f64,
}

impl Way {
    fn of(request: &Request, profile: Profile) -> Self {
        let Request { from, to, .. } = *request;
        let (dx, dy) = (to.x - from.x, to.y - from.y);
        let length = dx.hypot(dy);
        Way {
            from,
            u: (dx / length, dy / length),
            length,
            speed: length / ((to.time - from.time) as f64 / S as f64),
            profile,
            clearance: ask::critical_distance(request.scene.agent, profile),
        }
    }

    /// The place `along` the way and `aside` of it, `after` seconds from the start.
    fn at(&self, along: f64, aside: f64, after: f64) -> Waypoint {
        let time = self.from.time + (after * S as f64) as i64;
        let (x, y) = (
            along * self.u.0 - aside * self.u.1,
            along * self.u.1 + aside * self.u.0,
        );
        Waypoint::new(
            time.clamp(0, LATEST),
            on_floor(self.from.x + x),
            on_floor(self.from.y + y),
        )
    }

    /// The seconds to a place on it.
    fn to(&self, along: f64) -> f64 {
        along / self.speed
    }

    /// A cart over these places; those that do not come later than the one before are left out.
    fn cart(&self, d: &mut Dice, mut waypoints: Vec<Waypoint>) -> Obstacle {
        waypoints.dedup_by(|next, last| next.time <= last.time);
        if waypoints.len() < 2 {
            waypoints.clear();
        }
        let part = d.pick(&[1.0, 1.0, 1.0, 0.98, 0.5, 0.1, 1.01]);
        Obstacle {
            profile: self.profile,
            conflict_squared: part * self.clearance * self.clearance,
            waypoints,
        }
    }
}

/// Whether carts can meet the agent on its way.
fn suits(r: &Request) -> bool {
    let length = (r.to.x - r.from.x).hypot(r.to.y - r.from.y);
    let seconds = (r.to.time - r.from.time) as f64 / S as f64;
    let speed = length / seconds;
    let small = r.scene.agent.footprint <= length / 8.0;
    length >= 1.0 && small && (0.05..=50.0).contains(&speed) && r.to.time < LATEST / 2
}

/// Another way, at a walking pace.
fn another_way(d: &mut Dice, r: &mut Request) {
    let (length, seconds) = (d.whole(4, 30), d.whole(4, 30));
    let u = d.pick(&[(1.0, 0.0), (0.0, -1.0), (0.6, 0.8), (-0.8, 0.6)]);
    let (x, y) = (u.0 * length as f64, u.1 * length as f64);
    r.from = Waypoint::new(0, 0.0, 0.0);
    r.to = Waypoint::new(seconds * S, x, y);
    r.scene.agent.footprint = d.pick(&[0.25, 0.5, 0.1]);
}

/// The agent among carts that meet it, the request's own left or not.
fn crowd(d: &mut Dice, request: &mut Request) {
    if !suits(request) {
        another_way(d, request);
        request.scene.obstacles.clear();
    }
    if !d.one_in(4) {
        request.scene.obstacles.clear();
    }
    request.from.time += BEFORE * S;
    request.to.time += BEFORE * S;
    let agent = request.scene.agent;
    let profile = Profile {
        footprint: d.pick(&[agent.footprint, agent.footprint, 0.25]),
        follow: d.pick(&[0.0, agent.follow]),
    };
    let way = Way::of(request, profile);
    for cart in meeting(d, &way) {
        add(d, &mut request.scene, cart);
    }
}

/// Puts a cart behind all others that goes ahead of the agent at nearly its speed, so that their
/// proximity is refused 5. False where the agent's way does not suit.
pub fn accompany(d: &mut Dice, request: &mut Request) -> bool {
    let fits = domain::refused(request).is_none() && suits(request);
    if !fits || legs_left(&request.scene) == 0 {
        return false;
    }
    let way = Way::of(request, request.scene.agent);
    let ahead = way.clearance + d.number(2.0, 4.0);
    let speed = way.speed + d.number(4e-5, 9e-5) * d.sign();
    let lasts = d.number(0.3, 1.5) * way.to(way.length);
    let places = vec![
        way.at(ahead, 0.0, 0.0),
        way.at(ahead + speed * lasts, 0.0, lasts),
    ];
    let cart = way.cart(d, places);
    request.scene.obstacles.push(cart);
    true
}

fn add(d: &mut Dice, scene: &mut Scene, cart: Obstacle) {
    if cart.legs() <= legs_left(scene) {
        let at = d.count(0, scene.obstacles.len());
        scene.obstacles.insert(at, cart);
    }
}

type Cart = fn(&mut Dice, &Way) -> Obstacle;

/// Carts that come on top, each in one case of so many.
const OTHERS: [(u32, Cart); 5] = [
    (5, leader),
    (6, oncoming),
    (6, standing),
    (3, onlooker),
    (8, creeper),
];

/// Carts of one sort or of several.
fn meeting(d: &mut Dice, way: &Way) -> Vec<Obstacle> {
    let mut carts = match d.whole(0, 15) {
        0 | 1 => vec![leader(d, way)],
        2 => vec![shuttle(d, way)],
        3 | 4 => twins(d, way),
        _ => row(d, way),
    };
    for (one_in, cart) in OTHERS {
        if d.one_in(one_in) {
            carts.push(cart(d, way));
        }
    }
    carts
}

/// Carts across the way, each at about the time when the agent comes there after it has let those
/// before pass. The places are not in their order in some cases.
fn row(d: &mut Dice, way: &Way) -> Vec<Obstacle> {
    let carts = d.pick(&[1, 2, 2, 3, 3, 4, 5, 6, 8, 16]);
    let mut places: Vec<f64> = (0..carts)
        .map(|_| way.length * d.number(0.05, 1.05))
        .collect();
    if !d.one_in(4) {
        places.sort_by(f64::total_cmp);
    }
    let mut delay = 0.0;
    let cross = |along: f64| {
        let pace = way.speed * d.pick(&[0.5, 1.0, 2.0, 4.0]);
        let meets = way.clearance / pace + way.clearance / way.speed;
        let after = way.to(along) + delay + meets * d.number(-0.6, 0.6);
        delay = after - way.to(along) + meets;
        crosser(d, way, along, after, pace)
    };
    let mut row: Vec<Obstacle> = places.into_iter().map(cross).collect();
    let wide = match d.whole(0, 5) {
        0 => 0..1,
        1 => 0..carts - 1,
        _ => 0..0,
    };
    // no hint is far enough from these
    for cart in &mut row[wide] {
        cart.conflict_squared *= d.pick(&[1.2, 2.0, 4.0]);
    }
    row
}

/// One cart across the way, and others that the agent meets in the same way further on: their hints
/// are level in contour, and so the agent comes to the next at the instant at which its wait ends.
fn twins(d: &mut Dice, way: &Way) -> Vec<Obstacle> {
    let along = way.length * d.number(0.05, 0.5);
    let after = way.to(along) + d.number(-0.6, 0.6) * way.clearance / way.speed;
    let first = crosser(d, way, along, after, way.speed);
    let further = way.clearance * d.number(0.5, 4.0);
    let twin = |k: usize| {
        let along = k as f64 * further;
        let moved = way.at(along, 0.0, way.to(along));
        let ahead = |w: &Waypoint| {
            Waypoint::new(
                w.time + moved.time - way.from.time,
                on_floor(w.x + moved.x - way.from.x),
                on_floor(w.y + moved.y - way.from.y),
            )
        };
        Obstacle {
            waypoints: first.waypoints.iter().map(ahead).collect(),
            ..first.clone()
        }
    };
    (0..d.count(2, 5)).map(twin).collect()
}

/// A cart across the way, and back in some cases.
fn crosser(d: &mut Dice, way: &Way, along: f64, after: f64, pace: f64) -> Obstacle {
    let half = way.clearance * d.number(1.5, 8.0) * d.sign();
    let slant = half * d.pick(&[0.0, 0.0, 0.5, -1.0]);
    let lasts = half.abs() / pace;
    let mut places = vec![
        way.at(along - slant, -half, after - lasts),
        way.at(along + slant, half, after + lasts),
    ];
    if d.one_in(6) {
        places.push(way.at(along, -half, after + 3.0 * lasts));
    }
    way.cart(d, places)
}

/// A cart to and fro across the way.
fn shuttle(d: &mut Dice, way: &Way) -> Obstacle {
    let along = way.length * d.number(0.2, 0.9);
    let pace = way.clearance * d.number(1.0, 4.0) / way.speed;
    let legs = d.count(2, 12);
    let places = (0..=legs).map(|k| {
        let side = if k % 2 == 0 { 4.0 } else { -4.0 };
        way.at(along, side * way.clearance, pace * k as f64)
    });
    let places = places.collect();
    way.cart(d, places)
}

/// A cart ahead at a part of the agent's speed, which leaves the way in the end in some cases.
fn leader(d: &mut Dice, way: &Way) -> Obstacle {
    let ahead = d.number(way.clearance, way.clearance + way.length * 0.6);
    let lasts = d.number(0.2, 1.5) * way.to(way.length);
    let reached = ahead + d.number(0.05, 1.05) * way.speed * lasts;
    let begins = d.pick(&[0.0, 0.0, -0.5]) * lasts;
    let mut places = vec![
        way.at(ahead, 0.0, begins),
        way.at(reached, 0.0, begins + lasts),
    ];
    if d.one_in(2) {
        places.push(leaving(d, way, reached, begins + lasts));
    }
    way.cart(d, places)
}

/// A cart against the agent, which leaves the way before the end or not.
fn oncoming(d: &mut Dice, way: &Way) -> Obstacle {
    let first = way.length * d.number(0.5, 1.5);
    let last = first - way.length * d.number(0.1, 0.8);
    let begins = d.number(-0.5, 0.5) * way.to(way.length);
    let lasts = d.number(0.3, 1.5) * way.to(way.length);
    let mut places = vec![
        way.at(first, 0.0, begins),
        way.at(last, 0.0, begins + lasts),
    ];
    if d.one_in(2) {
        places.push(leaving(d, way, last, begins + lasts));
    }
    way.cart(d, places)
}

/// A cart that stands on the way for a time and leaves it or not.
fn standing(d: &mut Dice, way: &Way) -> Obstacle {
    let along = way.length * d.number(0.1, 1.1);
    let begins = d.number(-1.0, 0.5) * way.to(way.length);
    let ends = way.to(along) + d.number(0.0, 1.0) * way.to(way.length);
    let mut places = vec![way.at(along, 0.0, begins), way.at(along, 0.0, ends)];
    if !d.one_in(3) {
        places.push(leaving(d, way, along, ends));
    }
    way.cart(d, places)
}

/// A cart that moves hardly at all against the agent, under way or waiting.
fn creeper(d: &mut Dice, way: &Way) -> Obstacle {
    let along = way.length * d.number(0.0, 1.0);
    let aside = way.clearance * d.pick(&[0.0, 0.9, 1.1]);
    let speed = d.pick(&[0.0, way.speed]) + d.spread(1e-5, 2e-4) * d.sign();
    let ends = d.number(0.5, 2.0) * way.to(way.length);
    let places = vec![
        way.at(along, aside, 0.0),
        way.at(along + speed * ends, aside, ends),
    ];
    way.cart(d, places)
}

/// The end of a leg that leads off the way.
fn leaving(d: &mut Dice, way: &Way, along: f64, after: f64) -> Waypoint {
    let aside = way.clearance * d.number(2.0, 6.0) * d.sign();
    way.at(along, aside, after + d.number(0.5, 4.0))
}

/// A cart on one long leg far from the way, whose box holds it all: it is in no one's way, and a
/// way backward in time meets it.
fn onlooker(d: &mut Dice, way: &Way) -> Obstacle {
    let end = way.at(way.length, 0.0, 0.0);
    let (low_x, high_x) = (way.from.x.min(end.x), way.from.x.max(end.x));
    let (low_y, high_y) = (way.from.y.min(end.y), way.from.y.max(end.y));
    let off = 4.0 * (way.length + way.clearance);
    let begins = d.pick(&[-50.0, -150.0, 0.0]);
    let ends = d.number(1.0, 6.0) * way.to(way.length);
    let place = |after, x, y| Waypoint {
        x: on_floor(x),
        y: on_floor(y),
        ..way.at(0.0, 0.0, after)
    };
    let places = vec![
        place(begins, low_x - 1.0, high_y + off),
        place(ends, high_x + off, low_y - 1.0),
    ];
    way.cart(d, places)
}

/// In some cases spoils a number of what is asked, in some a trajectory, in some both.
fn spoil(d: &mut Dice, request: &mut Request) {
    let Request {
        scene, from, to, ..
    } = request;
    let odd = d.pick(&[f64::NAN, f64::INFINITY, -FARTHEST - 1.0, -5e-324]);
    let number = d.whole(0, 511);
    match number {
        0 => from.time = d.pick(&[-1, LATEST + 1, i64::MIN, i64::MAX]),
        1 => to.time = d.pick(&[-1, LATEST + 1, i64::MIN, i64::MAX]),
        2 => from.x = odd,
        3 => to.y = odd,
        4 => scene.agent.footprint = odd,
        5 => scene.agent.follow = odd,
        6 => to.time = from.time.saturating_add(d.pick(&[-1, 0, 9, 10])),
        7 => (to.x, to.y) = (from.x, from.y),
        _ => (),
    }
    if !scene.obstacles.is_empty() {
        let at = d.count(0, scene.obstacles.len() - 1);
        let most = if number < 8 { 7 } else { 255 };
        misshape(&mut scene.obstacles[at], d.whole(0, most));
    }
}
