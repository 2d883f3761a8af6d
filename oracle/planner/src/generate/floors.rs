//! Requests as a floor might send them, and the shapes that lead into each branch of the Rust.

use super::dice::Dice;
use crate::marked::S;
use crate::request::Request;
use terms::{Obstacle, Profile, Waypoint};

/// Nanoseconds of seconds, for making times.
fn ns(seconds: f64) -> i64 {
    (seconds * S as f64) as i64
}

fn profile(d: &mut Dice) -> Profile {
    Profile {
        footprint: d.pick(&[0.0, 0.1, 0.25, 0.5, 0.5, 1.0]),
        follow: d.pick(&[0.0, 0.0, 0.5, 2.0]),
    }
}

/// The agent's way: from somewhere near the middle, at a walking pace.
struct Way {
    from: Waypoint,
    to: Waypoint,
    profile: Profile,
    u: (f64, f64),
    speed: f64,
    length: f64,
}

impl Way {
    fn any(d: &mut Dice) -> Self {
        let length = d.number(1.0, 30.0);
        let speed = d.number(0.2, 2.0);
        Way::of(d, length, speed)
    }

    fn of(d: &mut Dice, length: f64, speed: f64) -> Self {
        let angle = d.number(0.0, std::f64::consts::TAU);
        let u = match d.one_in(3) {
            true => d.pick(&[(1.0, 0.0), (0.0, 1.0), (-1.0, 0.0), (0.6, 0.8)]),
            false => (angle.cos(), angle.sin()),
        };
        let start = (d.number(-10.0, 10.0), d.number(-10.0, 10.0));
        let begin = d.pick(&[0, 0, ns(3.0), ns(86_400.0)]);
        let from = Waypoint::new(begin, start.0, start.1);
        let (x, y) = (start.0 + length * u.0, start.1 + length * u.1);
        let to = Waypoint::new(begin + ns(length / speed), x, y);
        let profile = profile(d);
        Way {
            from,
            to,
            profile,
            u,
            speed,
            length,
        }
    }

    /// The place `along` the way and `aside` of it, `after` seconds from the start.
    fn at(&self, along: f64, aside: f64, after: f64) -> Waypoint {
        Waypoint::new(
            self.from.time + ns(after),
            self.from.x + along * self.u.0 - aside * self.u.1,
            self.from.y + along * self.u.1 + aside * self.u.0,
        )
    }

    /// The seconds that the agent takes to the goal.
    fn lasts(&self) -> f64 {
        self.length / self.speed
    }

    fn request(self, d: &mut Dice, mut obstacles: Vec<Obstacle>) -> Request {
        if d.one_in(6) && obstacles.len() < 32 {
            let place = d.count(0, obstacles.len());
            obstacles.insert(place, absent(d));
        }
        let mut r = Request::alone(self.profile, self.from, self.to);
        r.budget = d.pick(&[4096, 4096, 4096, 200, 65_535]);
        r.scene.obstacles = obstacles;
        r
    }
}

fn absent(d: &mut Dice) -> Obstacle {
    obstacle(d, Vec::new())
}

/// An obstacle over these waypoints; those that do not come later than the one before are left out.
fn obstacle(d: &mut Dice, places: Vec<Waypoint>) -> Obstacle {
    let mut waypoints: Vec<Waypoint> = Vec::new();
    for w in places {
        if w.time >= 0 && waypoints.last().map_or(true, |last| last.time < w.time) {
            waypoints.push(w);
        }
    }
    if waypoints.len() == 1 {
        waypoints.clear();
    }
    let profile = profile(d);
    let r = profile.footprint + d.pick(&[0.0, 0.25, 0.5]);
    let conflict_squared = d.pick(&[r * r, 1.0, 0.25, 0.0]);
    Obstacle {
        profile,
        conflict_squared,
        waypoints,
    }
}

pub fn empty(d: &mut Dice) -> Request {
    let way = Way::any(d);
    let obstacles = (0..d.count(0, 4)).map(|_| absent(d)).collect();
    way.request(d, obstacles)
}

fn wanderer(d: &mut Dice, hall: f64, legs: usize, begin: i64) -> Obstacle {
    let mut time = begin + ns(d.number(0.0, 10.0));
    let places = (0..=legs).map(|_| {
        time += ns(d.spread(0.1, 10.0));
        Waypoint::new(time, d.number(-hall, hall), d.number(-hall, hall))
    });
    let places = places.collect();
    obstacle(d, places)
}

pub fn sparse(d: &mut Dice) -> Request {
    let way = Way::any(d);
    let begin = way.from.time;
    let obstacles = (0..d.count(1, 3)).map(|_| {
        let legs = d.count(1, 4);
        wanderer(d, 15.0, legs, begin)
    });
    let obstacles = obstacles.collect();
    way.request(d, obstacles)
}

pub fn crowded(d: &mut Dice) -> Request {
    let way = Way::any(d);
    let begin = way.from.time;
    let carts = d.count(8, 32);
    let obstacles = (0..carts).map(|_| {
        let legs = d.count(1, 256 / carts);
        wanderer(d, 12.0, legs, begin)
    });
    let obstacles = obstacles.collect();
    way.request(d, obstacles)
}

/// A cart across the way, passing the line about when the agent does.
fn crosser(d: &mut Dice, way: &Way) -> Obstacle {
    let along = way.length * d.number(-0.1, 1.1);
    let passes = along / way.speed + d.number(-4.0, 4.0);
    let half = d.number(1.0, 10.0);
    let slant = d.number(-half, half) * d.pick(&[0.0, 1.0]);
    let lasts = half / d.number(0.2, 2.0);
    let side = d.sign();
    let places = vec![
        way.at(along - slant, -side * half, passes - lasts),
        way.at(along + slant, side * half, passes + lasts),
    ];
    obstacle(d, places)
}

pub fn crossing(d: &mut Dice) -> Request {
    let way = Way::any(d);
    let obstacles = (0..d.count(1, 5)).map(|_| crosser(d, &way)).collect();
    way.request(d, obstacles)
}

/// A cart ahead on the line, at a part of the agent's speed.
fn leader(d: &mut Dice, way: &Way, part: f64) -> Obstacle {
    let ahead = d.number(0.0, way.length * 0.6);
    let begins = d.number(-3.0, 3.0).max(0.0);
    let lasts = d.number(1.0, 2.0) * way.lasts();
    let aside = d.pick(&[0.0, 0.0, 0.1, -0.3]);
    let reached = ahead + part * way.speed * lasts;
    let turn = d.number(0.2, 0.8);
    let middle = way.at(
        ahead + (reached - ahead) * turn,
        aside,
        begins + lasts * turn,
    );
    let mut places = vec![
        way.at(ahead, aside, begins),
        middle,
        way.at(reached, aside, begins + lasts),
    ];
    if d.one_in(2) {
        places.remove(1);
    }
    obstacle(d, places)
}

pub fn following(d: &mut Dice) -> Request {
    let way = Way::any(d);
    let obstacles = (0..d.count(1, 2)).map(|_| {
        let part = d.number(0.02, 1.3);
        leader(d, &way, part)
    });
    let obstacles = obstacles.collect();
    way.request(d, obstacles)
}

pub fn following_closely(d: &mut Dice) -> Request {
    let way = Way::any(d);
    let part = 1.0 - d.spread(1e-17, 1e-2);
    let obstacles = vec![leader(d, &way, part)];
    way.request(d, obstacles)
}

/// Far ahead for long, a cart slower by a few units in the last place: the sawtooth's times then
/// lose all their digits.
pub fn long_following(d: &mut Dice) -> Request {
    let length = d.number(5_000.0, 9_000.0);
    let begin = ns(d.number(0.0, 1e5));
    let end = begin + ns(length / d.number(0.0101, 0.0110));
    let from = Waypoint::new(begin, -5_000.0, 0.0);
    let to = Waypoint::new(end, from.x + length, 0.0);
    let less = d.whole(1, 40) as f64 * 1e-12;
    let ahead = d.number(0.0, 900.0);
    let places = vec![
        Waypoint::new(begin, from.x + ahead, 0.0),
        Waypoint::new(end, from.x + ahead + (length - less), 0.0),
    ];
    let mut r = Request::alone(profile(d), from, to);
    r.scene.obstacles = vec![obstacle(d, places)];
    r
}

/// A leg that was over before a slow agent started, and ended far ahead of it.
pub fn far_hint(d: &mut Dice) -> Request {
    let lasts = d.number(1.0, 100.0);
    let speed = d.spread(1.1e-4, 2e-3);
    let mut way = Way::of(d, speed * lasts, speed);
    way.from.time += ns(100.0);
    way.to.time += ns(100.0);
    let places = vec![
        way.at(-d.number(0.0, 20.0), 0.0, -d.number(20.0, 90.0)),
        way.at(d.spread(200.0, 9_000.0), 0.0, -d.number(0.0, 19.0)),
    ];
    let obstacles = vec![obstacle(d, places)];
    way.request(d, obstacles)
}

pub fn head_on(d: &mut Dice) -> Request {
    let way = Way::any(d);
    let obstacles = (0..d.count(1, 2)).map(|_| {
        let begins = d.number(0.0, way.lasts());
        let lasts = d.number(0.3, 2.0) * way.lasts();
        let first = way.length * d.number(0.5, 1.5);
        let last = first - way.length * d.number(0.1, 1.2);
        let aside = d.pick(&[0.0, 0.0, 0.2, 0.9]);
        let places = vec![
            way.at(first, aside, begins),
            way.at(last, aside, begins + lasts),
        ];
        obstacle(d, places)
    });
    let obstacles = obstacles.collect();
    way.request(d, obstacles)
}

pub fn standing(d: &mut Dice) -> Request {
    let way = Way::any(d);
    let obstacles = (0..d.count(1, 3)).map(|_| {
        let along = way.length * d.number(-0.2, 1.2);
        let aside = d.pick(&[0.0, 0.3, -0.8]);
        let drift = d.pick(&[0.0, 0.0, 1e-3, -1e-3, 9e-3]) * way.lasts();
        let begins = d.number(0.0, way.lasts());
        let ends = begins + d.number(0.2, 2.0) * way.lasts();
        let places = vec![
            way.at(along, aside, begins),
            way.at(along + drift, aside, ends),
        ];
        obstacle(d, places)
    });
    let obstacles = obstacles.collect();
    way.request(d, obstacles)
}

pub fn parked(d: &mut Dice) -> Request {
    let way = Way::any(d);
    let obstacles = (0..d.count(1, 4)).map(|_| {
        let near = d.number(-1.5, 1.5);
        let comes = d.number(0.0, 2.0) * way.lasts();
        let stays = d.number(0.5, 20.0);
        let half = d.number(2.0, 8.0) * d.sign();
        let places = vec![
            way.at(way.length, half, comes),
            way.at(way.length + near, 0.0, comes + half.abs()),
            way.at(way.length + near, 0.0, comes + half.abs() + stays),
        ];
        obstacle(d, places)
    });
    let obstacles = obstacles.collect();
    way.request(d, obstacles)
}

fn half_metre() -> Profile {
    Profile {
        footprint: 0.5,
        follow: 0.0,
    }
}

/// A cart of half a metre on the grid.
fn on_grid(d: &mut Dice, legs: usize, most: i64) -> Obstacle {
    let mut time = d.whole(0, 3) * S;
    let places = (0..=legs).map(|_| {
        time += d.whole(1, 3) * S;
        let (x, y) = (d.whole(-most, most), d.whole(-most, most));
        Waypoint::new(time, x as f64, y as f64)
    });
    Obstacle {
        waypoints: places.collect(),
        conflict_squared: 1.0,
        profile: half_metre(),
    }
}

pub fn touches(d: &mut Dice) -> Request {
    let (x, y) = (d.whole(-3, 3) as f64, d.whole(-3, 3) as f64);
    let from = Waypoint::new(0, x, y);
    let to = Waypoint::new(
        d.whole(1, 8) * S,
        d.whole(-3, 3) as f64,
        d.whole(-3, 3) as f64,
    );
    let mut r = Request::alone(half_metre(), from, to);
    let obstacles = (0..d.count(1, 6)).map(|_| {
        let legs = d.count(1, 6);
        on_grid(d, legs, 3)
    });
    r.scene.obstacles = obstacles.collect();
    r
}

pub fn turn_back(d: &mut Dice) -> Request {
    let from = Waypoint::new(0, d.whole(4, 9) as f64, 0.0);
    let to = Waypoint::new(d.whole(1, 9) * S, 0.0, 0.0);
    let mut r = Request::alone(half_metre(), from, to);
    let obstacles = (0..d.count(1, 3)).map(|_| {
        let (ux, uy) = d.pick(&[(1.0, 0.0), (-1.0, 0.0), (0.0, 1.0), (0.0, -1.0), (0.6, 0.8)]);
        let mut time = d.whole(0, 6) * S;
        let places = (0..d.count(3, 9)).map(|k| {
            let away = match k % 2 {
                0 => d.whole(2, 4) as f64,
                _ => d.pick(&[1.0, 1.0, 1.0, 0.5, 1.0000000001]),
            };
            time += d.whole(1, 3) * S;
            Waypoint::new(time, away * ux, away * uy)
        });
        Obstacle {
            waypoints: places.collect(),
            conflict_squared: 1.0,
            profile: half_metre(),
        }
    });
    r.scene.obstacles = obstacles.collect();
    r
}

pub fn creeping(d: &mut Dice) -> Request {
    let way = Way::any(d);
    let obstacles = (0..d.count(1, 2)).map(|_| {
        let away = d.number(0.1, 2.5);
        let angle = d.number(0.0, std::f64::consts::TAU);
        let lasts = d.spread(1.0, 1e5);
        let crept = d.spread(1e-6, 2e-4) * lasts;
        let (x, y) = (angle.cos(), angle.sin());
        let begins = d.number(0.0, 5.0);
        let places = vec![
            way.at(way.length + away * x, away * y, begins),
            way.at(
                way.length + (away + crept) * x,
                (away + crept) * y,
                begins + lasts,
            ),
        ];
        obstacle(d, places)
    });
    let obstacles = obstacles.collect();
    way.request(d, obstacles)
}

pub fn short_legs(d: &mut Dice) -> Request {
    let way = Way::any(d);
    let obstacles = (0..d.count(1, 4)).map(|_| {
        let along = way.length * d.number(0.0, 1.1);
        let mut w = way.at(along, d.number(-1.0, 1.0), along / way.speed);
        let mut places = vec![w];
        for _ in 0..d.count(2, 8) {
            w.time += d.pick(&[1, 2, 9, 10, 11, 99_999, 100_000, 100_001, ns(0.5)]);
            w.x += d.number(-0.3, 0.3);
            w.y += d.number(-0.3, 0.3);
            places.push(w);
        }
        obstacle(d, places)
    });
    let obstacles = obstacles.collect();
    way.request(d, obstacles)
}

pub fn no_direction(d: &mut Dice) -> Request {
    let way = Way::any(d);
    let along = way.length * d.number(0.1, 0.9);
    let mut w = way.at(along, d.number(-0.3, 0.3), along / way.speed);
    let mut places = vec![w];
    for _ in 0..d.count(1, 4) {
        w.time += d.whole(1, 50_000);
        w.x += d.spread(1e-11, 1e-8) * d.sign();
        w.y += d.spread(1e-11, 1e-8) * d.sign();
        places.push(w);
    }
    let mut cart = obstacle(d, places);
    cart.profile = half_metre();
    way.request(d, vec![cart])
}

pub fn short_agent(d: &mut Dice) -> Request {
    let mut way = Way::any(d);
    let obstacles = (0..d.count(0, 3)).map(|_| crosser(d, &way)).collect();
    way.to.time = way.from.time + d.whole(0, 20);
    if d.one_in(4) {
        (way.to.x, way.to.y) = (way.from.x, way.from.y);
    }
    way.request(d, obstacles)
}

pub fn no_line(d: &mut Dice) -> Request {
    let mut way = Way::any(d);
    let obstacles = (0..d.count(0, 2)).map(|_| crosser(d, &way)).collect();
    let length = d.pick(&[0.0, 1e-8, 0.999e-8, 1.001e-8, 5e-324]);
    (way.from.x, way.from.y) = (0.0, 0.0);
    (way.to.x, way.to.y) = d.pick(&[(length, 0.0), (0.0, -length), (0.6 * length, 0.8 * length)]);
    way.request(d, obstacles)
}

pub fn slow_agent(d: &mut Dice) -> Request {
    let length = d.spread(2e-8, 1e-2);
    let lasts = d.spread(1.0, 1e5);
    let mut way = Way::of(d, length, length / lasts);
    way.profile.footprint = d.pick(&[0.0, 0.5, 50.0, 100.0]);
    let obstacles = (0..d.count(1, 3)).map(|_| {
        let half = d.number(1.0, 50.0);
        let aside = d.number(-2.0, 2.0);
        let passes = lasts * d.number(0.0, 1.0);
        let side = d.sign();
        let places = vec![
            way.at(aside, -side * half, passes),
            way.at(aside, side * half, passes + half),
        ];
        let mut cart = obstacle(d, places);
        cart.profile.footprint = d.pick(&[0.0, 0.5, 20.0]);
        cart
    });
    let obstacles = obstacles.collect();
    way.request(d, obstacles)
}

/// A cart that goes back and forth across the way.
fn weaver(d: &mut Dice, way: &Way, legs: usize) -> Obstacle {
    let pace = d.number(1.0, 4.0);
    let step = way.length * d.number(0.2, 1.2) / legs as f64;
    let first = way.length * d.number(0.0, 0.3);
    let places = (0..=legs).map(|k| {
        let side = if k % 2 == 0 { 2.0 } else { -2.0 };
        way.at(first + step * k as f64, side, pace * k as f64)
    });
    let places = places.collect();
    obstacle(d, places)
}

/// A cart that goes to and fro across the way at one place: one hint for each leg.
fn shuttle(d: &mut Dice, way: &Way, legs: usize) -> Obstacle {
    let along = way.length * d.number(0.5, 0.9);
    let pace = d.number(4.0, 8.0);
    let places = (0..=legs).map(|k| {
        let side = if k % 2 == 0 { 5.0 } else { -5.0 };
        way.at(along, side, way.lasts() + pace * k as f64)
    });
    let places = places.collect();
    obstacle(d, places)
}

pub fn many_hints(d: &mut Dice) -> Request {
    let way = Way::any(d);
    let cart = match d.count(0, 2) {
        0 => {
            let legs = d.count(56, 70);
            weaver(d, &way, legs)
        }
        1 => {
            let legs = d.count(62, 67);
            shuttle(d, &way, legs)
        }
        _ => {
            let mut cart = leader(d, &way, 0.3);
            cart.profile.footprint = d.number(0.0, 0.2);
            cart
        }
    };
    way.request(d, vec![cart])
}

pub fn long_search(d: &mut Dice) -> Request {
    let length = d.number(8.0, 30.0);
    let speed = d.number(0.5, 2.0);
    let way = Way::of(d, length, speed);
    let mut obstacles: Vec<Obstacle> = (0..d.count(1, 3))
        .map(|_| {
            let legs = d.count(4, 16);
            weaver(d, &way, legs)
        })
        .collect();
    obstacles.extend((0..d.count(0, 4)).map(|_| crosser(d, &way)));
    for cart in &mut obstacles {
        cart.conflict_squared = d.pick(&[1.0, 1.0, 0.25]);
    }
    way.request(d, obstacles)
}

/// A cart that comes to the goal and leaves it again and again.
fn visitor(d: &mut Dice, way: &Way, visits: usize) -> Obstacle {
    let beat = d.number(2.0, 6.0);
    let places = (0..=2 * visits).map(|k| {
        let away = if k % 2 == 0 { 6.0 } else { 0.0 };
        way.at(way.length, away, beat * k as f64)
    });
    let places = places.collect();
    obstacle(d, places)
}

/// A cart that goes round and round, past the goal in the agent's direction and back far aside: it
/// ends one arrival time after another, gives no hint, and stands in nobody's way.
fn rounder(d: &mut Dice, way: &Way, begins: f64, ends: f64) -> Obstacle {
    let passes = (way.length + 14.0) / (5.0 * way.speed);
    let rounds = (((ends - begins) / (passes + 1.5)) as usize).clamp(1, 56);
    let mut places = Vec::new();
    for round in 0..rounds {
        let start = begins + round as f64 * (passes + 1.5);
        places.push(way.at(-5.0, 0.3, start));
        places.push(way.at(way.length + 9.0, 0.3, start + passes));
        places.push(way.at(way.length + 9.0, 60.0, start + passes + 0.5));
        places.push(way.at(-5.0, 60.0, start + passes + 1.0));
    }
    let mut cart = obstacle(d, places);
    cart.profile.footprint = 0.25;
    cart.conflict_squared = 0.0;
    cart
}

pub fn many_paths(d: &mut Dice) -> Request {
    let (length, speed) = (d.number(15.0, 32.0), d.number(0.5, 2.0));
    let mut way = Way::of(d, length, speed);
    way.profile = Profile {
        footprint: d.pick(&[0.15, 0.2, 0.25]),
        follow: 0.0,
    };
    // a leader all the way to the goal and beyond, much slower than the agent
    let lasts = (length + 3.0) / (d.number(0.02, 0.2) * speed);
    let places = vec![way.at(2.0, 0.0, 0.0), way.at(length + 5.0, 0.0, lasts)];
    let mut cart = obstacle(d, places);
    cart.profile = way.profile;
    cart.conflict_squared = 0.01;
    let begins = lasts * d.number(0.1, 0.6);
    let mut obstacles = vec![cart, rounder(d, &way, begins, lasts)];
    if d.one_in(4) {
        let visits = d.count(1, 12);
        obstacles.push(visitor(d, &way, visits));
    }
    let mut r = way.request(d, obstacles);
    r.budget = 300;
    r
}

pub fn tiny_budget(d: &mut Dice) -> Request {
    let mut r = match d.count(0, 3) {
        0 => long_search(d),
        1 => following(d),
        _ => crossing(d),
    };
    r.budget = d.whole(0, 5) as u16;
    r
}

pub fn far(d: &mut Dice) -> Request {
    let place = |d: &mut Dice| d.pick(&[-10_000.0, 10_000.0, 9_999.999, 0.0, -5_000.0]);
    let late = d.pick(&[0, 999_999_999_000_000]);
    let from = Waypoint::new(late, place(d), place(d));
    let to = Waypoint::new(late + d.pick(&[10, 1_000, 1_000_000]), place(d), place(d));
    let mut r = Request::alone(profile(d), from, to);
    r.scene.obstacles = (0..d.count(1, 4))
        .map(|_| {
            let mut time = late + d.whole(0, 20);
            let mut places = Vec::new();
            for _ in 0..d.count(2, 5) {
                places.push(Waypoint::new(time, place(d), place(d)));
                time += d.pick(&[1, 2, 100, 150_000]);
            }
            let mut cart = obstacle(d, places);
            cart.profile.footprint = d.pick(&[0.0, 100.0, 0.5]);
            cart
        })
        .collect();
    r
}
