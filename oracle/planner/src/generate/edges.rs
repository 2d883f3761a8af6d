//! The edges of the domain and of the format.

use super::dice::Dice;
use super::floors;
use crate::domain::{FARTHEST, LARGEST_CONFLICT, LATEST, WIDEST};
use crate::request::Request;
use crate::stream;
use terms::{Obstacle, Profile, Waypoint};

/// A good request with at least one obstacle that moves.
fn good(d: &mut Dice) -> Request {
    let mut r = match d.count(0, 3) {
        0 => floors::touches(d),
        1 => floors::sparse(d),
        2 => floors::following(d),
        _ => floors::crossing(d),
    };
    if r.scene.moving() == 0 {
        r.scene.obstacles = vec![straight(0, 2)];
    }
    r
}

/// An obstacle along a line far from everything, its waypoints a second apart.
fn straight(begin: i64, waypoints: usize) -> Obstacle {
    let places = (0..waypoints)
        .map(|k| Waypoint::new(begin + k as i64 * 1_000_000_000, k as f64 * 0.1, 50.0));
    Obstacle {
        profile: Profile {
            footprint: 0.5,
            follow: 0.0,
        },
        conflict_squared: 1.0,
        waypoints: places.collect(),
    }
}

fn first_moving(r: &mut Request) -> &mut Obstacle {
    let found = r.scene.obstacles.iter_mut().find(|o| o.moves());
    found.expect("a good request has one")
}

/// Any of the request's waypoints.
fn any_waypoint<'a>(d: &mut Dice, r: &'a mut Request) -> &'a mut Waypoint {
    match d.count(0, 3) {
        0 => &mut r.from,
        1 => &mut r.to,
        _ => {
            let cart = first_moving(r);
            let at = d.count(0, cart.waypoints.len() - 1);
            &mut cart.waypoints[at]
        }
    }
}

fn any_coordinate<'a>(d: &mut Dice, r: &'a mut Request) -> &'a mut f64 {
    let along_x = d.one_in(2);
    let w = any_waypoint(d, r);
    if along_x {
        &mut w.x
    } else {
        &mut w.y
    }
}

fn any_radius<'a>(d: &mut Dice, r: &'a mut Request) -> &'a mut f64 {
    let agent = d.one_in(2);
    let footprint = d.one_in(2);
    let p = if agent {
        &mut r.scene.agent
    } else {
        &mut first_moving(r).profile
    };
    if footprint {
        &mut p.footprint
    } else {
        &mut p.follow
    }
}

/// The next double away from zero.
fn up(x: f64) -> f64 {
    f64::from_bits(x.to_bits() + 1)
}

fn spare(count: usize) -> Vec<Obstacle> {
    (0..count).map(|_| straight(0, 0)).collect()
}

pub fn limits(d: &mut Dice) -> Request {
    let mut r = good(d);
    match d.count(0, 8) {
        0 => {
            // the last instant is allowed, for the agent and for an obstacle's end
            r.to.time = LATEST;
            if let Some(last) = first_moving(&mut r).waypoints.last_mut() {
                last.time = LATEST;
            }
        }
        1 => *any_coordinate(d, &mut r) = FARTHEST * d.sign(),
        2 => *any_radius(d, &mut r) = d.pick(&[0.0, WIDEST]),
        3 => first_moving(&mut r).conflict_squared = d.pick(&[0.0, LARGEST_CONFLICT]),
        4 => {
            let missing = 32 - r.scene.obstacles.len();
            r.scene.obstacles.extend(spare(missing));
        }
        5 => {
            // 256 legs in all, the last obstacle filling up
            let missing = 256 - r.scene.legs();
            r.scene.obstacles.push(straight(0, missing + 1));
        }
        6 => r.budget = d.pick(&[0, 65_535]),
        7 => r.from.time = 0,
        _ => {
            r.scene.obstacles = vec![straight(0, 257)];
        }
    }
    r
}

pub fn beyond(d: &mut Dice) -> Request {
    let mut r = good(d);
    match d.count(0, 10) {
        0 => any_last_instant(d, &mut r),
        1 => *any_coordinate(d, &mut r) = up(FARTHEST) * d.sign(),
        2 => *any_radius(d, &mut r) = d.pick(&[-5e-324, up(WIDEST)]),
        3 => first_moving(&mut r).conflict_squared = d.pick(&[-5e-324, up(LARGEST_CONFLICT)]),
        4 => {
            let missing = 33 - r.scene.obstacles.len();
            r.scene.obstacles.extend(spare(missing));
        }
        5 => {
            let missing = 257 - r.scene.legs();
            r.scene.obstacles.push(straight(0, missing + 1));
        }
        6 => r.scene.obstacles.push(straight(0, 1)),
        7 => {
            // two waypoints at one instant, or the later one earlier
            let cart = first_moving(&mut r);
            cart.waypoints[1].time =
                cart.waypoints[0].time - d.whole(0, 1).min(cart.waypoints[0].time);
        }
        8 => *any_coordinate(d, &mut r) = odd(d),
        9 => *any_radius(d, &mut r) = odd(d),
        _ => first_moving(&mut r).conflict_squared = odd(d),
    }
    r
}

fn any_last_instant(d: &mut Dice, r: &mut Request) {
    match d.count(0, 2) {
        0 => r.from.time = LATEST + 1,
        1 => r.to.time = LATEST + 1,
        _ => {
            if let Some(last) = first_moving(r).waypoints.last_mut() {
                last.time = LATEST + 1;
            }
        }
    }
}

fn odd(d: &mut Dice) -> f64 {
    let nan = f64::from_bits(0x7ff0_0000_0000_0001 | d.word() >> 13);
    d.pick(&[nan, -nan, f64::INFINITY, f64::NEG_INFINITY, f64::MAX])
}

pub fn backward(d: &mut Dice) -> Request {
    let mut r = good(d);
    let back = d.pick(&[1, 9, 10, 1_000, r.to.time + 1]);
    r.from.time = r.to.time + back;
    r
}

pub fn signed_zeros(d: &mut Dice) -> Request {
    let mut r = good(d);
    for _ in 0..d.count(1, 6) {
        let zero = d.pick(&[0.0, -0.0]);
        match d.count(0, 3) {
            0 => *any_radius(d, &mut r) = zero,
            1 => first_moving(&mut r).conflict_squared = zero,
            _ => *any_coordinate(d, &mut r) = zero,
        }
    }
    r
}

pub fn subnormals(d: &mut Dice) -> Request {
    let mut r = good(d);
    for _ in 0..d.count(1, 6) {
        let tiny = f64::from_bits(d.word() >> d.count(12, 63));
        match d.count(0, 3) {
            0 => *any_radius(d, &mut r) = tiny,
            1 => first_moving(&mut r).conflict_squared = tiny,
            _ => *any_coordinate(d, &mut r) = tiny * d.sign(),
        }
    }
    r
}

/// A pattern that is anything, or one whose size is on the floor.
fn pattern(d: &mut Dice) -> f64 {
    let word = d.word();
    if d.one_in(8) {
        return f64::from_bits(word);
    }
    let exponent = d.whole(1023 - 40, 1023 + 12) as u64;
    f64::from_bits(word & 0x800f_ffff_ffff_ffff | exponent << 52)
}

pub fn patterns(d: &mut Dice) -> Request {
    let mut r = good(d);
    for _ in 0..d.count(1, 4) {
        match d.count(0, 5) {
            0 => *any_radius(d, &mut r) = pattern(d),
            1 => first_moving(&mut r).conflict_squared = pattern(d),
            _ => *any_coordinate(d, &mut r) = pattern(d),
        }
    }
    r
}

pub fn damaged(d: &mut Dice) -> Vec<u8> {
    let mut bytes = stream::written(&good(d));
    match d.count(0, 5) {
        0 => bytes.truncate(d.count(0, bytes.len() - 1)),
        1 => bytes.push(d.pick(&[0, 1, 255])),
        2 => {
            let last = bytes.len() - 1;
            bytes[last] |= 1;
        }
        3 => bytes[0] = bytes[0] & 0x0f | (d.whole(0, 15) as u8) << 4,
        _ => {
            for _ in 0..d.count(1, 3) {
                let bit = d.count(0, bytes.len() * 8 - 1);
                bytes[bit / 8] ^= 1 << (bit % 8);
            }
        }
    }
    bytes
}

pub fn noise(d: &mut Dice) -> Vec<u8> {
    let mut bytes: Vec<u8> = (0..d.count(0, 400)).map(|_| d.word() as u8).collect();
    if d.one_in(2) {
        // the right edition, and few obstacles
        if let Some(first) = bytes.first_mut() {
            *first = 0x10;
        }
    }
    bytes
}
