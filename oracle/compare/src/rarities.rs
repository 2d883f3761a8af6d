//! Questions about hints that the requests of the generator seldom ask: carts that sidle onto the
//! agent's way or off it, carts that dart along it within nanoseconds, and carts that stir without
//! a direction.

use crate::draw::{legs_left, on_floor};
use planner::domain::LATEST;
use planner::generate::dice::Dice;
use planner::hint_walk::{self, Branch, NeverNear};
use planner::marked::S;
use planner::request::Request;
use std::f64::consts::FRAC_1_SQRT_2;
use terms::{Obstacle, Profile, Scene, Waypoint};

/// The grid of the diagonal darts, in lines to a metre.
const GRID: f64 = 1_048_576.0;

/// Where the agent starts, where it heads, and how near a cart may come.
struct Line {
    from: Waypoint,
    u: (f64, f64),
    profile: Profile,
}

impl Line {
    /// Lays the agent's way about the middle of the floor, from a start and for so long, in
    /// nanoseconds, and gives the agent another profile.
    fn laid(d: &mut Dice, request: &mut Request, length: f64, times: (i64, i64)) -> Self {
        let u = d.pick(&[(0.6, 0.8), (-0.8, 0.6), (0.28, -0.96), (-0.352, -0.936)]);
        let mut middle = || d.number(-900.0, 900.0);
        let (x, y) = (middle() - length / 2.0 * u.0, middle() - length / 2.0 * u.1);
        let (start, lasts) = times;
        let profile = Profile {
            footprint: d.pick(&[0.25, 0.5, 2.0]),
            follow: 0.0,
        };
        request.from = Waypoint::new(start, x, y);
        request.to = Waypoint::new(start + lasts, x + length * u.0, y + length * u.1);
        request.scene.agent = profile;
        Line {
            from: request.from,
            u,
            profile,
        }
    }

    /// The distance that two such carts keep.
    fn clearance(&self) -> f64 {
        2.0 * self.profile.footprint
    }

    /// So many clearances along the way and aside of it, `after` nanoseconds from the start.
    fn at(&self, along: f64, aside: f64, after: i64) -> Waypoint {
        let (along, aside) = (along * self.clearance(), aside * self.clearance());
        let x = along * self.u.0 - aside * self.u.1;
        let y = along * self.u.1 + aside * self.u.0;
        Waypoint::new(
            (self.from.time + after).clamp(0, LATEST),
            on_floor(self.from.x + x),
            on_floor(self.from.y + y),
        )
    }

    fn cart(&self, start: Waypoint, end: Waypoint) -> Obstacle {
        Obstacle {
            profile: self.profile,
            conflict_squared: self.clearance() * self.clearance(),
            waypoints: vec![start, end],
        }
    }
}

/// An agent and a cart that meets it in a rare way, among the request's own obstacles in some cases.
pub fn asked(d: &mut Dice, request: &mut Request) {
    if !d.one_in(4) {
        request.scene.obstacles.clear();
    }
    let cart = match d.whole(0, 15) {
        0..=5 => sidler(d, request),
        6..=8 => dart(d, request),
        9..=11 => twin_dart(d, request),
        12 | 13 => late_dart(d, request),
        _ => stirrer(d, request),
    };
    let scene = &mut request.scene;
    if cart.legs() <= legs_left(scene) {
        let at = d.count(0, scene.obstacles.len());
        scene.obstacles.insert(at, cart);
    }
}

/// A cart that goes along hardly at all, onto the way or off it, about the agent's start or ahead:
/// of its two ends one is behind or comes first.
fn sidler(d: &mut Dice, request: &mut Request) -> Obstacle {
    let lasts = d.whole(4, 30) * S;
    let length = d.number(4.0, 30.0);
    let line = Line::laid(d, request, length, (100 * S, lasts));
    let aside = d.number(0.85, 0.99) * d.sign();
    let near = d.number(0.6, 0.98);
    let (along, first, second) = match d.whole(0, 3) {
        0 => (near, aside, 0.0),
        1 => (near, 0.0, aside),
        2 => (d.number(1.1, 4.0), aside, 0.0),
        _ => (d.number(-2.0, 0.1), 0.0, aside),
    };
    let begins = d.whole(-20, 5) * S;
    let stays = d.whole(20, 40) * S;
    let drift = d.pick(&[1e-6, 1e-3, 0.05]);
    line.cart(
        line.at(along, first, begins),
        line.at(along + drift, second, begins + stays),
    )
}

/// A cart that darts along beside the agent's way within a few nanoseconds, so that its motion
/// across is nothing but rounding; the agent does so too in most cases.
fn dart(d: &mut Dice, request: &mut Request) -> Obstacle {
    let lasts = d.pick(&[10, 10, 10, 11, S]);
    let length = d.number(6_000.0, 18_000.0);
    let start = d.whole(0, 9) * S;
    let line = Line::laid(d, request, length, (start, lasts));
    let aside = d.number(0.9, 2.5) * d.sign();
    let far = length / line.clearance();
    let begins = d.whole(-1, 9);
    line.cart(
        line.at(far * d.number(-0.1, 0.5), aside, begins),
        line.at(far * d.number(0.6, 1.1), aside, begins + d.whole(1, 4)),
    )
}

/// How often a twin dart is drawn at most; about one in 500 is what is looked for.
const DRAWN: usize = 400;

/// A dart on a diagonal, exactly at the clearance of an agent that is one too, drawn until the cart
/// is near the agent's line and the agent not near the cart's, which rounding alone decides.
fn twin_dart(d: &mut Dice, request: &mut Request) -> Obstacle {
    let mut cart = diagonal_dart(d, request);
    for _ in 1..DRAWN {
        let scene = Scene {
            agent: request.scene.agent,
            obstacles: vec![cart],
        };
        let walked = hint_walk::walk(request.from, request.to, &scene);
        let apart = Branch::NoWaitingPlace(NeverNear::Far);
        cart = match walked.branches.contains(&apart) {
            true => return scene.obstacles[0].clone(),
            false => diagonal_dart(d, request),
        };
    }
    cart
}

/// All places are on a grid, so that each of the two goes as far in x as in y.
fn diagonal_dart(d: &mut Dice, request: &mut Request) -> Obstacle {
    let grid = |x: f64| (x * GRID).round() / GRID;
    let (right, up) = (d.sign(), d.sign());
    let far = grid(d.number(9_900.0, 11_300.0));
    let (x, y) = (d.number(-900.0, 900.0), d.number(-900.0, 900.0));
    let (x, y) = (grid(x - right * far / 2.0), grid(y - up * far / 2.0));
    let aside = grid(d.number(0.2, 2.0) * d.sign());
    let profile = Profile {
        footprint: aside.abs() * FRAC_1_SQRT_2,
        follow: 0.0,
    };
    let start = d.whole(0, 9) * S;
    let at = |along: f64, aside: f64, time: i64| {
        let (x, y) = (
            x + right * along - up * aside,
            y + up * along + right * aside,
        );
        Waypoint::new(time, x, y)
    };
    let first = grid(far * d.number(-0.25, -0.2));
    let last = first + grid(far * d.number(0.9, 1.1));
    request.from = at(0.0, 0.0, start);
    request.to = at(far, 0.0, start + 10);
    request.scene.agent = profile;
    Obstacle {
        profile,
        conflict_squared: 1.0,
        waypoints: vec![
            at(first, aside, start),
            at(last, aside, start + d.whole(1, 3)),
        ],
    }
}

/// A cart abreast of the agent and hardly slower, both so fast and so late that the time until it
/// is ahead is lost in the rounding.
fn late_dart(d: &mut Dice, request: &mut Request) -> Obstacle {
    let lasts = d.whole(10, 20);
    let length = d.number(4_000.0, 9_000.0);
    let start = LATEST - d.whole(100, 900);
    let line = Line::laid(d, request, length, (start, lasts));
    let slower = 1.0 - d.spread(1e-9, 1e-5);
    let far = length / line.clearance() * slower;
    let (along, aside) = (d.number(0.0, 0.5), d.number(1.01, 1.5) * d.sign());
    line.cart(line.at(along, aside, 0), line.at(along + far, aside, lasts))
}

/// A cart on the agent's way that stirs by no more than 1e-8 m, within nanoseconds.
fn stirrer(d: &mut Dice, request: &mut Request) -> Obstacle {
    let lasts = d.whole(4, 30) * S;
    let line = Line::laid(d, request, 20.0, (100 * S, lasts));
    let (along, aside) = (d.number(0.0, 4.0), d.number(-0.9, 0.9));
    let begins = d.whole(-20, 5) * S;
    let stirs = d.number(0.2, 1.05) * 1e-8 / line.clearance() * d.sign();
    line.cart(
        line.at(along, aside, begins),
        line.at(along, aside + stirs, begins + d.whole(1, 40)),
    )
}
