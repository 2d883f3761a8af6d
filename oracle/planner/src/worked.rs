//! Examples of hints that were worked out on paper, as inputs and what each must give. The working
//! stands above each example in `crates/hint_examples/specs`, in the same order.

use crate::hint_walk::{Branch, LineEnd};
use crate::marked::S;
use terms::{Leg, Obstacle, Profile, RankedHint, Scene, WaitHint, Waypoint};

/// The agent goes from (0, 0) along the x-axis; one cart of its own kind is about.
pub struct Example {
    pub name: &'static str,
    pub leg: Leg,
    pub scene: Scene,
    /// The hints in the order of finding, or the number of a refusal.
    pub found: Result<Vec<RankedHint>, u8>,
    /// A branch that it is for.
    pub branch: Branch,
}

impl Example {
    /// The hints by contour and reach.
    pub fn ranked(&self) -> Result<Vec<RankedHint>, u8> {
        let mut hints = self.found.clone()?;
        hints.sort_by(|a, b| {
            (a.contour, a.reach)
                .partial_cmp(&(b.contour, b.reach))
                .expect("numbers")
        });
        Ok(hints)
    }
}

const MS: i64 = S / 1000;

/// A footprint; the carts keep twice as much.
const HALF: f64 = 0.5;
const FIVE_EIGHTHS: f64 = 0.625;
const TWO_AND_A_HALF: f64 = 2.5;

/// So many metres at 1 m/s, from so many seconds on.
fn agent(metres: i64, start: i64) -> Leg {
    let at = |m: i64| Waypoint::new((start + m) * S, m as f64, 0.0);
    (at(0), at(metres))
}

/// Seconds, x and y.
type At = (i64, f64, f64);

/// A hint at x, until and contour in milliseconds.
fn hint((x, until, contour): (f64, i64, i64)) -> RankedHint {
    RankedHint {
        contour: contour * MS,
        reach: x,
        hint: WaitHint {
            x,
            y: 0.0,
            until: until * MS,
            obstacle: 0,
        },
    }
}

fn example(
    name: &'static str,
    leg: Leg,
    footprint: f64,
    cart: [At; 2],
    hints: &[(f64, i64, i64)],
    branch: Branch,
) -> Example {
    let profile = Profile {
        footprint,
        follow: 0.0,
    };
    let cart = Obstacle {
        profile,
        conflict_squared: 1.0,
        waypoints: cart.map(|(s, x, y)| Waypoint::new(s * S, x, y)).to_vec(),
    };
    Example {
        name,
        leg,
        scene: Scene {
            agent: profile,
            obstacles: vec![cart],
        },
        found: Ok(hints.iter().copied().map(hint).collect()),
        branch,
    }
}

fn following() -> Vec<Example> {
    vec![
        example(
            "a cart ahead that goes half as fast",
            agent(10, 0),
            HALF,
            [(0, 4.0, 0.0), (8, 8.0, 0.0)],
            &[(6.0, 8_000, 2_000)],
            Branch::FarAhead,
        ),
        example(
            "a cart within the follow distance",
            agent(10, 0),
            HALF,
            [(0, 1.5, 0.0), (8, 5.5, 0.0)],
            &[
                (0.0, 1_000, 1_000),
                (2.0, 7_000, 5_000),
                (6.0, 8_000, 2_000),
            ],
            Branch::WithinFollowDistance,
        ),
        example(
            "a cart that sets out when the agent has caught up",
            agent(10, 0),
            HALF,
            [(3, 4.0, 0.0), (7, 6.0, 0.0)],
            &[(2.0, 3_000, 1_000), (4.0, 7_000, 3_000)],
            Branch::CaughtUp,
        ),
        example(
            "a cart that set out before the agent",
            agent(10, 2),
            HALF,
            [(0, 3.0, 0.0), (8, 7.0, 0.0)],
            &[(8.0, 8_000, -2_000)],
            Branch::SeenAtAgentsStart,
        ),
        example(
            "a cart as fast as the agent",
            agent(10, 0),
            HALF,
            [(0, 4.0, 0.0), (4, 8.0, 0.0)],
            &[],
            Branch::Outpaced,
        ),
        example(
            "a cart at the agent's start",
            agent(10, 0),
            HALF,
            [(0, 0.5, 0.0), (8, 4.5, 0.0)],
            &[],
            Branch::TooNear,
        ),
        example(
            "a cart behind the agent",
            agent(10, 0),
            HALF,
            [(0, -2.0, 0.0), (8, 2.0, 0.0)],
            &[],
            Branch::Behind,
        ),
    ]
}

fn chases() -> Vec<Example> {
    let endless = example(
        "a chase of more hints than are kept",
        agent(1_000, 0),
        HALF,
        [(0, 4.0, 0.0), (1_000, 504.0, 0.0)],
        &[],
        Branch::Full,
    );
    vec![
        example(
            "a chase until the cart is gone",
            agent(16, 0),
            HALF,
            [(0, 4.0, 0.0), (24, 16.0, 0.0)],
            &[
                (6.0, 10_000, 4_000),
                (10.0, 18_000, 8_000),
                (14.0, 24_000, 10_000),
            ],
            Branch::LegOver,
        ),
        example(
            "a chase to the end of the way",
            agent(8, 0),
            HALF,
            [(0, 4.0, 0.0), (20, 14.0, 0.0)],
            &[(6.0, 10_000, 4_000), (8.0, 16_000, 8_000)],
            Branch::LineReached,
        ),
        Example {
            found: Err(10),
            ..endless
        },
    ]
}

fn standing() -> Vec<Example> {
    vec![
        example(
            "a cart that stands on the way",
            agent(10, 0),
            HALF,
            [(0, 5.0, 0.0), (6, 5.0, 0.0)],
            &[(4.0, 6_000, 2_000)],
            Branch::EndsLevel,
        ),
        example(
            "a cart that stands behind the agent",
            agent(10, 0),
            HALF,
            [(0, -1.0, 0.0), (6, -1.0, 0.0)],
            &[],
            Branch::BothEndsPassed,
        ),
        example(
            "a cart that stands beyond the goal",
            agent(10, 0),
            HALF,
            [(0, 11.0, 0.0), (6, 11.0, 0.0)],
            &[(10.0, 6_000, -4_000)],
            Branch::EndsLevel,
        ),
        example(
            "a cart that stands beside the way",
            agent(10, 0),
            FIVE_EIGHTHS,
            [(0, 5.0, 0.75), (6, 5.0, 0.75)],
            &[(4.0, 6_000, 2_000)],
            Branch::EndsLevel,
        ),
        example(
            "a cart that draws onto the way",
            agent(10, 0),
            FIVE_EIGHTHS,
            [(0, 5.0, 0.75), (12, 5.0, 0.0)],
            &[(3.75, 12_000, 8_250), (3.75, 12_000, 8_250)],
            Branch::SecondEndSooner,
        ),
        example(
            "a cart that leaves the way before the agent comes",
            agent(10, 0),
            HALF,
            [(0, 5.0, 0.0), (8, 5.0, 4.0)],
            &[],
            Branch::SecondEndAside,
        ),
    ]
}

fn oncoming() -> Vec<Example> {
    vec![
        example(
            "a cart that comes to meet the agent",
            agent(10, 0),
            HALF,
            [(0, 10.0, 0.0), (5, 5.0, 0.0)],
            &[(4.0, 5_000, 1_000)],
            Branch::OncomingHint,
        ),
        example(
            "a cart that comes past the agent's start",
            agent(10, 0),
            HALF,
            [(0, 10.0, 0.0), (11, -1.0, 0.0)],
            &[],
            Branch::OncomingPassed,
        ),
        example(
            "a cart that comes and turns off",
            agent(10, 0),
            HALF,
            [(0, 9.0, 0.0), (1, 5.0, 3.0)],
            &[],
            Branch::OncomingAside,
        ),
        example(
            "a cart that was gone before the agent set out",
            agent(10, 3),
            HALF,
            [(0, 2.0, 0.0), (2, 4.0, 0.0)],
            &[(3.0, 2_000, -4_000)],
            Branch::EndsBeforeStart,
        ),
    ]
}

fn crossing_at_the_goal() -> Vec<Example> {
    vec![
        example(
            "a cart across the goal that goes on beyond it",
            agent(16, 0),
            TWO_AND_A_HALF,
            [(8, 10.0, -8.0), (12, 22.0, 8.0)],
            &[(9.75, 11_000, 1_250)],
            Branch::Obstruction(LineEnd::Cut),
        ),
        example(
            "a cart across the goal that comes from beyond it",
            agent(16, 0),
            TWO_AND_A_HALF,
            [(7, 25.0, -12.0), (12, 10.0, 8.0)],
            &[(9.75, 11_250, 1_500)],
            Branch::Obstruction(LineEnd::NotPast),
        ),
    ]
}

/// All of them.
pub fn examples() -> Vec<Example> {
    [
        following(),
        chases(),
        standing(),
        oncoming(),
        crossing_at_the_goal(),
    ]
    .into_iter()
    .flatten()
    .collect()
}
