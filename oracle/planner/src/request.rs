//! A request: what the stream of `plan` says (RULES, section 14).

use terms::{Profile, Scene, Waypoint};

#[derive(Clone, Debug, PartialEq)]
pub struct Request {
    pub budget: u16,
    pub scene: Scene,
    pub from: Waypoint,
    pub to: Waypoint,
}

impl Request {
    /// An agent alone on the floor.
    pub fn alone(agent: Profile, from: Waypoint, to: Waypoint) -> Self {
        Request {
            budget: 4096,
            scene: Scene {
                agent,
                obstacles: Vec::new(),
            },
            from,
            to,
        }
    }
}
