//! The stream of `plan`: fields packed bit by bit, most significant first (RULES, section 14).

use crate::request::Request;
use terms::{Obstacle, Profile, Scene, Waypoint};

const EDITION: u64 = 1;

/// The stream of a request. Fields wider than the format holds are cut to it.
pub fn written(r: &Request) -> Vec<u8> {
    let mut out = Writer::default();
    out.put(EDITION, 4);
    out.put(r.scene.obstacles.len() as u64, 6);
    out.put(r.budget.into(), 16);
    out.profile(r.scene.agent);
    out.waypoint(&r.from);
    out.waypoint(&r.to);
    for o in &r.scene.obstacles {
        out.profile(o.profile);
        out.double(o.conflict_squared);
        out.put(o.waypoints.len() as u64, 9);
        o.waypoints.iter().for_each(|w| out.waypoint(w));
    }
    out.bytes
}

/// The request of a stream, or none where it is malformed: short, a set fill bit, a byte more, or
/// another edition. Counts and values are as they stand.
pub fn read(bytes: &[u8]) -> Option<Request> {
    let mut input = Reader { bytes, at: 0 };
    if input.take(4)? != EDITION {
        return None;
    }
    let obstacles = input.take(6)?;
    let budget = input.take(16)? as u16;
    let agent = input.profile()?;
    let (from, to) = (input.waypoint()?, input.waypoint()?);
    let obstacles = (0..obstacles)
        .map(|_| input.obstacle())
        .collect::<Option<Vec<_>>>()?;
    input.ended().then_some(Request {
        budget,
        scene: Scene { agent, obstacles },
        from,
        to,
    })
}

#[derive(Default)]
struct Writer {
    bytes: Vec<u8>,
    used: usize,
}

impl Writer {
    fn put(&mut self, value: u64, bits: u32) {
        for bit in (0..bits).rev() {
            if self.used % 8 == 0 {
                self.bytes.push(0);
            }
            let last = self.bytes.len() - 1;
            self.bytes[last] |= ((value >> bit & 1) as u8) << (7 - self.used % 8);
            self.used += 1;
        }
    }

    fn double(&mut self, x: f64) {
        self.put(x.to_bits(), 64);
    }

    fn profile(&mut self, p: Profile) {
        self.double(p.footprint);
        self.double(p.follow);
    }

    fn waypoint(&mut self, w: &Waypoint) {
        self.put(w.time as u64, 50);
        self.double(w.x);
        self.double(w.y);
    }
}

struct Reader<'a> {
    bytes: &'a [u8],
    at: usize,
}

impl Reader<'_> {
    fn take(&mut self, bits: usize) -> Option<u64> {
        if self.bytes.len() * 8 < self.at + bits {
            return None;
        }
        let field = self.at..self.at + bits;
        self.at += bits;
        Some(field.fold(0, |value, i| {
            value << 1 | u64::from(self.bytes[i / 8] >> (7 - i % 8) & 1)
        }))
    }

    fn double(&mut self) -> Option<f64> {
        self.take(64).map(f64::from_bits)
    }

    fn profile(&mut self) -> Option<Profile> {
        let (footprint, follow) = (self.double()?, self.double()?);
        Some(Profile { footprint, follow })
    }

    fn waypoint(&mut self) -> Option<Waypoint> {
        let time = self.take(50)? as i64;
        Some(Waypoint::new(time, self.double()?, self.double()?))
    }

    fn obstacle(&mut self) -> Option<Obstacle> {
        let profile = self.profile()?;
        let conflict_squared = self.double()?;
        let count = self.take(9)?;
        let waypoints = (0..count)
            .map(|_| self.waypoint())
            .collect::<Option<Vec<_>>>()?;
        Some(Obstacle {
            profile,
            conflict_squared,
            waypoints,
        })
    }

    /// Only zero bits are left, and none of them is a byte's first.
    fn ended(&mut self) -> bool {
        let left = self.bytes.len() * 8 - self.at;
        left < 8 && self.take(left) == Some(0)
    }
}
