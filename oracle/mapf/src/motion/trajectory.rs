//! A trajectory with the legs that document 01 gives, in the place of the repository's own
//! `trajectory.rs` (RULES 2.6 to 2.8): both leave out legs that are over or not yet begun, and at a
//! boundary they differ.

use super::{TimePoint, Waypoint};

/// Two or more waypoints, their times strictly rising.
#[derive(Clone, Debug)]
pub struct Trajectory<W: Waypoint> {
    waypoints: Vec<W>,
}

impl<W: Waypoint> Trajectory<W> {
    // the name and the answer are those of the published one
    #[allow(clippy::should_implement_trait, clippy::result_unit_err)]
    pub fn from_iter<I: IntoIterator<Item = W>>(waypoints: I) -> Result<Self, ()> {
        let waypoints: Vec<W> = waypoints.into_iter().collect();
        if waypoints.len() < 2 {
            return Err(());
        }
        Ok(Trajectory { waypoints })
    }

    pub fn initial_motion(&self) -> &W {
        &self.waypoints[0]
    }

    pub fn finish_motion(&self) -> &W {
        &self.waypoints[self.waypoints.len() - 1]
    }

    pub fn finish_time(&self) -> Option<TimePoint> {
        Some(self.finish_motion().time())
    }

    /// All waypoints, and by `pairs` all legs.
    pub fn iter(&self) -> Waypoints<'_, W> {
        Waypoints(&self.waypoints)
    }

    /// The legs whose end is at or after `begin`.
    pub fn iter_from(&self, begin: TimePoint) -> Waypoints<'_, W> {
        let over = self.waypoints[1..].iter().take_while(|w| w.time() < begin);
        Waypoints(&self.waypoints[over.count()..])
    }

    /// The legs whose end is at or after `begin` and whose start is at or before `end`.
    pub fn iter_range(&self, begin: TimePoint, end: TimePoint) -> Waypoints<'_, W> {
        let Waypoints(left) = self.iter_from(begin);
        let begun = left.iter().take_while(|w| w.time() <= end).count();
        #[cfg(feature = "watched")]
        super::conflict::reach::watch::way_is_read(begin, end, begun > 0 && left.len() > 1);
        match begun {
            0 => Waypoints(&[]),
            _ => Waypoints(&left[..left.len().min(begun + 1)]),
        }
    }
}

/// Waypoints in order.
pub struct Waypoints<'a, W>(&'a [W]);

impl<'a, W: Clone> Waypoints<'a, W> {
    /// The legs between them.
    pub fn pairs(self) -> impl Iterator<Item = [W; 2]> + 'a {
        self.0
            .windows(2)
            .map(|leg| [leg[0].clone(), leg[1].clone()])
    }
}

impl<W: Clone> Iterator for Waypoints<'_, W> {
    type Item = W;

    fn next(&mut self) -> Option<W> {
        let (first, rest) = self.0.split_first()?;
        self.0 = rest;
        Some(first.clone())
    }
}
