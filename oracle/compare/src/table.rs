//! The obstacles of a scene as the lists that a call is lent (RULES 20.7).

use planner::generate::dice::Dice;
use terms::Scene;

#[derive(Clone, Debug, Default)]
pub struct Table {
    pub starts: Vec<usize>,
    pub numbers: Vec<f64>,
    pub times: Vec<i64>,
    pub xs: Vec<f64>,
    pub ys: Vec<f64>,
}

impl Table {
    pub fn of(scene: &Scene) -> Self {
        let mut table = Table::default();
        for o in &scene.obstacles {
            table.starts.push(table.times.len());
            let numbers = [o.profile.footprint, o.profile.follow, o.conflict_squared];
            table.numbers.extend(numbers);
            for w in &o.waypoints {
                table.times.push(w.time);
                table.xs.push(w.x);
                table.ys.push(w.y);
            }
        }
        table
    }

    /// The bytes of its lists.
    pub fn bytes(&self) -> usize {
        let words = [self.starts.len(), self.numbers.len(), 3 * self.times.len()];
        8 * words.iter().sum::<usize>()
    }

    /// Makes lists that do not fit one another; false where this table cannot be spoilt so.
    pub fn spoil(&mut self, d: &mut Dice) -> bool {
        let some = !self.starts.is_empty();
        match d.whole(0, 6) {
            0 => self.xs.push(0.0),
            1 => self.ys.push(0.0),
            2 => self.times.push(i64::MAX),
            3 => self.numbers.push(0.0),
            4 if some => self.starts[0] = d.pick(&[1, usize::MAX]),
            5 if some => {
                let last = self.starts.len() - 1;
                self.starts[last] = self.times.len() + d.count(1, 2);
            }
            6 => {
                let more = 33 - self.starts.len().min(32);
                self.starts.extend(vec![self.times.len(); more]);
                self.numbers.extend(vec![0.0; 3 * more]);
            }
            _ => return false,
        }
        true
    }
}
