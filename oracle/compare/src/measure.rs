//! Times two sides on the same inputs, in rounds that take turns, and says what a call takes and
//! how the two compare.

use crate::clock;
use std::fmt;
use std::time::Duration;

/// A round takes at least so much processor time on each side, so that reading the clock does not
/// count.
const ROUND: Duration = Duration::from_millis(20);

/// One pass over all inputs; what it hands back keeps the work from being left out.
pub type Pass<'a> = Box<dyn FnMut() -> u64 + 'a>;

/// The same inputs for both sides.
pub struct Sides<'a> {
    /// The calls of one pass.
    pub calls: usize,
    pub proved: Pass<'a>,
    pub rust: Pass<'a>,
}

/// What the rounds of one side took, in nanoseconds a call.
#[derive(Clone, Debug, PartialEq)]
pub struct Times {
    pub each: Vec<f64>,
    /// The calls of one round.
    pub calls: usize,
}

/// Both sides, round by round.
#[derive(Clone, Debug, PartialEq)]
pub struct Measured {
    pub proved: Times,
    pub rust: Times,
}

/// Five numbers that say how a list is spread.
#[derive(Clone, Copy, Debug, PartialEq)]
pub struct Spread {
    pub least: f64,
    pub lower: f64,
    pub median: f64,
    pub upper: f64,
    pub most: f64,
}

impl Spread {
    /// Of a list that is not empty.
    pub fn of(list: &[f64]) -> Self {
        let mut sorted = list.to_vec();
        sorted.sort_by(f64::total_cmp);
        Spread {
            least: at(&sorted, 0.0),
            lower: at(&sorted, 0.25),
            median: at(&sorted, 0.5),
            upper: at(&sorted, 0.75),
            most: at(&sorted, 1.0),
        }
    }
}

/// What stands a part of the way through a sorted list, between two elements in proportion.
fn at(sorted: &[f64], part: f64) -> f64 {
    let place = part * (sorted.len() - 1) as f64;
    let (below, above) = (
        sorted[place.floor() as usize],
        sorted[place.ceil() as usize],
    );
    below + (above - below) * place.fract()
}

impl Times {
    pub fn median(&self) -> f64 {
        Spread::of(&self.each).median
    }
}

impl Measured {
    /// The ratio of the medians.
    pub fn ratio(&self) -> f64 {
        self.proved.median() / self.rust.median()
    }

    /// The ratios of the rounds.
    pub fn ratios(&self) -> Spread {
        let pairs = self.proved.each.iter().zip(&self.rust.each);
        let each: Vec<f64> = pairs.map(|(ours, theirs)| ours / theirs).collect();
        Spread::of(&each)
    }
}

impl fmt::Display for Measured {
    fn fmt(&self, f: &mut fmt::Formatter<'_>) -> fmt::Result {
        let spread = self.ratios();
        write!(
            f,
            "proved {}, the Rust {}, ratio {:.2} (quartiles {:.2} to {:.2}, all {:.2} to {:.2}), \
             {} rounds of {} and {} calls",
            told(self.proved.median()),
            told(self.rust.median()),
            self.ratio(),
            spread.lower,
            spread.upper,
            spread.least,
            spread.most,
            self.proved.each.len(),
            self.proved.calls,
            self.rust.calls,
        )
    }
}

/// Nanoseconds in a unit that suits them.
pub fn told(ns: f64) -> String {
    match ns {
        ns if ns < 1e3 => format!("{ns:.1} ns"),
        ns if ns < 1e6 => format!("{:.2} us", ns / 1e3),
        ns => format!("{:.2} ms", ns / 1e6),
    }
}

/// So many rounds, the proved side and the Rust in turn, after one of each that does not count.
pub fn measure(mut sides: Sides, rounds: usize) -> Measured {
    let calls = sides.calls;
    let passes = [passes(&mut sides.proved), passes(&mut sides.rust)];
    let mut each = [Vec::new(), Vec::new()];
    for _ in 0..rounds {
        each[0].push(round(&mut sides.proved, passes[0]) / calls as f64);
        each[1].push(round(&mut sides.rust, passes[1]) / calls as f64);
    }
    let [proved, rust] = each;
    let times = |each, passes| Times {
        each,
        calls: calls * passes,
    };
    Measured {
        proved: times(proved, passes[0]),
        rust: times(rust, passes[1]),
    }
}

/// How many passes a round of this side needs.
fn passes(pass: &mut Pass) -> usize {
    let mut count = 1;
    loop {
        let took = round(pass, count) * count as f64;
        if took >= ROUND.as_nanos() as f64 {
            return count;
        }
        count *= 2;
    }
}

/// The nanoseconds of one pass, of so many.
fn round(pass: &mut Pass, passes: usize) -> f64 {
    let began = clock::used();
    for _ in 0..passes {
        std::hint::black_box(pass());
    }
    (clock::used() - began).as_nanos() as f64 / passes as f64
}

#[cfg(test)]
mod tests {
    use super::*;

    fn times(each: &[f64]) -> Times {
        Times {
            each: each.to_vec(),
            calls: 1,
        }
    }

    #[test]
    fn a_median_is_in_the_middle() {
        assert_eq!(times(&[3.0, 1.0, 2.0]).median(), 2.0);
        assert_eq!(times(&[4.0, 1.0, 2.0, 3.0]).median(), 2.5);
        assert_eq!(times(&[7.0]).median(), 7.0);
    }

    #[test]
    fn a_spread_has_the_ends_and_the_quartiles() {
        let spread = Spread::of(&[5.0, 1.0, 4.0, 2.0, 3.0]);
        let expected = Spread {
            least: 1.0,
            lower: 2.0,
            median: 3.0,
            upper: 4.0,
            most: 5.0,
        };
        assert_eq!(spread, expected);
    }

    #[test]
    fn a_ratio_is_of_the_medians_and_its_spread_of_the_rounds() {
        let measured = Measured {
            proved: times(&[10.0, 20.0, 60.0]),
            rust: times(&[5.0, 2.0, 4.0]),
        };
        assert_eq!(measured.ratio(), 5.0);
        let spread = measured.ratios();
        assert_eq!(
            (spread.least, spread.median, spread.most),
            (2.0, 10.0, 15.0)
        );
    }

    #[test]
    fn the_sides_take_turns_on_the_same_inputs() {
        let turns = std::cell::RefCell::new(Vec::new());
        let slow = |side: char| {
            turns.borrow_mut().push(side);
            let began = clock::used();
            while clock::used() - began < ROUND {}
            0
        };
        let sides = Sides {
            calls: 2,
            proved: Box::new(|| slow('p')),
            rust: Box::new(|| slow('r')),
        };
        let measured = measure(sides, 2);
        assert_eq!(turns.into_inner(), ['p', 'r', 'p', 'r', 'p', 'r']);
        assert_eq!((measured.proved.calls, measured.rust.each.len()), (2, 2));
        assert!(measured.proved.each[0] >= ROUND.as_nanos() as f64 / 2.0);
    }

    #[test]
    fn a_time_is_told_in_its_unit() {
        assert_eq!(told(12.34), "12.3 ns");
        assert_eq!(told(12_340.0), "12.34 us");
        assert_eq!(told(12_340_000.0), "12.34 ms");
    }
}
