//! The root against the platform's, bit for bit (RULES 6.5, 18.12).

use crate::proved;
use crate::report::Report;
use crate::room::{lend, Expected};
use planner::generate::dice::Dice;

/// The refusal of a root.
const NUMBER: u64 = 1;

/// Digits at the ends and around the middle of a binade.
const DIGITS: [u64; 8] = [
    0,
    1,
    2,
    (1 << 51) - 1,
    1 << 51,
    (1 << 51) + 1,
    (1 << 52) - 2,
    (1 << 52) - 1,
];

/// The rooms that are lent; one of them is too small.
const ROOMS: [usize; 8] = [1, 2, 3, 1, 2, 3, 1, 0];

/// How many patterns the ends of all binades are: 2,048 exponents, two signs.
const ENDS: u64 = 2048 * 2 * DIGITS.len() as u64;

pub fn compare(seed: u64, count: u64) -> Report {
    let mut report = Report::default();
    for n in 0..count {
        let (kind, x) = number(seed, n);
        let expected = expected(x);
        // the kinds take turns by four, the rooms by eight after each turn
        let len = ROOMS[(n / 4 % 8) as usize];
        let handed = lend(len, |out| proved::square_root(x, out));
        report.add(kind, &handed, &expected.in_room(len), || {
            format!("the root of {x:e} ({:016x}) in {len} words", x.to_bits())
        });
    }
    report
}

/// What the platform's root says, and what is refused.
fn expected(x: f64) -> Expected {
    if x.is_nan() || x.is_infinite() || x < 0.0 {
        return Expected::Refused(NUMBER);
    }
    Expected::Words(vec![x.sqrt().to_bits()])
}

/// The number of a case: the ends of all binades first, then squares and their neighbours,
/// subnormals and arbitrary patterns in turn.
pub fn number(seed: u64, n: u64) -> (&'static str, f64) {
    if n < ENDS {
        let (digits, rest) = (DIGITS[(n % 8) as usize], n / 8);
        return ("ends of binades", f64::from_bits(rest << 52 | digits));
    }
    let mut dice = Dice::new(seed, n);
    match n % 4 {
        0 => ("squares", near_a_square(&mut dice)),
        1 => (
            "subnormals",
            f64::from_bits(dice.word() >> 12 >> dice.count(0, 51)),
        ),
        2 => ("above zero", f64::from_bits(dice.word() >> 1)),
        _ => ("any pattern", f64::from_bits(dice.word())),
    }
}

/// A square of a number of at most 26 digits, which is exact, or of any number, or a neighbour.
fn near_a_square(d: &mut Dice) -> f64 {
    let y = if d.one_in(2) {
        (d.word() >> 38) as f64
    } else {
        let exponent = d.whole(1023 - 500, 1023 + 500) as u64;
        f64::from_bits(exponent << 52 | d.word() >> 12)
    };
    let steps = d.pick(&[0, 0, 1, 2, u64::MAX, u64::MAX - 1]);
    f64::from_bits((y * y).to_bits().wrapping_add(steps))
}
