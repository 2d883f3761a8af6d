//! The fixed list of answers that the proved program `replay` goes through: one record a line, in
//! 16 hexadecimal digits each: the call, its two arguments, the number handed back, the word given.

use crate::generate::dice::Dice;
use mapf::fault::caught;
use std::fmt::Write;
use time_point::{Duration, TimePoint};

const REACH: i64 = 1 << 53;

/// Instants and spans around every size that matters.
const TIMES: [i64; 15] = [
    0,
    1,
    -1,
    9,
    999_999_999,
    1_000_000_000,
    -1_500_000_000,
    1_000_000_000_000_000,
    REACH - 1,
    REACH,
    REACH + 1,
    -REACH,
    -REACH - 1,
    i64::MAX,
    i64::MIN,
];

/// Seconds around every size that matters: two pairs have their products at 2^53 and one step past it.
const SECONDS: [f64; 17] = [
    0.0,
    -0.0,
    1e-9,
    0.999_999_999e-9,
    -1.5,
    0.1,
    5e-324,
    1e6,
    f64::NAN,
    f64::INFINITY,
    f64::NEG_INFINITY,
    f64::MAX,
    9_007_199.254_740_992,
    9_007_199.254_740_994,
    -9_007_199.254_740_992,
    -9_007_199.254_740_994,
    1.000_000_000_5,
];

/// A call on times, and the word that it gives.
#[derive(Clone, Copy, Debug)]
pub enum Call {
    SpanBetween(i64, i64),
    InstantAfter(i64, i64),
    SecondsOfInstant(i64),
    SecondsOfSpan(i64),
    InstantOfSeconds(f64),
    SpanOfSeconds(f64),
}

impl Call {
    /// The calls that a seed makes, the six taking turns.
    pub fn some(seed: u64, count: u64) -> impl Iterator<Item = Call> {
        (0..count).map(move |n| Call::one(&mut Dice::new(seed, n), n))
    }

    fn one(d: &mut Dice, n: u64) -> Call {
        match n % 6 {
            0 => Call::SpanBetween(time(d), time(d)),
            1 => Call::InstantAfter(time(d), time(d)),
            2 => Call::SecondsOfInstant(time(d)),
            3 => Call::SecondsOfSpan(time(d)),
            4 => Call::InstantOfSeconds(seconds(d)),
            _ => Call::SpanOfSeconds(seconds(d)),
        }
    }

    /// The number handed back and the word given, by the rules on time (RULES 6.1 to 6.4).
    pub fn answer(self) -> (u64, u64) {
        let given = caught(|| match self {
            Call::SpanBetween(earlier, later) => {
                (TimePoint::new(later) - TimePoint::new(earlier)).nanos as u64
            }
            Call::InstantAfter(t, d) => {
                (TimePoint::new(t) + Duration::new(d)).nanos_since_zero as u64
            }
            Call::SecondsOfInstant(t) => TimePoint::new(t).as_secs_f64().to_bits(),
            Call::SecondsOfSpan(d) => Duration::new(d).as_secs_f64().to_bits(),
            Call::InstantOfSeconds(s) => TimePoint::from_secs_f64(s).nanos_since_zero as u64,
            Call::SpanOfSeconds(s) => Duration::from_secs_f64(s).nanos as u64,
        });
        match given {
            Ok(word) => (0, word),
            Err(fault) => (fault.number().expect("times only stray").into(), 0),
        }
    }

    /// The call's number in the list and its arguments as words.
    pub fn words(self) -> [u64; 3] {
        match self {
            Call::SpanBetween(a, b) => [1, a as u64, b as u64],
            Call::InstantAfter(a, b) => [2, a as u64, b as u64],
            Call::SecondsOfInstant(t) => [3, t as u64, 0],
            Call::SecondsOfSpan(d) => [4, d as u64, 0],
            Call::InstantOfSeconds(s) => [5, s.to_bits(), 0],
            Call::SpanOfSeconds(s) => [6, s.to_bits(), 0],
        }
    }
}

fn time(d: &mut Dice) -> i64 {
    match d.count(0, 3) {
        0 => d.pick(&TIMES),
        1 => d.pick(&TIMES).saturating_add(d.whole(-3, 3)),
        2 => d.whole(-REACH, REACH),
        _ => d.word() as i64,
    }
}

fn seconds(d: &mut Dice) -> f64 {
    match d.count(0, 3) {
        0 => d.pick(&SECONDS),
        1 => d.spread(1e-12, 1e8) * d.sign(),
        2 => d.whole(-REACH, REACH) as f64 / 1e9,
        _ => f64::from_bits(d.word()),
    }
}

/// The list of a seed.
pub fn times(seed: u64, count: u64) -> String {
    let mut text = String::new();
    for call in Call::some(seed, count) {
        let ([kind, first, second], (number, word)) = (call.words(), call.answer());
        // writing to a String cannot fail
        let _ = writeln!(
            text,
            "{kind:016x} {first:016x} {second:016x} {number:016x} {word:016x}"
        );
    }
    text
}
