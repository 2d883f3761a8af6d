//! Ranked hints as words, the way the call for hints hands them out, and those that a call is lent
//! (RULES 11.8 to 11.10).

use std::cmp::Ordering;
use terms::{RankedHint, WaitHint};

/// A call may be lent so many.
pub const MOST: usize = 64;

/// The words of one.
const EACH: usize = 6;

/// The sizes of RULES 4.7.
pub const REACH: i64 = 1 << 53;
pub const FAR: f64 = 1e6;

/// How many there are, and six words each.
pub fn words(hints: &[RankedHint]) -> Vec<u64> {
    let six = |ranked: &RankedHint| {
        let hint = ranked.hint;
        [
            ranked.contour as u64,
            ranked.reach.to_bits(),
            hint.x.to_bits(),
            hint.y.to_bits(),
            hint.until as u64,
            hint.obstacle as u64,
        ]
    };
    let mut all = vec![hints.len() as u64];
    all.extend(hints.iter().flat_map(six));
    all
}

/// The hints of words; none where their count is past 64 or past the words.
pub fn read(words: &[u64]) -> Option<Vec<RankedHint>> {
    let (&count, rest) = words.split_first()?;
    let count = usize::try_from(count).ok().filter(|&n| n <= MOST)?;
    let those = rest.get(..EACH * count)?.chunks(EACH);
    let hint = |six: &[u64]| RankedHint {
        contour: six[0] as i64,
        reach: f64::from_bits(six[1]),
        hint: WaitHint {
            x: f64::from_bits(six[2]),
            y: f64::from_bits(six[3]),
            until: six[4] as i64,
            obstacle: six[5] as usize,
        },
    };
    Some(those.map(hint).collect())
}

/// Whether their numbers are in the table, with so many obstacles, and they are ranked.
pub fn allowed(hints: &[RankedHint], obstacles: usize) -> bool {
    let kept = |ns: i64| (-REACH..=REACH).contains(&ns);
    let placed = |c: f64| (-FAR..=FAR).contains(&c);
    let in_table = |ranked: &RankedHint| {
        let hint = ranked.hint;
        kept(ranked.contour)
            && ranked.reach.is_finite()
            && placed(hint.x)
            && placed(hint.y)
            && kept(hint.until)
            && hint.obstacle < obstacles
    };
    hints.iter().all(in_table)
        && hints
            .windows(2)
            .all(|pair| rank(&pair[0], &pair[1]) != Ordering::Greater)
}

/// By contour, and where contours are equal by reach (RULES 11.6).
pub fn rank(a: &RankedHint, b: &RankedHint) -> Ordering {
    let by_reach = a.reach.partial_cmp(&b.reach).unwrap_or(Ordering::Equal);
    a.contour.cmp(&b.contour).then(by_reach)
}
