//! A seeded generator of texts of a year's holds, of many kinds. A text depends on its seed and
//! number alone, so any one can be made again.

use super::{CREWS, LINES};
use crate::generate::dice::Dice;

/// What a text is about.
pub struct Kind {
    pub name: &'static str,
    /// What its texts have in common.
    pub words: &'static str,
    make: fn(&mut Dice) -> Vec<u8>,
}

const fn kind(name: &'static str, words: &'static str, make: fn(&mut Dice) -> Vec<u8>) -> Kind {
    Kind { name, words, make }
}

/// The kinds that take turns; the last, of long texts, comes seldom.
pub const KINDS: &[Kind] = &[
    kind("ordinary", "some crews' rounds, of minutes", ordinary),
    kind("one_crew", "one crew alone", one_crew),
    kind("all_crews", "each of the 64 crews, in any order", all_crews),
    kind("small", "holds about zero: means and remainders", small),
    kind("nothing", "an empty text, and almost empty ones", nothing),
    kind("limits", "numbers exactly at their limits", limits),
    kind("beyond", "a number one past its limit", beyond),
    kind("totals", "totals up to a limit and back", totals),
    kind("overflow", "totals one past a limit, or far", overflow),
    kind("both", "a malformed line and a total too far", both),
    kind("unended", "a last line without its newline", unended),
    kind("empty_lines", "an empty line somewhere", empty_lines),
    kind("spaces", "tabs, returns, spaces too many", spaces),
    kind("zeros", "leading zeros, -0, plus signs", zeros),
    kind("long", "numbers of 19 to 25 digits", long_numbers),
    kind("fields", "fields too many or too few", fields),
    kind("stray", "a byte changed, put in or left out", stray),
    kind("cut", "a good text cut anywhere", cut),
    kind("likely", "bytes that lines are made of", likely),
    kind("noise", "any bytes", noise),
    kind("great", "about 100,000 lines", great),
];

/// A long text comes once in so many.
pub const SELDOM: u64 = 2_500;

/// A text and its kind.
pub struct Text {
    pub kind: &'static Kind,
    pub bytes: Vec<u8>,
}

/// The text of a number, or one of a kind alone.
pub fn text(seed: u64, number: u64, only: Option<&'static Kind>) -> Text {
    let turns = KINDS.len() as u64 - 1;
    let turn = match number % SELDOM {
        0 if number > 0 => turns,
        _ => number % turns,
    };
    let kind = only.unwrap_or(&KINDS[turn as usize]);
    let mut dice = Dice::new(seed, number);
    let bytes = (kind.make)(&mut dice);
    Text { kind, bytes }
}

// ---- Lines.

type Lines = Vec<Vec<u8>>;

/// The largest hold and the least.
const MOST: i64 = i64::MAX;
const LEAST: i64 = i64::MIN;

fn line(crew: usize, round: u32, hold: i64) -> Vec<u8> {
    format!("{crew} {round} {hold}").into_bytes()
}

/// Each line with its newline.
fn joined(lines: &[Vec<u8>]) -> Vec<u8> {
    let mut text = Vec::new();
    for line in lines {
        text.extend(line);
        text.push(b'\n');
    }
    text
}

/// A hold of up to ten minutes, seldom below zero, seldom any number.
fn any_hold(d: &mut Dice) -> i64 {
    match d.count(0, 19) {
        0 => d.word() as i64,
        1 => 0,
        2..=4 => -d.whole(1, 60_000_000_000),
        _ => d.whole(0, 600_000_000_000),
    }
}

fn any_round(d: &mut Dice) -> u32 {
    match d.one_in(8) {
        true => d.word() as u32,
        false => d.whole(0, 40_000) as u32,
    }
}

fn any_crew(d: &mut Dice) -> usize {
    d.count(0, CREWS - 1)
}

/// A hold that no total of some thousand lines is taken far by.
fn near_zero(d: &mut Dice) -> i64 {
    d.whole(-1_000_000_000, 1_000_000_000)
}

/// Lines that are taken, of one to `crews` crews, whatever stands before or behind them.
fn good(d: &mut Dice, most_lines: usize, crews: usize) -> Lines {
    let working: Vec<usize> = (0..d.count(1, crews)).map(|_| any_crew(d)).collect();
    let lines = d.count(1, most_lines);
    let mut good = Lines::new();
    for _ in 0..lines {
        let (crew, round) = (d.pick(&working), any_round(d));
        good.push(line(crew, round, near_zero(d)));
    }
    good
}

/// A place to put a line: before all, behind all or between.
fn somewhere(d: &mut Dice, lines: &Lines) -> usize {
    match d.count(0, 3) {
        0 => 0,
        1 => lines.len(),
        _ => d.count(0, lines.len()),
    }
}

/// Good lines, and one of another make among them; the last newline may be missing.
fn with_one(d: &mut Dice, make: impl FnOnce(&mut Dice) -> Vec<u8>) -> Vec<u8> {
    let mut lines = good(d, 8, 6);
    let at = somewhere(d, &lines);
    lines.insert(at, make(d));
    let mut text = joined(&lines);
    if d.one_in(4) {
        text.pop();
    }
    text
}

// ---- Texts that are taken, but for totals by chance.

fn ordinary(d: &mut Dice) -> Vec<u8> {
    let working: Vec<usize> = (0..d.count(1, 12)).map(|_| any_crew(d)).collect();
    let lines: Lines = (0..d.count(1, 40))
        .map(|_| line(d.pick(&working), any_round(d), any_hold(d)))
        .collect();
    joined(&lines)
}

fn one_crew(d: &mut Dice) -> Vec<u8> {
    let crew = any_crew(d);
    let lines: Lines = (0..d.count(1, 30))
        .map(|_| line(crew, any_round(d), any_hold(d)))
        .collect();
    joined(&lines)
}

fn all_crews(d: &mut Dice) -> Vec<u8> {
    let first = any_crew(d);
    // a step without a divisor in common with 64 comes by every crew
    let step = 2 * d.count(0, 31) + 1;
    let mut lines = Lines::new();
    for n in 0..CREWS + d.count(0, 20) {
        lines.push(line((first + n * step) % CREWS, any_round(d), near_zero(d)));
    }
    joined(&lines)
}

fn small(d: &mut Dice) -> Vec<u8> {
    let crews = d.count(1, 3);
    let lines: Lines = (0..d.count(1, 20))
        .map(|n| line(n % crews, 7, d.whole(-5, 3)))
        .collect();
    joined(&lines)
}

fn nothing(d: &mut Dice) -> Vec<u8> {
    d.pick(&[
        "",
        "",
        "\n",
        "0",
        "0 0 0",
        "0 0 0\n",
        " ",
        "-",
        "\n\n",
        "0 0 0\n\n",
    ])
    .into()
}

fn at_limit(d: &mut Dice) -> Vec<u8> {
    let crew = d.pick(&[0, 63, 9, 10, 62]);
    let round = d.pick(&[0, u32::MAX, 1, u32::MAX - 1]);
    line(
        crew,
        round,
        d.pick(&[MOST, LEAST, 0, -1, 1, MOST - 1, LEAST + 1]),
    )
}

/// Few lines, so that most totals stay within.
fn limits(d: &mut Dice) -> Vec<u8> {
    let lines: Lines = (0..d.count(1, 4)).map(|_| at_limit(d)).collect();
    joined(&lines)
}

/// Holds of one crew that come to a total, and no further on the way: a first of the same sign, and
/// what is left.
fn coming_to(d: &mut Dice, total: i64) -> [i64; 2] {
    let first = match total {
        0.. => d.whole(0, total),
        _ => d.whole(total, 0),
    };
    [first, total - first]
}

/// A crew's lines, and those of others before and between.
fn among_others(d: &mut Dice, crew: usize, holds: &[i64]) -> Lines {
    let mut lines = Lines::new();
    for hold in holds {
        for _ in 0..d.count(0, 2) {
            let other = (crew + d.count(1, CREWS - 1)) % CREWS;
            lines.push(line(other, any_round(d), near_zero(d)));
        }
        lines.push(line(crew, any_round(d), *hold));
    }
    lines
}

fn totals(d: &mut Dice) -> Vec<u8> {
    let (crew, far) = (any_crew(d), d.pick(&[MOST, LEAST]));
    let mut holds = coming_to(d, far).to_vec();
    let back = far.signum() * d.whole(1, MOST);
    holds.extend(d.pick(&[[0, 0], [-back, back], [-far.signum(), far.signum()]]));
    joined(&among_others(d, crew, &holds))
}

/// A crew's holds of which the last takes the total past a limit.
fn too_far(d: &mut Dice) -> Vec<i64> {
    let far = d.pick(&[MOST, LEAST]);
    let mut holds = match d.one_in(3) {
        true => vec![far],
        false => coming_to(d, far).to_vec(),
    };
    let further = far.signum() * d.whole(1, MOST);
    holds.push(d.pick(&[far.signum(), far, further]));
    holds
}

fn overflow(d: &mut Dice) -> Vec<u8> {
    let (crew, holds) = (any_crew(d), too_far(d));
    let mut lines = among_others(d, crew, &holds);
    if d.one_in(2) {
        lines.extend(good(d, 4, 4));
    }
    let mut text = joined(&lines);
    if d.one_in(4) {
        text.pop();
    }
    text
}

// ---- Texts that are refused, most of them.

/// A malformed line before the one with which a total goes too far, behind it, or that one itself.
fn both(d: &mut Dice) -> Vec<u8> {
    let (crew, holds) = (any_crew(d), too_far(d));
    let mut lines = among_others(d, crew, &holds);
    let last = lines.len() - 1;
    match d.count(0, 2) {
        0 => lines.insert(d.count(0, last), malformed(d)),
        1 => lines.push(malformed(d)),
        _ => {
            let text = String::from_utf8_lossy(&lines[last]).into_owned();
            let tail = d.pick(&[" ", " 0", "x", "\r"]);
            lines[last] = match d.one_in(2) {
                true => format!("{text}{tail}").into_bytes(),
                false => format!("0{text}").into_bytes(),
            };
        }
    }
    if d.one_in(3) {
        lines.extend(good(d, 3, 3));
    }
    joined(&lines)
}

/// A line that is malformed in one of many ways.
fn malformed(d: &mut Dice) -> Vec<u8> {
    match d.count(0, 6) {
        0 => Vec::new(),
        1 => one_beyond(d),
        2 => spaced(d),
        3 => zeroed(d),
        4 => long_number(d),
        5 => of_fields(d),
        _ => vec![d.word() as u8 | 128; d.count(1, 3)],
    }
}

fn one_beyond(d: &mut Dice) -> Vec<u8> {
    let (crew, round, hold) = d.pick(&[
        ("64", "1", "1"),
        ("65", "0", "-1"),
        ("100", "1", "1"),
        ("640", "1", "1"),
        ("-1", "1", "1"),
        ("0", "4294967296", "0"),
        ("63", "4294967300", "5"),
        ("1", "42949672950", "5"),
        ("1", "-1", "5"),
        ("2", "7", "9223372036854775808"),
        ("2", "7", "9223372036854775810"),
        ("2", "7", "-9223372036854775809"),
        ("2", "7", "-9223372036854775810"),
        ("2", "7", "18446744073709551616"),
        ("2", "7", "-18446744073709551615"),
    ]);
    format!("{crew} {round} {hold}").into_bytes()
}

fn beyond(d: &mut Dice) -> Vec<u8> {
    with_one(d, one_beyond)
}

fn unended(d: &mut Dice) -> Vec<u8> {
    let mut lines = good(d, 8, 4);
    match d.count(0, 3) {
        0 => lines.push(malformed(d)),
        1 => {
            let (crew, holds) = (any_crew(d), too_far(d));
            lines.extend(among_others(d, crew, &holds));
        }
        _ => lines.push(at_limit(d)),
    }
    let mut text = joined(&lines);
    text.pop();
    text
}

fn empty_lines(d: &mut Dice) -> Vec<u8> {
    with_one(d, |_| Vec::new())
}

fn spaced(d: &mut Dice) -> Vec<u8> {
    let forms = [
        " 1 2 3", "1 2 3 ", "1  2 3", "1 2  3", "1\t2 3", "1 2\t3", "1 2 3\t", "\t1 2 3",
        "1 2 3\r", "\r1 2 3", "1 2 3 \r", "1 2 - 3", "1 2 -", " ", "  ", "1 2 ", "1,2,3",
        "1 2 3\0",
    ];
    d.pick(&forms).into()
}

fn spaces(d: &mut Dice) -> Vec<u8> {
    with_one(d, spaced)
}

fn zeroed(d: &mut Dice) -> Vec<u8> {
    let forms = [
        "00 2 3", "01 2 3", "063 2 3", "1 00 3", "1 02 3", "1 2 00", "1 2 03", "1 2 -0", "1 2 -00",
        "1 2 -03", "1 2 +3", "1 +2 3", "+1 2 3", "1 -0 3", "-0 2 3", "1 2 --3", "1 2 3-", "1 2 +0",
    ];
    d.pick(&forms).into()
}

fn zeros(d: &mut Dice) -> Vec<u8> {
    with_one(d, zeroed)
}

/// One of the three numbers has 19 to 25 digits; a hold of 19 may be one that there is.
fn long_number(d: &mut Dice) -> Vec<u8> {
    let digits = d.count(19, 25);
    let mut number: String = d.pick(&["1", "9", "2", "92233720368547758"]).into();
    while number.len() < digits {
        number.push(char::from(b'0' + d.count(0, 9) as u8));
    }
    let sign = d.pick(&["", "-"]);
    match d.count(0, 5) {
        0 => format!("{number} 1 1").into_bytes(),
        1 => format!("1 {number} 1").into_bytes(),
        _ => format!("1 1 {sign}{number}").into_bytes(),
    }
}

fn long_numbers(d: &mut Dice) -> Vec<u8> {
    with_one(d, long_number)
}

fn of_fields(d: &mut Dice) -> Vec<u8> {
    d.pick(&[
        "1",
        "1 2",
        "1 2 3 4",
        "1 2 3 4 5",
        "1 2 3 1 2 3",
        "-",
        "1 -",
        "- 2 3",
    ])
    .into()
}

fn fields(d: &mut Dice) -> Vec<u8> {
    with_one(d, of_fields)
}

fn stray(d: &mut Dice) -> Vec<u8> {
    let mut text = joined(&good(d, 8, 6));
    let at = d.count(0, text.len() - 1);
    let byte = match d.one_in(2) {
        true => d.word() as u8,
        false => d.pick(b"0123456789 -\n"),
    };
    match d.count(0, 2) {
        0 => text[at] = byte,
        1 => text.insert(at, byte),
        _ => drop(text.remove(at)),
    }
    text
}

fn cut(d: &mut Dice) -> Vec<u8> {
    let mut text = joined(&good(d, 12, 6));
    text.truncate(d.count(0, text.len()));
    text
}

fn likely(d: &mut Dice) -> Vec<u8> {
    (0..d.count(0, 24))
        .map(|_| d.pick(b"00123456789  --\n\n"))
        .collect()
}

fn noise(d: &mut Dice) -> Vec<u8> {
    (0..d.count(0, 24)).map(|_| d.word() as u8).collect()
}

// ---- Long texts.

/// About 100,000 lines, mostly short ones or all of the longest; what stands behind the last that
/// may be there is fine, malformed, too far or begun.
fn great(d: &mut Dice) -> Vec<u8> {
    let count = d.pick(&[LINES - 1, LINES, LINES, LINES + 1]);
    let longest = d.one_in(4);
    let mut text = Vec::new();
    for n in 0..count {
        let (crew, hold) = match longest {
            // by turns up to the limits, so that the total stays
            true => (10 + n / 2 % 54, [LEAST + 1, MOST][n % 2]),
            false => (any_crew(d), d.whole(-50, 999)),
        };
        let round = if longest { u32::MAX } else { (n % 10) as u32 };
        text.extend(line(crew, round, hold));
        text.push(b'\n');
    }
    match d.count(0, 5) {
        0 => drop(text.pop()),
        1 => text.extend(malformed(d)),
        2 => text.extend(at_limit(d)),
        3 => text.push(b'\n'),
        _ => (),
    }
    text
}
