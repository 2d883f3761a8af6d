//! A year's holds in lent memory (RULES 21.1 to 21.12): each text is fed byte by byte, in parts of
//! any length and whole. Every word of the memory is compared after each part, and what a finish
//! hands over byte for byte.

use crate::draw::beside;
use crate::proved;
use crate::report::Report;
use crate::room::{byte_room, lend, lend_bytes, Expected, Handed};
use planner::generate::dice::Dice;
use planner::holds::fed::{Fed, WORDS};
use planner::holds::years::{text, Text};
use planner::holds::{year, Year};

const SHAPE: u64 = 2;
const NO_ROOM: u64 = 12;
const LINE: u64 = 14;
const OVERFLOW: u64 = 15;

/// The room that the program has: the longest report.
const WHOLE: usize = 5_386;

/// Of a longer text only so many bytes, the last, are fed one by one.
const ONE_BY_ONE: usize = 80;

/// Where the mark of a year and the kind of its place stand, and the last kind.
const MARK: usize = 0;
const KIND: usize = 2;
const LAST_KIND: u64 = 7;

/// How a text ends: its year, or the number of its refusal.
type End = Result<Year, u8>;

pub fn compare(seed: u64, count: u64) -> Report {
    let mut report = Report::default();
    for number in 0..count {
        let text = text(seed, number, None);
        let dice = &mut beside(seed, number);
        let end = year(&text.bytes);
        look(&mut report, &text, &end);
        for parts in [
            one_by_one(&text.bytes),
            any_parts(dice, &text.bytes),
            vec![&text.bytes[..]],
        ] {
            Lent::begin(&mut report, dice, &text).through(&parts, &end);
        }
        short_memory(&mut report, dice, &text.bytes);
        no_years_memory(&mut report, dice, &text.bytes);
        odd_memory(&mut report, dice, &text.bytes);
    }
    report
}

/// Counts the kinds, and how their texts end.
fn look(report: &mut Report, text: &Text, end: &End) {
    report.see(text.kind.name);
    report.see(match end {
        Ok(_) => "end: a report",
        Err(14) => "end: refused 14",
        Err(_) => "end: refused 15",
    });
    let unended = !text.bytes.is_empty() && !text.bytes.ends_with(b"\n");
    report.see_if("end: no newline", unended);
}

fn told(bytes: &[u8]) -> String {
    format!("\"{}\"", bytes.escape_ascii())
}

// ---- Parts.

type Parts<'a> = Vec<&'a [u8]>;

/// What a long text has before its last bytes is one part.
fn one_by_one(text: &[u8]) -> Parts<'_> {
    let (before, last) = text.split_at(text.len().saturating_sub(ONE_BY_ONE));
    let mut parts: Parts = last.chunks(1).collect();
    if !before.is_empty() {
        parts.insert(0, before);
    }
    parts
}

/// Parts of up to some bytes, empty ones too.
fn any_parts<'a>(dice: &mut Dice, text: &'a [u8]) -> Parts<'a> {
    let most = dice.pick(&[9, 40, 300]).max(text.len() / 20);
    let (mut parts, mut left) = (Parts::new(), text);
    while !left.is_empty() {
        let (part, behind) = left.split_at(dice.count(0, most).min(left.len()));
        parts.push(part);
        left = behind;
    }
    parts
}

// ---- One text in parts.

/// A year in lent memory, and the same in plain Rust.
struct Lent<'a> {
    report: &'a mut Report,
    dice: &'a mut Dice,
    text: &'a Text,
    memory: Vec<u64>,
    fed: Fed,
}

impl<'a> Lent<'a> {
    /// Begins in memory that suits, or is some words longer.
    fn begin(report: &'a mut Report, dice: &'a mut Dice, text: &'a Text) -> Self {
        let len = WORDS + dice.pick(&[0, 0, 0, 1, 5]);
        let handed = lend(len, proved::holds_begin);
        let fed = Fed::default();
        report.add("begin", &handed, &words_of(&fed, Ok(()), len), || {
            format!("begin in {len} words")
        });
        Lent {
            report,
            dice,
            text,
            memory: handed.room,
            fed,
        }
    }

    /// Feeds the parts one after another, and finishes behind the last and now and then between.
    fn through(mut self, parts: &[&[u8]], end: &End) {
        for part in parts {
            if let Err(number) = self.feed(part) {
                self.same_as_whole(&Err(number), end);
                self.report.see("fed and finished behind a refusal");
                refused_memory(self.report, self.dice, self.memory, part);
                return;
            }
            if self.dice.one_in(100) {
                self.report.see("finished between two parts");
                self.finish();
            }
        }
        self.same_as_whole(&self.fed.finish(), end);
        self.finish();
    }

    /// The two ways in plain Rust give the same.
    fn same_as_whole(&mut self, in_parts: &End, end: &End) {
        let text = &self.text.bytes;
        self.report.hold(in_parts == end, || {
            format!("plain Rust in parts and as a whole: {}", told(text))
        });
    }

    fn feed(&mut self, part: &[u8]) -> Result<(), u8> {
        let mut room = std::mem::take(&mut self.memory);
        let number = proved::holds_feed(part, &mut room);
        let fed = self.fed.feed(part);
        let expected = words_of(&self.fed, fed, room.len());
        let handed = Handed { number, room };
        let text = &self.text.bytes;
        self.report.add("feed", &handed, &expected, || {
            format!("the part {} of {}", told(part), told(text))
        });
        self.memory = handed.room;
        fed
    }

    /// Finishes, which leaves the memory as it is, so that the year can go on.
    fn finish(&mut self) {
        let expected = match self.fed.finish() {
            Ok(year) => Expected::Words(year.report().bytes().map(u64::from).collect()),
            Err(number) => Expected::Refused(number.into()),
        };
        let text = &self.text.bytes;
        finished(self.report, self.dice, &self.memory, &expected, || {
            format!("the end of {}, or of its beginning", told(text))
        });
    }
}

/// The number and the memory that a feed must leave.
fn words_of(fed: &Fed, ended: Result<(), u8>, len: usize) -> Handed {
    let words = ended.ok().and_then(|()| fed.words());
    let mut room = words.unwrap_or_default();
    room.resize(len, 0);
    Handed {
        number: ended.err().map_or(0, u64::from),
        room,
    }
}

/// A finish in a room that suits, or is larger or too small.
fn finished(
    report: &mut Report,
    dice: &mut Dice,
    memory: &[u64],
    expected: &Expected,
    about: impl Fn() -> String,
) {
    let len = byte_room(dice, expected.room(), WHOLE);
    let handed = lend_bytes(len, |out| proved::holds_finish(memory, out));
    report.add("finish", &handed, &expected.in_room(len), || {
        format!("{} in {len} bytes", about())
    });
}

// ---- Memory that is no year's.

/// Memory that is too short to begin in.
fn short_memory(report: &mut Report, dice: &mut Dice, text: &[u8]) {
    let len = dice.pick(&[0, 1, 5, WORDS - 1, WORDS - 1]);
    let handed = lend(len, proved::holds_begin);
    report.add(
        "begin",
        &handed,
        &Expected::Words(vec![0; WORDS]).in_room(len),
        || format!("begin in {len} words"),
    );
    let mut begun = lend(WORDS, proved::holds_begin).room;
    begun.truncate(len);
    refused_memory(report, dice, begun, text);
}

/// Memory with another mark, or a kind of place that there is not.
fn no_years_memory(report: &mut Report, dice: &mut Dice, text: &[u8]) {
    let mut memory = lend(WORDS, proved::holds_begin).room;
    match dice.one_in(2) {
        true => memory[MARK] = dice.pick(&[0, 2, 1 << 32 | 1, u64::MAX]),
        false => memory[KIND] = dice.pick(&[LAST_KIND + 1, 255, 1 << 32, u64::MAX]),
    }
    refused_memory(report, dice, memory, text);
}

/// A finish and a feed of such memory are refused, and the feed leaves zeros.
fn refused_memory(report: &mut Report, dice: &mut Dice, mut memory: Vec<u64>, part: &[u8]) {
    let refused = Expected::Refused(SHAPE);
    let about = format!(
        "memory that begins with {:x?}",
        &memory[..memory.len().min(5)]
    );
    finished(report, dice, &memory, &refused, || about.clone());
    let number = proved::holds_feed(part, &mut memory);
    let expected = refused.in_room(memory.len());
    let handed = Handed {
        number,
        room: memory,
    };
    report.add("feed", &handed, &expected, || {
        format!("{about} fed {}", told(part))
    });
}

/// Words that no feed leaves: the calls end by a number that they have, and a refusal leaves zeros.
fn odd_memory(report: &mut Report, dice: &mut Dice, text: &[u8]) {
    let mut memory = lend(WORDS, proved::holds_begin).room;
    memory[KIND] = dice.word() % (LAST_KIND + 1);
    for at in [1, 3, 4] {
        memory[at] = odd_word(dice);
    }
    for _ in 0..dice.count(0, 20) {
        let at = dice.count(5, WORDS - 1);
        memory[at] = odd_word(dice);
    }
    let before = memory.clone();
    let about = || format!("odd memory {before:x?} and {}", told(text));
    let zero = |words: &[u64]| words.iter().all(|word| *word == 0);
    let finish = lend_bytes(WHOLE, |out| proved::holds_finish(&memory, out));
    let number = proved::holds_feed(text, &mut memory);
    let ends = [0, LINE, OVERFLOW].contains(&number) && (number == 0 || zero(&memory));
    report.hold(ends, about);
    let ends = [0, LINE, OVERFLOW, NO_ROOM].contains(&finish.number);
    report.hold(ends && (finish.number == 0 || zero(&finish.room)), about);
    report.see_if("odd memory: a feed goes on", number == 0);
    report.see_if("odd memory: a feed is refused", number != 0);
}

fn odd_word(dice: &mut Dice) -> u64 {
    match dice.count(0, 3) {
        0 => dice.word(),
        1 => dice.word() % 64,
        2 => dice.pick(&[0, 63, 64, 99_999, 100_000, 1 << 63, u64::MAX]),
        _ => 0,
    }
}

#[cfg(test)]
mod tests {
    use super::*;
    use crate::stack;

    /// What the stack of a run may reach.
    const STACK: usize = 64 * 1024;

    #[test]
    fn the_calls_stay_in_a_small_stack() {
        for number in 0..40 {
            let text = text(1, number, None).bytes;
            let (mut memory, mut out) = ([0; WORDS], [0; WHOLE]);
            let reached = stack::depth(|| {
                proved::holds_begin(&mut memory);
                proved::holds_feed(&text, &mut memory);
                proved::holds_finish(&memory, &mut out);
            });
            assert!(reached < STACK, "{reached} bytes for {}", told(&text));
        }
    }

    #[test]
    fn nothing_differs_and_every_end_comes() {
        let report = compare(6, 400);
        assert_eq!(report.differing(), 0, "{report}");
        let told = report.to_string();
        for end in ["a report", "refused 14", "refused 15", "no newline"] {
            assert!(told.contains(&format!("seen: end: {end} ")), "{report}");
        }
    }
}
